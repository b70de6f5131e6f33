"""Cases for each public call and for chartask: what is given, and what the model answers.

`cases(call, n, seed)` gives every case at a bound, then n drawn ones. The same seed gives
the same cases. Most are small, so that they can be kept in files.
"""

import random
from typing import NamedTuple

import at_bounds
import catalogue
import chartask
import evaluator
import query
import runner
import sheets
import some_catalogues
import some_plans
import some_queries
import some_texts
import translator
import typed
from cells import Refused
from rooms import bytes_needed, cells_needed, drawn_length, items_needed, plan_of

# Past these a query is not tried.
MOST_TURNS = 1200
MOST_ITEMS = 300

CALLS = {
    "check_catalogue": lambda doc: catalogue.check_catalogue(doc),
    "check_query": lambda query_bytes: query.check_query(query_bytes),
    "translate": lambda query_bytes, lent: translator.translate(query_bytes, lent),
    "run": lambda plan_bytes, doc, lent: runner.run(plan_bytes, doc, lent),
    "evaluate": lambda query_bytes, doc, lent: evaluator.evaluate(query_bytes, doc, lent),
    "chartask": lambda doc, query_bytes: chartask.printed(doc, query_bytes),
    "read_text": lambda text, lent: typed.read_text(text, lent),
    "write_text": lambda query_bytes, lent: typed.write_text(query_bytes, lent),
    "read_sheets": lambda text, lent: sheets.read_sheets(text, lent),
    "write_sheets": lambda doc, lent: sheets.write_sheets(doc, lent),
}


class Case(NamedTuple):
    """What is given to the call, in the order of its arguments, and its whole answer."""
    call: str
    name: str
    given: tuple
    answer: object


def is_small(query_bytes, rows):
    """Whether the query is sound and, over that many rows, ends soon."""
    try:
        turns, items = some_queries.bounds(query.read(query_bytes), rows, {})
    except Refused:
        return False
    return turns <= MOST_TURNS and items <= MOST_ITEMS


def pair(rng, most_records):
    """A sound query and a sound catalogue, small enough to work out."""
    while True:
        rows = some_catalogues.drawn(rng, rng.choice((3, 9, 9, 14, 14, 40)), 0 if rng.random() < 0.03 else 1)
        query_bytes = some_queries.drawn(rng, most_records)
        if is_small(query_bytes, len(rows)):
            return query_bytes, some_catalogues.written(rows)


def pairs(n, seed):
    """n such queries with their catalogues."""
    rng = random.Random(f"pairs {seed}")
    for _ in range(n):
        yield pair(rng, rng.choice((8, 24, 24, 60)))


def drawn_catalogue(rng):
    most = rng.choice((3, 5, 9, 9, 30))
    if rng.random() < 0.35:
        return "drawn", (some_catalogues.written(some_catalogues.drawn(rng, most)),)
    return "damaged", (some_catalogues.damaged(rng, most),)


def drawn_query(rng):
    query_bytes = some_queries.drawn(rng, rng.choice((4, 12, 30, 60, 120)))
    which = rng.random()
    if which < 0.4:
        return "drawn", (query_bytes,)
    if which < 0.5:
        return "near a bound", (some_queries.near_a_bound(rng),)
    return "damaged", (some_queries.damaged(rng, query_bytes),)


def drawn_translation(rng):
    query_bytes = some_queries.drawn(rng, rng.choice((4, 8, 16, 24, 70)))
    if rng.random() < 0.1:
        return "damaged", (some_queries.damaged(rng, query_bytes), rng.choice((0, 100)))
    return "drawn", (query_bytes, drawn_length(rng, bytes_needed(query_bytes)))


def drawn_plan(rng):
    """A plan that the translator writes, or one that it never would, and a catalogue."""
    if rng.random() < 0.4:
        query_bytes, doc = pair(rng, 12)
        return "a translation", plan_of(query_bytes) or some_plans.SMALLEST, doc
    doc = some_catalogues.written(some_catalogues.drawn(rng, 9))
    return "drawn", some_plans.drawn(rng, catalogue.read(doc), 25), doc


def drawn_run(rng):
    name, plan_bytes, doc = drawn_plan(rng)
    which = rng.random()
    if which < 0.15:
        name, plan_bytes = "damaged", some_plans.damaged(rng, plan_bytes)
    elif which < 0.2:
        name, doc = "damaged catalogue", some_catalogues.damaged(rng, 5)
    return name, (plan_bytes, doc, drawn_length(rng, cells_needed(plan_bytes, doc)))


def drawn_work(rng):
    """A query with a catalogue; now and then one of them is damaged."""
    query_bytes, doc = pair(rng, 24)
    which = rng.random()
    if which < 0.05:
        damaged = some_queries.damaged(rng, query_bytes)
        # A damaged query that is still sound may take for ever.
        if query.check_query(damaged).refusal:
            return "damaged", damaged, doc
    elif which < 0.1:
        return "damaged catalogue", query_bytes, some_catalogues.damaged(rng, 5)
    return "drawn", query_bytes, doc


def drawn_evaluation(rng):
    name, query_bytes, doc = drawn_work(rng)
    return name, (query_bytes, doc, drawn_length(rng, items_needed(query_bytes, doc)))


def drawn_printing(rng):
    name, query_bytes, doc = drawn_work(rng)
    return name, (doc, query_bytes)


def drawn_typing(rng):
    text = some_texts.any_text(rng, rng.choice((6, 14, 30)))
    return "drawn", (text, drawn_length(rng, typed.read_text(text, 9999).record_bytes))


def drawn_wording(rng):
    query_bytes = some_queries.drawn(rng, rng.choice((4, 12, 30)))
    if rng.random() < 0.15:
        return "damaged", (some_queries.damaged(rng, query_bytes), rng.choice((0, 100)))
    return "drawn", (query_bytes, drawn_length(rng, typed.write_text(query_bytes, 9999).text_bytes))


def drawn_sheets(rng):
    text = some_texts.any_sheets(rng)
    return "drawn", (text, drawn_length(rng, 10 * sheets.read_sheets(text, 999).rows))


def drawn_catalogue_to_write(rng):
    """Half of them have no texts side by side."""
    rows = some_catalogues.drawn(rng, rng.choice((5, 9, 30)))
    doc = some_catalogues.written(some_texts.apart(rows) if rng.random() < 0.5 else rows)
    if rng.random() < 0.15:
        doc = some_catalogues.damaged(rng, 9)
    return "drawn", (doc, drawn_length(rng, sheets.write_sheets(doc, 999).text_bytes))


DRAWN = {"check_catalogue": drawn_catalogue, "check_query": drawn_query, "translate": drawn_translation,
         "run": drawn_run, "evaluate": drawn_evaluation, "chartask": drawn_printing, "read_text": drawn_typing,
         "write_text": drawn_wording, "read_sheets": drawn_sheets, "write_sheets": drawn_catalogue_to_write}


def inputs(call, n, seed):
    """Name and input of every case at a bound, then of n drawn ones."""
    yield from at_bounds.inputs(call)
    rng = random.Random(f"{call} {seed}")
    for _ in range(n):
        yield DRAWN[call](rng)


def cases(call, n, seed):
    """Those inputs with the model's answers."""
    for name, given in inputs(call, n, seed):
        yield Case(call, name, given, CALLS[call](*given))
