"""A folder's query worked out as chartask does it, for people: its plan, its tables, its text.

A fault of the model may be planted, and a hand may move the rows of every table (shuffling.py).
"""

import pathlib
from contextlib import contextmanager, nullcontext
from typing import NamedTuple

import catalogue
import chartask
import described
import faults
import faults_in_engines  # each of the four notes its faults
import faults_in_meaning
import faults_in_order
import faults_in_readers
import plan
import query
import shuffling
import translator
import xquery
from cells import Refused

ERRORS = IndexError, KeyError, TypeError, ValueError


class Wrong(Exception):
    """What was asked for cannot be had; the message says why, in a line."""


class Asked(NamedTuple):
    """A folder; the fault to plant, if any; and who moves rows: nobody, `shuffle SEED` or `turn K`."""
    folder: pathlib.Path
    fault: str = ""
    moving: tuple = ()


# What is given.

def first_bytes(path, most):
    """A file's first bytes; 'missing is empty'."""
    try:
        with path.open("rb") as file:
            return file.read(most)
    except FileNotFoundError:
        return b""
    except OSError as error:
        raise Wrong(f"{path} cannot be read: {error.strerror}") from None


def given(folder):
    """The query and the catalogue of a folder, as far as chartask reads them."""
    if not folder.is_dir():
        raise Wrong(f"there is no folder {folder}")
    if not (folder / "query.bin").exists():
        raise Wrong(f"there is no query.bin in {folder}")
    return first_bytes(folder / "query.bin", chartask.QUERY_BYTES), first_bytes(folder / "doc.bin", chartask.DOC_BYTES)


@contextmanager
def planted(name):
    """The fault of that name in the model; a fault may end it in an error of Python's."""
    found = next((fault for fault in faults.FAULTS if fault.name == name), None)
    if name and not found:
        raise Wrong(f"there is no fault '{name}'; python3 reference/tables.py --faults names them all")
    with faults.planted(found) if found else nullcontext():
        try:
            yield
        except ERRORS as error:
            if not found:
                raise
            raise Wrong(f"with the fault '{name}' the model ends in a {type(error).__name__}") from None


def hand_of(moving, operators):
    """Who moves the rows."""
    match moving:
        case ():
            return shuffling.as_they_stand
        case "shuffle", seed:
            return shuffling.shuffled(seed)
        case "turn", k if k.isdecimal() and int(k) < len(operators):
            return shuffling.turned(int(k))
        case "turn", k:
            raise Wrong(f"there is no table {k} to turn; the plan has tables 0 to {len(operators) - 1}")


# The plan.

def text_of(expression):
    return xquery.Texts(lambda k: f"root({k})").text(expression)


def plan_and_parts(query_bytes):
    """The plan's bytes, or the translator's refusal; and for each table the parts of the query whose items it holds."""
    holds = {}
    rule = translator.Translation.expression

    def noted(to, expression, loop, tables):
        table = rule(to, expression, loop, tables)
        holds.setdefault(table, {})[f"`{text_of(expression)}`"] = None
        return table
    translator.Translation.expression = noted
    try:
        translated = translator.translate(query_bytes, chartask.PLAN_BYTES)
    finally:
        translator.Translation.expression = rule
    if translated.refusal:
        raise Refused(translated.refusal, translated.place)
    holds.setdefault(translated.operators - 1, {"the whole query": None})
    return translated.lent[:translated.plan_bytes], holds


# The tables.

class Run(NamedTuple):
    """A plan that was run: its work, the tables as far as they come, how it ends, and whose items each table holds."""
    work: shuffling.Work
    tables: list
    end: tuple
    holds: dict


def run(asked):
    """The run of the folder's plan."""
    query_bytes, doc = given(asked.folder)
    plan_bytes, holds = plan_and_parts(query_bytes)
    work = shuffling.work(plan_bytes, doc, chartask.WORK_CELLS)
    return Run(work, *shuffling.run_by(hand_of(asked.moving, work.operators), work), holds)


def moved(moving, number, rows):
    """Whether, and how, a table's rows were moved."""
    if len(rows) < 2 or not moving or moving[0] == "turn" and int(moving[1]) != number:
        return ""
    return "; its rows shuffled" if moving[0] == "shuffle" else "; its rows turned round"


def how_it_ends(refusal):
    """Of the operator that makes no table."""
    return ": **it fails**" if refusal == 7 else f": **no room**, it would pass the {chartask.WORK_CELLS:,} cells"


def described_tables(asked):
    """Each table in turn as markdown; last the operator that makes none. And the refusal's line, or none."""
    with planted(asked.fault):
        its = run(asked)
    names = described.all_names(its.work.operators)
    texts = []
    for number, (operator, rows) in enumerate(zip(its.work.operators, its.tables)):
        parts = "; the items of " + " and of ".join(its.holds[number]) if number in its.holds else ""
        ends = parts + moved(asked.moving, number, rows) + ("" if rows else ": no rows")
        texts.append(described.table(number, operator, names[number], rows, ends))
    refusal, place, _, _ = its.end
    if not refusal:
        return texts, ""
    last = len(its.tables)
    texts.append(described.table(last, its.work.operators[last], [], [], how_it_ends(refusal)))
    return texts, f"refused {refusal} at {place}"


# What comes out.

def prints(asked):
    """What chartask prints."""
    query_bytes, doc = given(asked.folder)
    with planted(asked.fault):
        return chartask.printed(doc, query_bytes)


def end_in_words(end):
    """'995, -1, 912', or the refusal."""
    refusal, place, _, items = end
    return f"refused {refusal} at {place}" if refusal else ", ".join(map(described.shown, items)) or "no items"


def both_ends(asked):
    """The last table read by rising place, with the rows as they stand and with the rows moved."""
    with planted(asked.fault):
        plain, by_hand = (run(one).end for one in (asked._replace(moving=()), asked))
    verdict = f"{'the' if plain == by_hand else 'NOT the'} same {'refusal' if plain[0] else 'list'}"
    return f"rows as they stand: {end_in_words(plain)}\nrows moved:         {end_in_words(by_hand)}\n{verdict}\n"
