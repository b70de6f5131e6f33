"""A plan whose rows somebody moves after every operator: does it give the same list?

Document 01: 'Iteration numbers, places and preorder ranks are three counters'. The order in which rows stand is none
of them. A right plan numbers by columns, and never leans on how rows happen to stand: whoever moves them, it refuses
at the same operator, or fills as many cells, and its last table, read by rising place, holds the same items.

A hand takes a table's number and its rows, and gives the same rows in some order.
"""

import random
from typing import NamedTuple

import catalogue
import plan
import runner
from cells import Refused, room


# Hands.

def as_they_stand(number, rows):
    """Moves nothing: the plain run."""
    return rows


def shuffled(seed):
    """Puts every table in a drawn order; the same seed draws the same."""
    def hand(number, rows):
        return random.Random(f"{seed} {number}").sample(rows, len(rows))
    return hand


def turned(k):
    """Turns table k round, and leaves the others."""
    return lambda number, rows: rows[::-1] if number == k else rows


# Runs.

class Work(NamedTuple):
    """A plan that is read, a catalogue that is read, and the room."""
    operators: list
    widths: list
    rows: catalogue.Catalogue
    room: int


def work(plan_bytes, doc, lent):
    """'Query or plan, then catalogue, then work.'"""
    return Work(*plan.read(plan_bytes), catalogue.read(doc), room(lent))


def tables_by(hand, work):
    """Each table in turn, as the hand leaves it; or the refusal where an operator fails or passes the room."""
    tables, left = [], work.room
    for number, (operator, width) in enumerate(zip(work.operators, work.widths)):
        table = runner.laid(operator, runner.made(operator, tables, work.rows), width, left)
        left -= len(table) * width
        tables.append(hand(number, table))
        yield tables[-1]


def by_place(table):
    """The items of a table (iter, pos, item) by rising place."""
    return [row[2] for row in sorted(table, key=lambda row: row[1])]


def run_by(hand, work):
    """The tables as far as they come; then refusal, place, cells filled and items."""
    tables = []
    try:
        for table in tables_by(hand, work):
            tables.append(table)
    except Refused as refused:
        return tables, (refused.number, refused.place, 0, [])
    return tables, (0, 0, len(runner.end_to_end(tables)), by_place(tables[-1]))


# Whether a plan leans on the order of rows.

def hands(tables, seeds, turning):
    """The hands to try on a plan with these tables, each with its name. A table of one row has one order.

    Turning every table round would show little: two turns undo one another."""
    can_move = [number for number, table in enumerate(tables) if len(table) > 1]
    if can_move:
        yield from ((f"--shuffle {seed}", shuffled(seed)) for seed in seeds)
    if turning:
        yield from ((f"--turn {k}", turned(k)) for k in can_move)


def leaning(work, seeds, turning):
    """The name of the first hand that makes the run end otherwise, or None; and how many hands were tried."""
    tables, plain = run_by(as_they_stand, work)
    tried = 0
    for name, hand in hands(tables, seeds, turning):
        tried += 1
        if run_by(hand, work)[1] != plain:
            return name, tried
    return None, tried
