"""How much room a case needs, so that cases can lend one cell less, enough, or one more.

Document 01: 'Room', and the refusals 6 and 8.
"""

import catalogue
import evaluator
import plan
import runner
import some_queries as q
import translator
from cells import MOST_CELLS


def plan_of(query_bytes):
    """The plan that the translator writes, or None where it refuses."""
    translated = translator.translate(query_bytes, 12 * plan.MOST_OPERATORS)
    return None if translated.refusal else translated.lent[:translated.plan_bytes]


def cells_before(plan_bytes, doc, place):
    """The cells that the operators before this place fill."""
    its_operators, widths = plan.read(plan_bytes)
    before = [operator for operator in its_operators if operator.at < place]
    tables = runner.lay(before, widths, catalogue.read(doc), MOST_CELLS)
    return len(runner.end_to_end(tables))


def cells_needed(plan_bytes, doc):
    """The least room in which the runner does not answer 6 (0 where no room is enough or none is needed)."""
    answer = runner.run(plan_bytes, doc, MOST_CELLS)
    if answer.refusal == 7:
        return cells_before(plan_bytes, doc, answer.place)
    return answer.cells_filled


def items_needed(query_bytes, doc):
    """The least room in which the evaluator does not answer 6; for a query that fails it is found by halving."""
    least, most = 0, MOST_CELLS
    answer = evaluator.evaluate(query_bytes, doc, most)
    if not answer.refusal:
        return answer.count
    while least < most:
        middle = (least + most) // 2
        if evaluator.evaluate(query_bytes, doc, middle).refusal == 6:
            least = middle + 1
        else:
            most = middle
    return least


def bytes_needed(query_bytes):
    """The bytes of the query's plan; a few where the translator refuses it."""
    plan_bytes = plan_of(query_bytes)
    return 12 if plan_bytes is None else len(plan_bytes)


def lengths_around(needed):
    """No room, one less than needed, enough, one more."""
    return sorted({0, max(needed - 1, 0), needed, needed + 1})


def drawn_length(rng, needed):
    """A lent length near the one needed, or none, or any below it."""
    return rng.choice((max(needed - 1, 0), needed, needed, needed + 1, needed + 7, 0, rng.randint(0, needed)))


def cells_filled(query_bytes):
    """The cells that the query's plan fills over no rows."""
    return runner.run(plan_of(query_bytes), b"", MOST_CELLS).cells_filled


def query_of_cells(cells):
    """A query whose plan fills exactly that many cells: the empty sequence under `let` of parts that add up.

    A literal adds 5, its `QD` 12, a `QC` of nothing 16; with these every number from 24 on is reached."""
    query_bytes, rest = q.NOTHING, cells - cells_filled(q.NOTHING)
    for times in range(7, 0, -1):
        part = q.doubled(times, q.variable(0))
        added = cells_filled(q.let(1, part, q.NOTHING)) - cells_filled(q.NOTHING)
        while rest - added >= 24:
            query_bytes, rest = q.let(1, part, query_bytes), rest - added
    small = next((fives, twelves, sixteens) for sixteens in range(3) for twelves in range(3) for fives in range(99)
                 if 5 * fives + 12 * twelves + 16 * sixteens == rest)
    for part, times in zip((q.literal(1), q.values(q.literal(1)), q.count(q.NOTHING)), small):
        for _ in range(times):
            query_bytes = q.let(1, part, query_bytes)
    return query_bytes
