"""How far the lent cells reach: how many harbours a sheet may have before the runner answers 6.

    python3 reference/reach.py

Document 01: 'Room'. `chartask` lends 8,192 cells; 65,536 are the most that count.
"""

import pathlib
import sys

sys.dont_write_bytecode = True

import chartask
import described
import runner
import some_catalogues
from catalogue import ELEMENT, MOST_ROWS, TEXT
from cells import MOST_CELLS
from rooms import plan_of

EXAMPLES = pathlib.Path(__file__).resolve().parent.parent / "examples"
QUERIES = "sample", "missing-condition", "order-of-a-sequence"

# A harbour's rows (level, kind, prop), in two kinds of sheet.
SHEETS = {"each with a latitude and a longitude": [(1, ELEMENT, 2), (2, ELEMENT, 3), (3, TEXT, 5350), (2, ELEMENT, 4),
                                                   (3, TEXT, 995)],
          "each with nothing below it": [(1, ELEMENT, 2)]}


def cells_filled(plan_bytes, harbour, n):
    """The cells that the plan fills over n such harbours; past all room where the most that count are too few."""
    doc = some_catalogues.written(some_catalogues.sized([(0, ELEMENT, 1)] + n * harbour))
    answer = runner.run(plan_bytes, doc, MOST_CELLS)
    return MOST_CELLS + 1 if answer.refusal else answer.cells_filled


def most_harbours(plan_bytes, harbour, lent):
    """The most harbours that so many cells hold, up to those that 2,048 rows allow.

    Each harbour fills as many cells as the one before; the number that follows from this is tried, and one more."""
    one, two = (cells_filled(plan_bytes, harbour, n) for n in (1, 2))
    every = (MOST_ROWS - 1) // len(harbour)
    most = min(every, 1 + (lent - one) // (two - one))
    assert cells_filled(plan_bytes, harbour, most) <= lent
    assert most == every or cells_filled(plan_bytes, harbour, most + 1) > lent
    return most


def held(plan_bytes, harbour, lent):
    """The number, and how many cells it fills."""
    most = most_harbours(plan_bytes, harbour, lent)
    every = ", all that 2,048 rows allow" if most == (MOST_ROWS - 1) // len(harbour) else ""
    return f"{most:,}{every} ({cells_filled(plan_bytes, harbour, most):,} cells)"


def in_markdown():
    """A table, a line for each query and kind of sheet."""
    rows = []
    for name in QUERIES:
        plan_bytes = plan_of((EXAMPLES / name / "query.bin").read_bytes())
        for sheet, harbour in SHEETS.items():
            holds = [held(plan_bytes, harbour, lent) for lent in (chartask.WORK_CELLS, MOST_CELLS)]
            rows.append([f"`{name}`", sheet, *holds])
    return described.grid(["query", "harbours", "8,192 cells hold", "65,536 cells hold"], rows)


if __name__ == "__main__":
    print(in_markdown(), end="")
