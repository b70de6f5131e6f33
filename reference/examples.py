"""The marked examples of document 01, and chartask's."""

import some_catalogues
from some_queries import (ADD, FAILING, FALSE, FOLLOWING, IDIV, NOTHING, TRUE, choose, each, let, literal, operate,
                          root, sequence, step, variable)

NO_ROWS = b""
TWO_FRAGMENTS = some_catalogues.written([(0, 0, 1, 1), (0, 0, 1, 1)])
FAILS = None

# Name, query, catalogue, items; examples 1 to 10 and 12.
MARKED = [
    ("1. for v in (1,2) return (v, for w in (10,20) return (v,w))",
     each(0, sequence(literal(1), literal(2)),
          sequence(variable(0), each(1, sequence(literal(10), literal(20)), sequence(variable(0), variable(1))))),
     NO_ROWS, [1, 1, 10, 1, 20, 2, 2, 10, 2, 20]),
    ("2. -7 idiv 2", operate(IDIV, literal(-7), literal(2)), NO_ROWS, [-3]),
    ("3. -2147483648 idiv -1", operate(IDIV, literal(-2147483648), literal(-1)), NO_ROWS, FAILS),
    ("4. (1,2) + ()", operate(ADD, sequence(literal(1), literal(2)), NOTHING), NO_ROWS, FAILS),
    ("5. true + ()", operate(ADD, TRUE, NOTHING), NO_ROWS, []),
    ("6. for over () of 1 idiv 0", each(0, NOTHING, FAILING), NO_ROWS, []),
    ("7. if false then 1 idiv 0 else 2", choose(FALSE, FAILING, literal(2)), NO_ROWS, [2]),
    ("8. let v := 1 idiv 0 return 2", let(0, FAILING, literal(2)), NO_ROWS, FAILS),
    ("9. if () then 1 else 2", choose(NOTHING, literal(1), literal(2)), NO_ROWS, [2]),
    ("10. a condition (2, true)", choose(sequence(literal(2), TRUE), literal(1), literal(2)), NO_ROWS, FAILS),
    ("12. following of the first of two one-row fragments", step(FOLLOWING, 0, 0, root(1)), TWO_FRAGMENTS, []),
]

# Example 11: the query, its plan's operators and bytes, the cells it fills, and where 12 cells are too few.
TEN = literal(10)
TEN_OPERATORS, TEN_BYTES, TEN_CELLS, TEN_PLACE = 5, 41, 13, 33

EXAMPLE_DOC = some_catalogues.written(some_catalogues.EXAMPLE)
EXAMPLE_QUERY = bytes.fromhex("51 46 00 51 58 01 03 00 02 51 52 01 51 43 51 58 01 03 00 03 51 56 00")
EXAMPLE_TEXT = "items 2\nint 1\nint 0\nsame yes\n"
EXAMPLE_OPERATORS, EXAMPLE_BYTES, EXAMPLE_CELLS, EXAMPLE_COUNT = 28, 214, 130, 4
