"""Plans to try that no translator writes: drawn ones, damaged ones, and those at the bounds."""

from itertools import islice

import operators
import plan
from cells import FALSE, FIRST_NODE, TRUE, Fails
from plan import NO_COLUMN, VALUE, Operator

CELLS = (0, 1, 1, 2, 3, 3, -1, 7, 2147483647, -2147483648, FALSE, TRUE, TRUE)
UNSOUND_CELLS = (2147483648, -2147483649, FALSE - 1, TRUE + 1, FIRST_NODE, FIRST_NODE - 1, -2**63, 2**63 - 1, -FALSE)
MOST_ROWS = 40

# How often a drawn plan tries each operator.
WEIGHTS = {b"RA": 4, b"RP": 4, b"RU": 5, b"RD": 3, b"RS": 2, b"RJ": 4, b"RN": 5, b"RF": 4, b"RC": 3, b"RE": 5,
           b"RK": 3, b"RX": 4, b"RO": 2}


def record(mark, *fields):
    """The bytes of one operator."""
    return plan.written([Operator(mark, fields)])


class Draw:
    """Draws a sound plan operator by operator, running it meanwhile so that few operators fail."""

    def __init__(self, rng, catalogue):
        self.rng = rng
        self.catalogue = catalogue
        self.operators = []
        self.widths = []
        self.tables = []

    def table(self, fits=lambda width: True):
        """The number of a table of fitting width, later ones sooner, or None."""
        numbers = [n for n, width in enumerate(self.widths) if fits(width)]
        return max(self.rng.choices(numbers, k=2)) if numbers else None

    def columns(self, t, k):
        return tuple(self.rng.randrange(self.widths[t]) for _ in range(k))

    def fields(self, mark):
        """Sound fields for this mark, or None where no table fits."""
        any_table = self.table()
        narrow = self.table(lambda width: width < 6)
        match mark:
            case b"RP":
                return any_table, self.columns(any_table, self.rng.choice((1, 2, 2, 3, 3, 3, 4, 5, 6)))
            case b"RU" | b"RD":
                return any_table, self.table(lambda width: width == self.widths[any_table])
            case b"RS" | b"RC" | b"RK":
                return any_table, *self.columns(any_table, 1)
            case b"RE":
                wide = self.table(lambda width: width == 3)
                return None if wide is None else (wide,)
            case b"RX":
                pair = self.table(lambda width: width == 2)
                return None if pair is None else (pair, *self.step())
        return None if narrow is None else self.fields_of_added(mark, narrow)

    def fields_of_added(self, mark, t):
        """Fields of the operators that add columns to table t."""
        match mark:
            case b"RA":
                return t, self.rng.choice(CELLS)
            case b"RO":
                return t, self.rng.choice((1, 1, 1, 2, 255))
            case b"RN":
                p = self.rng.choice((NO_COLUMN, *range(self.widths[t])))
                return t, p, self.columns(t, self.rng.randint(1, 2))
            case b"RF":
                f = self.rng.randint(1, VALUE)
                return t, f, self.columns(t, 1 if f == VALUE else 2)
            case b"RJ":
                u = self.table(lambda width: width <= 6 - self.widths[t])
                return None if u is None else (t, *self.columns(t, 1), u, *self.columns(u, 1))

    def step(self):
        test = self.rng.choice((0, 0, 0, 1, 2, 3))
        return self.rng.randint(1, 8), test, self.rng.choice((0, 1, 2)) if test == 3 else 0

    def add(self, mark, fields):
        """Adds the operator if its table is not too long; one that fails is kept now and then."""
        operator = Operator(mark, fields)
        try:
            rows = list(islice(operators.make(operator, self.tables, self.catalogue), MOST_ROWS + 1))
        except Fails:
            if self.rng.random() > 0.04:
                return
            rows = []
        if len(rows) <= MOST_ROWS:
            self.operators.append(operator)
            self.widths.append(plan.width(mark, fields, self.widths))
            self.tables.append(rows)

    def base(self):
        """A first table of a few rows, its cells of mixed kinds and often the same."""
        self.add(b"RT", ())
        width = self.rng.randint(1, 3)
        rows = []
        for _ in range(self.rng.randint(1, 4)):
            t = 0
            for _ in range(width):
                if self.catalogue.roots and self.rng.random() < 0.25:
                    self.add(b"RO", (t, self.rng.randint(1, len(self.catalogue.roots))))
                else:
                    self.add(b"RA", (t, self.rng.choice(CELLS)))
                t = len(self.operators) - 1
            rows.append(t)
        for t in rows[1:]:
            self.add(b"RU", (len(self.operators) - 1, t))

    def whole(self, most):
        """The operators of a sound plan."""
        self.base()
        marks, weights = list(WEIGHTS), list(WEIGHTS.values())
        for mark in self.rng.choices(marks, weights, k=self.rng.randint(0, most)):
            fields = self.fields(mark)
            if fields is not None:
                self.add(mark, fields)
        if self.widths[-1] != 3 or self.rng.random() < 0.3:
            self.end()
        return self.operators

    def end(self):
        """'the last of width 3', and mostly one with rows."""
        with_rows = [n for n, rows in enumerate(self.tables) if rows]
        t = max(self.rng.choices(with_rows, k=2)) if self.rng.random() < 0.9 else self.table()
        self.add(b"RP", (t, self.columns(t, 3)))


def drawn(rng, catalogue, most):
    """The bytes of a sound plan of drawn operators."""
    return plan.written(Draw(rng, catalogue).whole(most))


def damaged(rng, plan_bytes):
    """The plan with a byte changed, cut, or longer."""
    at = rng.randrange(len(plan_bytes))
    match rng.randint(0, 5):
        case 0:
            return plan_bytes[:at]
        case 1:
            return plan_bytes + rng.choice((b"R", b"RT", b"\0", record(b"RK", 0, 0), record(b"RO", 0, 0)))
        case 2:
            return plan_bytes[:at] + bytes([rng.choice((0, 3, 6, 7, 255))]) + plan_bytes[at + 1:]
        case 3:
            return plan_bytes[:at] + bytes([(plan_bytes[at] + 1) % 256]) + plan_bytes[at + 1:]
        case 4:
            return plan_bytes[:at] + bytes([(plan_bytes[at] - 1) % 256]) + plan_bytes[at + 1:]
        case 5:
            return plan_bytes[:at] + plan_bytes[at + 1:]


# Plans at the bounds. Tables 0 to 5 of `WIDTHS` have one row and widths 1 to 6.

WIDTHS = b"RT" + b"".join(record(b"RA", t, t + 2) for t in range(5))
END = record(b"RP", 0, (0, 0, 0))
SMALLEST = b"RT" + END


def after_widths(mark, *fields):
    """Operator 6 after tables of widths 1 to 6, and an end of width 3."""
    return WIDTHS + record(mark, *fields) + END


def table_numbers():
    """'makes table n from earlier tables': table 5 is the last there is."""
    for t in (0, 5, 6, 7, 65535):
        yield f"RK of table {t}", after_widths(b"RK", t, 0)
        yield f"RS of table {t}", after_widths(b"RS", t, 0)
        yield f"RC of table {t}", after_widths(b"RC", t, 0)
        yield f"RP of table {t}", after_widths(b"RP", t, (0,))
        yield f"RU of tables 5 and {t}", after_widths(b"RU", 5, t)
        yield f"RD of tables {t} and 0", after_widths(b"RD", t, 0)
        yield f"RJ of tables 0 and {t}", after_widths(b"RJ", 0, 0, t, 0)
        yield f"RJ of tables {t} and 0", after_widths(b"RJ", t, 0, 0, 0)
    for t in (6, 255, 256):
        yield f"RA of table {t}", after_widths(b"RA", t, 1)
        yield f"RN of table {t}", after_widths(b"RN", t, NO_COLUMN, (0,))
        yield f"RF of table {t}", after_widths(b"RF", t, VALUE, (0,))
        yield f"RO of table {t}", after_widths(b"RO", t, 1)
        yield f"RE of table {t}", after_widths(b"RE", t)
        yield f"RX of table {t}", after_widths(b"RX", t, 1, 0, 0)


def column_numbers():
    """'columns are bytes from 0': table 2 has columns 0 to 2."""
    for c in (0, 2, 3, 4, 254, 255):
        for mark in (b"RS", b"RC", b"RK"):
            yield f"{mark.decode()}, column {c} of 3", after_widths(mark, 2, c)
        yield f"RP, column {c} of 3", after_widths(b"RP", 2, (0, c))
        yield f"RJ, column {c} of 3 at the left", after_widths(b"RJ", 2, c, 0, 0)
        yield f"RJ, column {c} of 3 at the right", after_widths(b"RJ", 0, 0, 2, c)
        yield f"RN, p {c} of 3", after_widths(b"RN", 2, c, (0,))
        yield f"RN, key {c} of 3", after_widths(b"RN", 2, 0, (c,))
        yield f"RN, second key {c} of 3", after_widths(b"RN", 2, NO_COLUMN, (0, c))
        yield f"RF 5, column {c} of 3", after_widths(b"RF", 2, 5, (c, 0))
        yield f"RF 5, second column {c} of 3", after_widths(b"RF", 2, 5, (0, c))
        yield f"RF 7, column {c} of 3", after_widths(b"RF", 2, VALUE, (c,))


def widths():
    """'widths 1 to 6', and the widths that `RU`, `RD`, `RE` and `RX` ask for."""
    for t in range(6):
        yield f"RA to width {t + 2}", after_widths(b"RA", t, 1)
        yield f"RO to width {t + 2}", after_widths(b"RO", t, 1)
        yield f"RN to width {t + 2}", after_widths(b"RN", t, 0, (0,))
        yield f"RF to width {t + 2}", after_widths(b"RF", t, 1, (0, 0))
        yield f"RJ of widths {t + 1} and 2", after_widths(b"RJ", t, 0, 1, 0)
        yield f"RJ of widths 3 and {t + 1}", after_widths(b"RJ", 2, 0, t, 0)
        yield f"RU of widths 3 and {t + 1}", after_widths(b"RU", 2, t)
        yield f"RD of widths {t + 1} and 3", after_widths(b"RD", t, 2)
        yield f"RE of width {t + 1}", after_widths(b"RE", t)
        yield f"RX of width {t + 1}", WIDTHS + record(b"RD", t, t) + record(b"RX", 6, 1, 0, 0) + END
        yield f"the last of width {t + 1}", WIDTHS + record(b"RK", t, 0)
    for n in range(9):
        yield f"RP of {n} columns", after_widths(b"RP", 2, (2, 1, 0, 2, 1, 0, 2, 1)[:n])


def other_fields():
    """Cells, functions, keys, fragments and steps at and past their bounds."""
    for cell in (*sorted(set(CELLS)), *UNSOUND_CELLS):
        yield f"RA of cell {cell}", after_widths(b"RA", 1, cell)
    for f in (0, *range(1, 9), 255):
        yield f"RF {f} of two cells", after_widths(b"RF", 2, f, (2, 1))
        yield f"RF {f} of one cell", after_widths(b"RF", 2, f, (2,))
    for k in range(4):
        yield f"RN of {k} keys", after_widths(b"RN", 2, 0, (2, 1, 0)[:k])
    for k in (0, 1, 2, 255):
        yield f"RO {k}", after_widths(b"RO", 0, k)
    nodes = WIDTHS + record(b"RO", 0, 1)
    for axis in (0, *range(1, 9), 9, 255):
        for test in (0, 3, 4):
            yield f"RX, axis {axis}, test {test}", nodes + record(b"RX", 6, axis, test, 0) + END
    for test in (0, 1, 2, 3, 4, 255):
        for name in (0, 1, 65535):
            yield f"RX, test {test}, name {name}", nodes + record(b"RX", 6, 2, test, name) + END


def numbers_of_operators():
    """'A plan has 1 to 512 operators', 'none', '513th', 'bytes after'."""
    yield "no operators", b""
    yield "RT alone", b"RT"
    yield "two RT", b"RTRT"
    yield "the smallest plan", SMALLEST
    for n in (511, 512):
        yield f"{n} operators", b"RT" * (n - 1) + END
        yield f"{n} operators, the last of width 1", b"RT" + END + b"RT" * (n - 2)
    for name, last in {"sound": END, "a bad mark": b"QT", "one byte": b"R", "cut": b"RA\0"}.items():
        yield f"a 513th operator: {name}", b"RT" * 511 + END + last
        yield f"a 512th operator: {name}", b"RT" * 511 + last
        yield f"a second operator: {name}", b"RT" + last
    yield "a 513th operator after one of width 1", b"RT" * 512 + END
    yield "an unsound record before the 513th", b"RT" * 510 + b"RA" + b"RT" * 3


def every_operator():
    """A sound plan with every operator, over a catalogue with a fragment."""
    return plan.written([Operator(*parts) for parts in (
        (b"RT", ()), (b"RO", (0, 1)), (b"RX", (1, 3, 0, 0)), (b"RN", (2, NO_COLUMN, (1, 0))), (b"RA", (3, 7)),
        (b"RF", (4, 3, (2, 3))), (b"RP", (5, (0, 2, 4))), (b"RA", (2, TRUE)), (b"RU", (6, 7)), (b"RK", (6, 1)),
        (b"RE", (6,)), (b"RS", (10, 1)), (b"RC", (8, 0)), (b"RJ", (12, 0, 10, 0)), (b"RD", (8, 7)),
        (b"RF", (14, VALUE, (2,))), (b"RN", (14, 0, (1, 2))), (b"RP", (16, (0, 3, 2))))])


def every_byte():
    """That plan cut at every byte, and with every byte changed."""
    whole = every_operator()
    for end in range(len(whole)):
        yield f"cut at byte {end}", whole[:end]
    for at, old in enumerate(whole):
        for new in sorted({255, (old + 1) % 256} - {old}):
            yield f"byte {at} changed to {new}", whole[:at] + bytes([new]) + whole[at + 1:]


def boundaries():
    """Every plan that this module knows by name: its name and its bytes."""
    yield "every operator", every_operator()
    for family in (table_numbers, column_numbers, widths, other_fields, numbers_of_operators, every_byte):
        yield from family()


# Plans by what they do. A root stands in a row by its word.

ROOTS = {"root 1": 1, "root 2": 2}


def table_of(rows):
    """Operators that make a table of these rows: its number is the last."""
    made, ends = [Operator(b"RT", ())], []
    for row in rows:
        t = 0
        for cell in row:
            made.append(Operator(b"RO", (t, ROOTS[cell])) if cell in ROOTS else Operator(b"RA", (t, cell)))
            t = len(made) - 1
        made.append(Operator(b"RP", (t, tuple(range(1, len(row) + 1)))))
        ends.append(len(made) - 1)
    whole = ends[0]
    for t in ends[1:]:
        made.append(Operator(b"RU", (whole, t)))
        whole = len(made) - 1
    return made


# Groups that do not rise, ties, repeats, cells of mixed kinds.
UNSORTED = ((2, 1, 5), (1, 2, TRUE), ("root 2", 0, TRUE), (1, 2, 5), (FALSE, 1, 0), ("root 1", 1, FALSE), (2, 1, 5),
            (-1, "root 1", 0), (1, -2, "root 1"))


def over(rows, *more):
    """A plan: the rows' table, then these operators.

    In the operators None stands for the last table and 'rows' for the rows' table. Where rows have three
    cells, table 4 n holds row n - 1."""
    made = table_of(rows)
    base = len(made) - 1
    for mark, *fields in more:
        last = len(made) - 1
        made.append(Operator(mark, tuple(last if f is None else base if f == "rows" else f for f in fields)))
    return plan.written(made)


def by_what_they_do():
    """Each operator over unsorted groups, ties and empty tables."""
    front = (b"RP", None, (0, 1, 1))
    empty = (b"RD", None, None)
    for p in (NO_COLUMN, 0, 1, 2):
        for keys in ((0,), (1,), (2,), (0, 1), (1, 0), (2, 2)):
            yield f"RN p {p}, keys {keys}", over(UNSORTED, (b"RN", None, p, keys), (b"RP", None, (0, 3, 2)))
    for c in range(3):
        yield f"RC of column {c}", over(UNSORTED, (b"RC", None, c), front)
        yield f"RK of column {c}", over(UNSORTED, (b"RK", None, c))
        yield f"RS of column {c}", over(UNSORTED, (b"RS", None, c))
        for d in range(3):
            yield f"RJ of columns {c} and {d}", over(UNSORTED, (b"RJ", None, c, None, d), (b"RP", None, (1, 2, 5)))
    yield "RU of a table and itself", over(UNSORTED, (b"RU", None, None))
    yield "RD keeps repeated rows", over(UNSORTED, (b"RD", "rows", 8))
    yield "RD of a table and itself", over(UNSORTED, empty)
    yield "RO over an empty table, no fragment 255", over(UNSORTED, empty, (b"RO", None, 255), (b"RP", None, (0, 1, 3)))
    yield "RO over rows, no fragment 255", over(UNSORTED, (b"RO", None, 255), (b"RP", None, (0, 1, 3)))
    for f in range(1, VALUE + 1):
        columns = (1,) if f == VALUE else (1, 2)
        yield f"RF {f} over an empty table", over(UNSORTED, empty, (b"RF", None, f, columns), (b"RP", None, (0, 1, 3)))
        yield f"RF {f} over rows of mixed kinds", over(UNSORTED, (b"RF", None, f, columns), (b"RP", None, (0, 1, 3)))
    for mark, *fields in ((b"RE",), (b"RC", 0), (b"RN", 0, (1,)), (b"RK", 0), (b"RS", 0), (b"RJ", 0, "rows", 0)):
        yield f"{mark.decode()} over an empty table", over(UNSORTED, empty, (mark, None, *fields), front)


def truths_by_order():
    """`RE`: groups by first appearance; in a group the least column 1 first, then the earliest row."""
    for rows in (((1, 1, TRUE),), ((1, 1, FALSE),), ((1, 1, 0),), ((1, 1, -3),), ((1, 1, "root 1"),),
                 ((1, 1, "root 1"), (1, 2, 5)), ((1, 2, 5), (1, 1, "root 1")), ((1, 1, 5), (1, 2, "root 1")),
                 ((1, 1, "root 1"), (1, 1, 5)), ((1, 1, 5), (1, 1, "root 1")), ((1, 1, TRUE), (1, 2, TRUE)),
                 ((1, TRUE, 5), (1, 3, "root 1")), ((1, "root 1", 5), (1, TRUE, "root 2")),
                 ((1, 0, 5), (1, -1, "root 1")),
                 ((1, 1, TRUE), (2, 1, 1), (2, 2, 1)), ((2, 1, TRUE), (1, 1, 0), (FALSE, 1, 7), (-1, 3, FALSE)),
                 ((2, 2, 0), (1, 9, 1), (2, 1, "root 1"), (2, 3, FALSE)), (("root 2", 1, 0), ("root 1", 1, 1))):
        yield f"RE of {rows}", over(rows, (b"RE", None), (b"RP", None, (0, 1, 1)))


def functions():
    """`RF` at the ends of the range, of each sign, and over what is no integer."""
    least, greatest = -2147483648, 2147483647
    for a, b in ((greatest, 1), (least, 1), (least, -1), (greatest, greatest), (46341, 46341), (65536, -32768), (-7, 2),
                 (7, -2), (-1, 1), (1, 0), (3, 3), (TRUE, TRUE), (TRUE, 1), ("root 1", "root 1"), (2, "root 1")):
        for f in range(1, VALUE):
            yield f"RF {f} of {a} and {b}", over(((a, b),), (b"RF", None, f, (0, 1)))
    for cell in (least, FALSE, TRUE, "root 1"):
        yield f"RF 7 of {cell}", over(((1, cell),), (b"RF", None, VALUE, (1,)))


def steps_by_groups():
    """`RX` over groups that do not rise and contexts that repeat, every axis; and over what is no node."""
    groups = ((3, "root 1"), (1, "root 2"), (3, "root 2"), (2, "root 1"), (3, "root 1"))
    front = (b"RP", None, (0, 1, 1))
    for axis in range(1, 9):
        for test in (0, 2):
            yield f"RX by groups, axis {axis}, test {test}", over(
                groups, (b"RX", None, 3, 0, 0), (b"RU", None, "rows"), (b"RX", None, axis, test, 0), front)
    no_node = ((1, 1), (2, 5))
    yield "RX of a node, then no node", over(((1, "root 1"), (2, 5)), (b"RX", None, 3, 0, 0), front)
    yield "RX of no node", over(no_node, (b"RX", None, 3, 0, 0), front)
    yield "RX of nothing", over(no_node, (b"RD", None, None), (b"RX", None, 3, 0, 0), front)


def filling(cells):
    """A plan that fills exactly that many cells, 3 n + 1 or 3 n + 2: `RT` once or twice, then tables of width 3.

    Tables of 1, 2, 4 .. rows come first, each a `RU` of the last with itself; then one for each two binary
    digits of the rows that are left, a `RU` of the tables of so many rows."""
    made = [Operator(b"RT", ())] * (cells % 3)
    one_row = len(made)
    made.append(Operator(b"RP", (0, (0, 0, 0))))
    rest, power = cells // 3 - 1, 0
    while 2 ** (power + 1) <= rest:
        made.append(Operator(b"RU", (one_row + power, one_row + power)))
        power += 1
        rest -= 2 ** power
    digits = [digit for digit in range(power + 1) if rest >> digit & 1]
    while len(digits) > 1:
        made.append(Operator(b"RU", (one_row + digits.pop(), one_row + digits.pop())))
    if digits:
        # `RP` of all three columns copies the one table that is left over.
        made.append(Operator(b"RP", (one_row + digits[0], (0, 1, 2))))
    return plan.written(made)
