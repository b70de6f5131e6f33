"""Plan bytes: read, checked and written.

Document 01: 'Plan operators' (the records and widths), and refusal 5.

Fields of an operator, in the order of its record:
    RT ()               RA (t, cell)        RP (t, columns)     RU RD (t, u)
    RS RC RK (t, c)     RJ (t, c, u, d)     RN (t, p, keys)     RF (t, f, columns)
    RE (t)              RX (t, axis, test, name)                RO (t, k)
"""

from typing import NamedTuple

from cells import Refused, is_boolean, is_integer
from query import sound_fragment, sound_step

MOST_OPERATORS = 512
MOST_COLUMNS = 6
NO_COLUMN = 255
VALUE = 7


class Operator(NamedTuple):
    """One operator; `at` is its record's byte offset."""
    mark: bytes
    fields: tuple
    at: int = 0


class Unsound(Exception):
    """'plan record unsound'"""


def demand(holds):
    """A record that does not hold to its rule is unsound."""
    if not holds:
        raise Unsound


class Cursor:
    """Numbers of a record, left to right; 'Numbers in records are big-endian'."""

    def __init__(self, plan, at):
        self.plan = plan
        self.at = at

    def take(self, length):
        """The next bytes; a record that ends too soon is unsound."""
        end = self.at + length
        demand(end <= len(self.plan))
        taken = self.plan[self.at:end]
        self.at = end
        return taken

    def two_bytes(self):
        """A table's number, or a name."""
        return int.from_bytes(self.take(2), "big")

    def byte(self):
        """A column, or another number of one byte."""
        return self.take(1)[0]

    def columns(self, length):
        """Several columns."""
        return tuple(self.take(length))

    def cell(self):
        """A signed 64-bit cell."""
        return int.from_bytes(self.take(8), "big", signed=True)


def sound_number_of_columns(n):
    """`RP`: 'those n columns (1 to 6)'."""
    return 1 <= n <= MOST_COLUMNS


def sound_number_of_keys(k):
    """`RN`: 'the k keys (1 or 2)'."""
    return 1 <= k <= 2


def read_columns(take):
    """n, then n columns."""
    n = take.byte()
    demand(sound_number_of_columns(n))
    return take.columns(n)


def read_keys(take):
    """k, then k columns."""
    k = take.byte()
    demand(sound_number_of_keys(k))
    return take.columns(k)


def read_function(take):
    """`RF`: 'function 1 to 6 above of two cells, or 7, the value of one (d absent)'."""
    f = take.byte()
    demand(1 <= f <= VALUE)
    return f, take.columns(1 if f == VALUE else 2)


def read_fields(mark, take):
    """The fields of a record with this mark."""
    match mark:
        case b"RT":
            return ()
        case b"RA":
            return take.two_bytes(), take.cell()
        case b"RP":
            return take.two_bytes(), read_columns(take)
        case b"RU" | b"RD":
            return take.two_bytes(), take.two_bytes()
        case b"RS" | b"RC" | b"RK" | b"RO":
            return take.two_bytes(), take.byte()
        case b"RJ":
            return take.two_bytes(), take.byte(), take.two_bytes(), take.byte()
        case b"RN":
            return take.two_bytes(), take.byte(), read_keys(take)
        case b"RF":
            return take.two_bytes(), *read_function(take)
        case b"RE":
            return (take.two_bytes(),)
        case b"RX":
            return take.two_bytes(), take.byte(), take.byte(), take.two_bytes()
    raise Unsound


def earlier(t, widths):
    """The width of table t: 'makes table n from earlier tables'."""
    demand(t < len(widths))
    return widths[t]


def column(c, width):
    """'columns are bytes from 0'"""
    demand(c < width)


def within(width):
    """'widths 1 to 6', of an operator that adds columns."""
    demand(width <= MOST_COLUMNS)
    return width


def attachable(cell):
    """`RA`: 'integer or boolean only'."""
    return is_integer(cell) or is_boolean(cell)


def width_of_join(t, c, u, d, widths):
    """`RJ`: 'both rows joined'."""
    column(c, earlier(t, widths))
    column(d, earlier(u, widths))
    return within(widths[t] + widths[u])


def width_of_numbered(t, p, keys, widths):
    """`RN`: 'by column p (255: none), then the k keys'."""
    for c in keys if p == NO_COLUMN else (p, *keys):
        column(c, earlier(t, widths))
    return within(earlier(t, widths) + 1)


def width_of_function(t, columns, widths):
    """`RF`: 'adds function' of its columns."""
    for c in columns:
        column(c, earlier(t, widths))
    return within(widths[t] + 1)


def width_of_columns(t, columns, widths):
    """`RP`: 'repeats allowed'."""
    for c in columns:
        column(c, earlier(t, widths))
    return len(columns)


def width_of_pair(t, u, widths):
    """`RU`, `RD`: 'Same widths.'"""
    demand(earlier(t, widths) == earlier(u, widths))
    return widths[t]


def width_of_chosen(mark, t, c, widths):
    """`RS`, `RK`: rows of t; `RC`: a cell and a count."""
    column(c, earlier(t, widths))
    return 2 if mark == b"RC" else widths[t]


def width(mark, fields, widths):
    """The width of the operator's table, from those of the earlier ones, or unsound."""
    match mark, fields:
        case b"RT", ():
            return 1
        case b"RA", (t, cell):
            demand(attachable(cell))
            return within(earlier(t, widths) + 1)
        case b"RP", (t, columns):
            return width_of_columns(t, columns, widths)
        case (b"RU" | b"RD"), (t, u):
            return width_of_pair(t, u, widths)
        case (b"RS" | b"RK" | b"RC"), (t, c):
            return width_of_chosen(mark, t, c, widths)
        case b"RJ", (t, c, u, d):
            return width_of_join(t, c, u, d, widths)
        case b"RN", (t, p, keys):
            return width_of_numbered(t, p, keys, widths)
        case b"RF", (t, _, columns):
            return width_of_function(t, columns, widths)
        case b"RE", (t,):
            demand(earlier(t, widths) == 3)
            return 2
        case b"RX", (t, *step):
            demand(earlier(t, widths) == 2 and sound_step(*step))
            return 2
        case b"RO", (t, k):
            demand(sound_fragment(k))
            return within(earlier(t, widths) + 1)


def read_operator(plan, at, widths):
    """The record at this offset: the operator, its width, the byte after it."""
    take = Cursor(plan, at)
    mark = bytes(take.take(2))
    operator = Operator(mark, read_fields(mark, take), at)
    return operator, width(mark, operator.fields, widths), take.at


def check_end(operators, widths):
    """'none', 'last width not 3': the place is 0, or the last record."""
    if not operators:
        raise Refused(5, 0)
    if widths[-1] != 3:
        raise Refused(5, operators[-1].at)


def read(plan):
    """The plan's operators and their widths, or refusal 5. 'A plan has 1 to 512 operators, the last of width 3.'"""
    operators, widths, at = [], [], 0
    while at < len(plan):
        if len(operators) == MOST_OPERATORS:
            raise Refused(5, at)
        try:
            operator, its_width, after = read_operator(plan, at, widths)
        except Unsound:
            raise Refused(5, at) from None
        operators.append(operator)
        widths.append(its_width)
        at = after
    check_end(operators, widths)
    return operators, widths


def number(value, length):
    """A number of that many bytes, big-endian."""
    return value.to_bytes(length, "big", signed=value < 0)


def written_fields(mark, fields):
    """The bytes of an operator's fields."""
    match mark, fields:
        case b"RT", ():
            return b""
        case b"RA", (t, cell):
            return number(t, 2) + number(cell, 8)
        case (b"RP" | b"RN"), (t, *p, columns):
            return number(t, 2) + bytes([*p, len(columns), *columns])
        case (b"RU" | b"RD"), (t, u):
            return number(t, 2) + number(u, 2)
        case b"RJ", (t, c, u, d):
            return number(t, 2) + number(c, 1) + number(u, 2) + number(d, 1)
        case b"RF", (t, f, columns):
            return number(t, 2) + bytes([f, *columns])
        case b"RX", (t, axis, test, name):
            return number(t, 2) + bytes([axis, test]) + number(name, 2)
        case _, (t, *c):
            return number(t, 2) + bytes(c)


def written(operators):
    """The plan bytes of these operators."""
    return b"".join(mark + written_fields(mark, fields) for mark, fields, _ in operators)
