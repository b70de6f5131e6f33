"""The query check: records in prefix order, read to a tree.

Document 01: 'Query records', and refusals 1, 2 and 3.
"""

import struct
from typing import NamedTuple

from cells import Refused, boolean

# After the two-byte mark: the fields, big-endian; and how many operands follow.
FIELDS = {b"QL": ">i", b"QB": ">B", b"QE": ">", b"QR": ">B", b"QV": ">B", b"QS": ">", b"QT": ">B",
          b"QF": ">B", b"QI": ">", b"QO": ">B", b"QC": ">", b"QD": ">", b"QX": ">BBH"}
OPERANDS = {b"QL": 0, b"QB": 0, b"QE": 0, b"QR": 0, b"QV": 0, b"QS": 2, b"QT": 2,
            b"QF": 2, b"QI": 3, b"QO": 2, b"QC": 1, b"QD": 1, b"QX": 1}

FIRST_FRAGMENT = 1
LAST_FRAGMENT = 255
LAST_VARIABLE = 7
MOST_RECORDS = 128
DEEPEST = 32


class Record(NamedTuple):
    """One decoded record, from its mark to the byte after its fields."""
    mark: bytes
    fields: tuple
    end: int


class Expression(NamedTuple):
    """A record with its byte offset and its operands."""
    mark: bytes
    at: int
    fields: tuple
    operands: tuple


class Answer(NamedTuple):
    """'On acceptance ... the query check the number of records'."""
    refusal: int
    place: int
    records: int


def sound_fragment(k):
    """`QR` k (1 to 255)."""
    return FIRST_FRAGMENT <= k <= LAST_FRAGMENT


def sound_variable(v):
    """`QV` variable (0 to 7)."""
    return v <= LAST_VARIABLE


def sound_function(f):
    """`QO` f: 1 add to 6 lt."""
    return 1 <= f <= 6


def sound_step(axis, test, name):
    """`QX`: axes 1 to 8, tests 0 to 3; name is 0 for tests 0 to 2."""
    return 1 <= axis <= 8 and 0 <= test <= 3 and (test == 3 or name == 0)


def sound_fields(mark, fields):
    """The ranges of 'Query records'."""
    match mark:
        case b"QB":
            return fields[0] in (0, 1)
        case b"QR":
            return sound_fragment(*fields)
        case b"QV" | b"QT" | b"QF":
            return sound_variable(*fields)
        case b"QO":
            return sound_function(*fields)
        case b"QX":
            return sound_step(*fields)
    return True


def decode(query, at):
    """The record at this offset, or None: 'bad mark, field, cut record'."""
    mark = bytes(query[at:at + 2])
    if mark not in FIELDS:
        return None
    end = at + 2 + struct.calcsize(FIELDS[mark])
    if end > len(query):
        return None
    fields = struct.unpack_from(FIELDS[mark], query, at + 2)
    return Record(mark, fields, end) if sound_fields(mark, fields) else None


def literal(expression):
    """The cell of a `QL` or `QB`."""
    number = expression.fields[0]
    return number if expression.mark == b"QL" else boolean(number == 1)


def scopes(record, bound):
    """For each operand the variables it sees: 'v is visible in b only'."""
    if record.mark in (b"QT", b"QF"):
        return [bound, bound | {record.fields[0]}]
    return [bound] * OPERANDS[record.mark]


def is_unsound(record, records, depth, bound):
    """Refusal 1: 'bad mark, field, cut record'."""
    return 1 if record is None else 0


def is_past_a_bound(record, records, depth, bound):
    """Refusal 2: '129th record, depth 33'."""
    return 2 if records > MOST_RECORDS or depth > DEEPEST else 0


def is_unbound(record, records, depth, bound):
    """Refusal 3: 'variable not bound'."""
    return 3 if record and record.mark == b"QV" and record.fields[0] not in bound else 0


# 'in one record 1, then 2, then 3'
IN_ONE_RECORD = (is_unsound, is_past_a_bound, is_unbound)


class Reader:
    """'Reading goes left to right and stops at the first faulty record.'"""

    def __init__(self, query):
        self.query = query
        self.at = 0
        self.records = 0

    def expression(self, depth, bound):
        """The expression that begins here; `bound` are the variables it sees."""
        here = self.at
        record = decode(self.query, here)
        self.records += 1
        for refusal in IN_ONE_RECORD:
            number = refusal(record, self.records, depth, bound)
            if number:
                raise Refused(number, here)
        self.at = record.end
        operands = tuple(self.expression(depth + 1, visible) for visible in scopes(record, bound))
        return Expression(record.mark, here, record.fields, operands)


def nothing_after(query, end):
    """'bytes after the query': refusal 1 at the first extra byte."""
    if end < len(query):
        raise Refused(1, end)


def read_counted(query):
    """The query's tree and its number of records, or refusal 1, 2 or 3."""
    reader = Reader(query)
    expression = reader.expression(1, frozenset())
    nothing_after(query, reader.at)
    return expression, reader.records


def read(query):
    """The query's tree, or refusal 1, 2 or 3."""
    return read_counted(query)[0]


def free(expression):
    """'Query records': the variables that an expression takes from outside."""
    if expression.mark == b"QV":
        return {expression.fields[0]}
    parts = [free(operand) for operand in expression.operands]
    if expression.mark in (b"QT", b"QF"):
        parts[1] = parts[1] - {expression.fields[0]}
    return set().union(*parts)


def check_query(query):
    """The public call: records, or refusal 1, 2 or 3 at the record or the first extra byte."""
    try:
        return Answer(0, 0, read_counted(query)[1])
    except Refused as refused:
        return Answer(refused.number, refused.place, 0)
