"""The catalogue check: rows, their sizes, the fragments.

Document 01: 'Catalogue rows', and refusal 4.
"""

import struct
from typing import NamedTuple

from cells import Refused

ROW = struct.Struct(">2sHBBi")
ELEMENT = 1
TEXT = 3
MOST_ROWS = 2048
LAST_LEVEL = 63
LAST_NAME = 65535


class Row(NamedTuple):
    """Record `DN`, size (2 bytes), level (1), kind (1), prop (4, signed)."""
    mark: bytes
    size: int
    level: int
    kind: int
    prop: int


class Answer(NamedTuple):
    """'On acceptance the catalogue check returns the number of rows'."""
    refusal: int
    place: int
    rows: int


class Catalogue:
    """A sound catalogue. A row's rank is its number."""

    def __init__(self, rows):
        self.rows = rows
        self.roots = [rank for rank, row in enumerate(rows) if row.level == 0]
        self.fragments = fragments(self.roots, len(rows))
        self.fragment_of = [fragment for fragment in self.fragments for _ in fragment]
        self.reached = {}


def fragments(roots, end):
    """'The rows from one level-0 row up to the next are a fragment.'"""
    return [range(first, after) for first, after in zip(roots, roots[1:] + [end])]


def row_at(doc, at):
    """The row's fields, or None for a cut row."""
    if at + ROW.size > len(doc):
        return None
    return Row(*ROW.unpack_from(doc, at))


def level_follows(level, before):
    """'Row 0 has level 0; a later level is at most the previous plus 1; levels end at 63.'"""
    most = before[-1].level + 1 if before else 0
    return level <= most and level <= LAST_LEVEL


def sound_element(row):
    """'Kind 1 is an element, prop its name number 0 to 65535.'"""
    return row.kind == ELEMENT and 0 <= row.prop <= LAST_NAME


def sound_text(row):
    """'Kind 3 is a text, prop its number', any of four bytes; 'a text has size 0 and level at least 1'."""
    return row.kind == TEXT and row.size == 0 and row.level >= 1


def sound(row, before):
    """A row's own checks: all but the count of deeper rows."""
    return row.mark == b"DN" and level_follows(row.level, before) and (sound_element(row) or sound_text(row))


def deeper_rows_after(rows, rank):
    """'how many rows directly after have a greater level'"""
    after = rank + 1
    while after < len(rows) and rows[after].level > rows[rank].level:
        after += 1
    return after - rank - 1


def read_rows(doc):
    """Every row's own checks, left to right; row 2,048 present is refused."""
    rows = []
    for at in range(0, len(doc), ROW.size):
        row = row_at(doc, at)
        if row is None or len(rows) == MOST_ROWS or not sound(row, rows):
            raise Refused(4, at)
        rows.append(row)
    return rows


def check_sizes(rows):
    """'this count is checked last, in row order, once every row has passed the other checks'"""
    for rank, row in enumerate(rows):
        if row.size != deeper_rows_after(rows, rank):
            raise Refused(4, ROW.size * rank)


def read(doc):
    """The sound catalogue that the bytes hold, or refusal 4."""
    rows = read_rows(doc)
    check_sizes(rows)
    return Catalogue(rows)


def check_catalogue(doc):
    """The public call: rows, or refusal 4 at the row."""
    try:
        return Answer(0, 0, len(read(doc).rows))
    except Refused as refused:
        return Answer(refused.number, refused.place, 0)
