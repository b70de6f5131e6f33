"""Sheets as XML: from text to rows, and from rows to text.

Document 02: L9, with L8. The profile:

    Text    ::= Element*                                            nothing else at the top, and no text is no rows
    Element ::= "<n" Name "/>" | "<n" Name ">" Content "</n" Name ">"         the same name in both
    Content ::= elements and numbers in any order, never two numbers side by side
    Name    0 to 65535, no leading zero          Number  -2147483648 to 2147483647; no plus, leading zero or minus zero

No row is past level 63. No space, line break, attribute, comment, declaration or reference stands anywhere.

L9 stands on L8. Two texts side by side cannot be spelled: `1` and `2` would be the one text `12`. Document 01 alone lets
a catalogue have them, and until L8 is there the catalogue check of catalogue.py accepts it. The writer here refuses it
with 4 at the second text's row, as L8 will; `sound_and_apart` is the catalogue check under L8.

This reader goes once through the text. sheets_by_completion.py reads the same texts by another method.
"""

from typing import NamedTuple

import catalogue
from catalogue import ELEMENT, LAST_LEVEL, LAST_NAME, MOST_ROWS, ROW, TEXT, Row
from cells import GREATEST_INTEGER, LEAST_INTEGER, Refused, Written, emptied, followed_by_zeros

DIGITS = b"0123456789"
END = -1


class Read(NamedTuple):
    """The reader's answer: the rows, the lent bytes."""
    refusal: int
    place: int
    rows: int
    lent: bytes


class Begun:
    """A row as far as it is read, and where in the text it begins. Its size is known at its end tag."""

    def __init__(self, at, level, kind, prop):
        self.at = at
        self.level = level
        self.kind = kind
        self.prop = prop
        self.size = 0


class Reader:
    """Goes through the text once. `opened` are the ranks of the elements that are open."""

    def __init__(self, text):
        self.text = text
        self.at = 0
        self.rows = []
        self.opened = []
        self.beside_number = False

    def here(self):
        """The byte here, or END."""
        return self.text[self.at] if self.at < len(self.text) else END

    def outside(self):
        """No text of the profile has this byte here."""
        raise Refused(11, self.at)

    def pass_over(self, expected):
        """These bytes, one by one."""
        for byte in expected:
            if self.here() != byte:
                self.outside()
            self.at += 1

    def numeral(self, most):
        """'in plain decimal, with .. no leading zero': the digits from here on, while their value is at most that."""
        if self.here() == END or self.here() not in DIGITS:
            self.outside()
        value, first = 0, self.at
        while self.here() != END and self.here() in DIGITS:
            value = 10 * value + self.here() - DIGITS[0]
            if value > most or self.leads(first):
                self.outside()
            self.at += 1
        return value

    def leads(self, first):
        """Whether a leading zero stands before this digit."""
        return self.at > first and self.text[first] == DIGITS[0]

    def may_hold_rows(self):
        """'a row past level 63': whether a row may begin here."""
        return len(self.opened) <= LAST_LEVEL

    def add(self, at, kind, prop):
        """One more row, begun there."""
        self.rows.append(Begun(at, len(self.opened), kind, prop))

    def whole(self):
        """All rows in order, or refusal 11."""
        while self.at < len(self.text) or self.opened:
            if self.here() == ord("<"):
                self.at += 1
                self.tag()
                self.beside_number = False
            elif self.opened and self.may_hold_rows() and not self.beside_number:
                self.add(self.at, TEXT, self.number())
                self.beside_number = True
            else:
                self.outside()
        return self.rows

    def tag(self):
        """After `<`."""
        if self.here() == ord("/") and self.opened:
            self.end_tag()
        elif self.here() == ord("n") and self.may_hold_rows():
            self.start_tag()
        else:
            self.outside()

    def start_tag(self):
        """`<n7>`, or `<n7/>`: 'an element without content'."""
        self.pass_over(b"n")
        self.add(self.at - 2, ELEMENT, self.numeral(LAST_NAME))
        if self.here() == ord("/"):
            self.pass_over(b"/>")
        else:
            self.pass_over(b">")
            self.opened.append(len(self.rows) - 1)

    def end_tag(self):
        """`</n7>`: the name that is open."""
        row = self.rows[self.opened[-1]]
        self.pass_over(f"/n{row.prop}>".encode())
        row.size = len(self.rows) - 1 - self.opened.pop()

    def number(self):
        """'one whole number in plain decimal, with no plus sign, no leading zero, no minus zero'"""
        if self.here() != ord("-"):
            return self.numeral(GREATEST_INTEGER)
        self.at += 1
        if self.here() == DIGITS[0]:
            self.outside()
        return -self.numeral(-LEAST_INTEGER)


# The reader.

def rows_of(text):
    """The rows that the text is read as, or refusal 11."""
    return [Row(b"DN", row.size, row.level, row.kind, row.prop) for row in Reader(text).whole()]


def place_in_text(text, place):
    """Where in the text the row at that byte of its rows begins."""
    return Reader(text).whole()[place // ROW.size].at


def check_rows(rows):
    """'then 4 as ever, at the row': of what was read only row 2,048 can be too many."""
    if len(rows) > MOST_ROWS:
        raise Refused(4, ROW.size * MOST_ROWS)


def check_fits(length, lent):
    """'then 8 when the rows or the text don't fit the lent slice'"""
    if length > lent:
        raise Refused(8, 0)


def checked(rows, lent):
    """4, then 8."""
    check_rows(rows)
    check_fits(ROW.size * len(rows), lent)


def read_sheets(text, lent):
    """The public call: rows; 11, then 4, then 8."""
    try:
        rows = rows_of(text)
        checked(rows, lent)
    except Refused as refused:
        return Read(refused.number, refused.place, 0, bytes(emptied(lent)))
    doc = b"".join(ROW.pack(*row) for row in rows)
    return Read(0, 0, len(rows), bytes(followed_by_zeros(doc, lent)))


# The catalogue check under L8.

def side_by_side(before, row):
    """'one text directly after a sibling text'"""
    return before.kind == TEXT == row.kind and before.level == row.level


def check_apart(rows):
    """L8: '4 at the second text's row'."""
    for rank in range(1, len(rows)):
        if side_by_side(rows[rank - 1], rows[rank]):
            raise Refused(4, ROW.size * rank)


def sound_and_apart(doc):
    """A catalogue's rows. L8's refusal comes 'after that row's other checks and before any size is counted'."""
    try:
        rows = catalogue.read_rows(doc)
    except Refused as refused:
        check_apart(catalogue.read_rows(doc[:refused.place]))
        raise
    check_apart(rows)
    catalogue.check_sizes(rows)
    return rows


# The writer.

def start_of(row):
    """'An element without content is written `<n7/>`'."""
    return f"<n{row.prop}>" if row.size else f"<n{row.prop}/>"


def text_of(rows):
    """The rows' one standard spelling."""
    text, still_open = [], []
    for row in rows:
        while len(still_open) > row.level:
            text.append(still_open.pop())
        text.append(str(row.prop) if row.kind == TEXT else start_of(row))
        if row.size:
            still_open.append(f"</n{row.prop}>")
    return "".join(text + still_open[::-1])


def write_sheets(doc, lent):
    """The public call: the text's bytes; 4 under L8, then 8."""
    try:
        text = text_of(sound_and_apart(doc)).encode()
        check_fits(len(text), lent)
    except Refused as refused:
        return Written(refused.number, refused.place, 0, bytes(emptied(lent)))
    return Written(0, 0, len(text), bytes(followed_by_zeros(text, lent)))
