"""A second reader of typed queries, from the table of productions alone.

Document 02: L1. Nothing here knows a precedence, an operand or what may come next: the table below is the grammar, and
the rest follows every derivation at once, byte by byte (Earley's method). A text is left where no derivation goes on;
that is the place of refusal 9. Two derivations of one part would be two readings, and end in `TwoReadings`.

A production's right column says what it is read as: a record with its fields, numbers or words with a value, before
the records of its parts; or fields alone, for the record around it; or nothing, where the parts say all. `deeper`
marks the grouping parentheses.
"""

import struct
from typing import NamedTuple

import query
from cells import Refused

TABLE = """
Expr           ::= Single
Expr           ::= Expr "," Single                                : QS
Single         ::= "for" "$" Var "in" Single "return" Single      : QF Var
Single         ::= "let" "$" Var ":=" Single "return" Single      : QT Var
Single         ::= "if" "(" Expr ")" "then" Single "else" Single  : QI
Single         ::= Comparison
Comparison     ::= Additive
Comparison     ::= Additive "eq" Additive                         : QO 5
Comparison     ::= Additive "lt" Additive                         : QO 6
Additive       ::= Multiplicative
Additive       ::= Additive "+" Multiplicative                    : QO 1
Additive       ::= Additive "-" Multiplicative                    : QO 2
Multiplicative ::= Path
Multiplicative ::= Multiplicative "*" Path                        : QO 3
Multiplicative ::= Multiplicative "idiv" Path                     : QO 4
Path           ::= Primary
Path           ::= Path "/" Axis "::" Test                        : QX Axis Test
Axis           ::= "child"                                        : 1
Axis           ::= "descendant"                                   : 2
Axis           ::= "descendant-or-self"                           : 3
Axis           ::= "self"                                         : 4
Axis           ::= "parent"                                       : 5
Axis           ::= "ancestor"                                     : 6
Axis           ::= "following"                                    : 7
Axis           ::= "preceding"                                    : 8
Test           ::= "node" "(" ")"                                 : 0 0
Test           ::= "*"                                            : 1 0
Test           ::= "text" "(" ")"                                 : 2 0
Test           ::= Name                                           : 3 Name
Primary        ::= Integer                                        : QL Integer
Primary        ::= Negative                                       : QL Negative
Primary        ::= "$" Var                                        : QV Var
Primary        ::= "true" "(" ")"                                 : QB 1
Primary        ::= "false" "(" ")"                                : QB 0
Primary        ::= "(" ")"                                        : QE
Primary        ::= "root" "(" Fragment ")"                        : QR Fragment
Primary        ::= "count" "(" Single ")"                         : QC
Primary        ::= "data" "(" Single ")"                          : QD
Primary        ::= "(" Expr ")"                                   : deeper
"""
DEEPEST_GROUP = 32


class TwoReadings(Exception):
    """The grammar reads one part in two ways."""


class Production(NamedTuple):
    left: str
    right: tuple
    reading: tuple


def production(line):
    """A line of the table."""
    rule, _, reading = line.partition(" : ")
    left, right = rule.split("::=")
    return Production(left.strip(), tuple(right.split()), tuple(reading.split()))


PRODUCTIONS = [production(line) for line in TABLE.strip().split("\n")]
PRODUCTIONS_OF = {}
for each in PRODUCTIONS:
    PRODUCTIONS_OF.setdefault(each.left, []).append(each)


# Words, each a set of spellings; a spelling's beginnings tell whether a byte may come.

def number(digits):
    """The value of the digits, or one above every bound where they are many."""
    return int(digits.lstrip(b"0")[:11] or b"0")


def value_in(digits, most):
    return digits.isdigit() and number(digits) <= most


# For each kind: whether this begins a spelling, whether it is one, and its value.
KINDS = {
    "Integer": (lambda s: value_in(s, 2**31 - 1), lambda s: True, number),
    "Negative": (lambda s: s == b"-" or s[:1] == b"-" and value_in(s[1:], 2**31), lambda s: s != b"-",
                 lambda s: -number(s[1:])),
    "Fragment": (lambda s: value_in(s, 255), lambda s: number(s) > 0, number),
    "Name": (lambda s: s == b"n" or s[:1] == b"n" and value_in(s[1:], 65535) and str(number(s[1:])).encode() == s[1:],
             lambda s: s != b"n", lambda s: number(s[1:])),
    "Var": (lambda s: s in (b"a", b"b", b"c", b"d", b"e", b"f", b"g", b"h"), lambda s: True,
            lambda s: b"abcdefgh".index(s)),
}


def is_word(symbol):
    return symbol in KINDS or symbol[0] == '"'


def begins_word(symbol, spelling):
    """Whether some spelling of the word begins so."""
    if symbol in KINDS:
        return KINDS[symbol][0](spelling)
    return symbol[1:-1].encode().startswith(spelling)


def is_spelling(symbol, spelling):
    """Whether the word is spelled so."""
    if symbol in KINDS:
        return KINDS[symbol][1](spelling)
    return symbol[1:-1].encode() == spelling


def must_part(symbol, spelling, byte):
    """Whether a word that begins with this byte needs a space after that word."""
    letter_or_digit = chr(byte).isascii() and chr(byte).isalnum()
    return letter_or_digit and spelling[-1:].isalnum() or symbol in ("Var", "Name") and byte == ord("-")


# What a production is read as.

class Value(NamedTuple):
    """Fields for the record around, and records."""
    fields: tuple
    records: bytes


def read_as(of, values):
    """The value of a production from the values of its right side."""
    named = {symbol: value.fields for symbol, value in zip(of.right, values)}
    records = b"".join(value.records for value in values)
    if not of.reading or of.reading == ("deeper",):
        return Value((), records)
    is_record = of.reading[0].startswith("Q")
    fields = []
    for word in of.reading[1:] if is_record else of.reading:
        fields += named[word] if word in named else [int(word)]
    if not is_record:
        return Value(tuple(fields), b"")
    mark = of.reading[0].encode()
    return Value((), mark + struct.pack(query.FIELDS[mark], *fields) + records)


# Derivations under way.

class Item(NamedTuple):
    """A production as far as it has gone: where it began, its grouping parentheses around, the values so far."""
    of: Production
    done: int
    began: object
    depth: int
    values: tuple


class Column:
    """All derivations under way between two words. `waiting` has them by what they wait for."""

    def __init__(self):
        self.seen = {}
        self.waiting = {}
        self.is_text = None

    def add(self, item, todo):
        """One more derivation; the same one again must have the same values."""
        key = item.of, item.done, item.began, item.depth
        if key in self.seen:
            if self.seen[key] != item.values or item.done:
                raise TwoReadings(item)
            return
        self.seen[key] = item.values
        todo.append(item)

    def close(self, todo):
        """Adds all that these derivations begin or complete."""
        while todo:
            item = todo.pop()
            if item.done == len(item.of.right):
                self.complete(item, todo)
                continue
            symbol = item.of.right[item.done]
            if is_word(symbol):
                self.waiting.setdefault(symbol, []).append(item)
                continue
            depth = item.depth + (item.of.reading == ("deeper",))
            self.waiting.setdefault((symbol, depth), []).append(item)
            if depth <= DEEPEST_GROUP:
                for each in PRODUCTIONS_OF[symbol]:
                    self.add(Item(each, 0, self, depth, ()), todo)
        return self

    def complete(self, item, todo):
        """What waited for this part goes on."""
        value = read_as(item.of, item.values)
        for waits in item.began.waiting.get((item.of.left, item.depth), ()):
            self.add(waits._replace(done=waits.done + 1, values=(*waits.values, value)), todo)
        if item.of.left == "Expr" and item.began.is_first:
            self.is_text = value if item.depth == 0 else self.is_text

    is_first = False

    def words(self):
        """The words that may come."""
        return [symbol for symbol in self.waiting if isinstance(symbol, str)]


def first_column():
    """Nothing is read, and an Expr is to come."""
    column, todo = Column(), []
    column.is_first = True
    for each in PRODUCTIONS_OF["Expr"]:
        column.add(Item(each, 0, column, 0, ()), todo)
    return column.close(todo)


def after_word(column, symbol, spelling):
    """The column after that word."""
    value = Value((KINDS[symbol][2](spelling),) if symbol in KINDS else (), b"")
    after, todo = Column(), []
    for item in column.waiting[symbol]:
        after.add(item._replace(done=item.done + 1, values=(*item.values, value)), todo)
    return after.close(todo)


# The text, byte by byte.

def go_on(between, within, byte):
    """What may be the case after one more byte: between two words, or within one.

    `between` has columns, each with the word directly before (None after a space); `within` has words under way, each
    with the column it began in."""
    begun = [(column, symbol, bytes([byte])) for column, before in between for symbol in column.words()
             if before is None or not must_part(*before, byte)]
    longer = [(column, symbol, spelling + bytes([byte])) for column, symbol, spelling in within]
    within = [one for one in begun + longer if begins_word(one[1], one[2])]
    spaced = [(column, None) for column, _ in between] if byte in b" \t\n\r" else []
    ended = [(after_word(column, symbol, spelling), (symbol, spelling)) for column, symbol, spelling in within
             if is_spelling(symbol, spelling)]
    return spaced + ended, within


def records_of(text):
    """The records that the text is read as, or refusal 9."""
    between, within = [(first_column(), None)], []
    for at, byte in enumerate(text):
        between, within = go_on(between, within, byte)
        if not between and not within:
            raise Refused(9, at)
    readings = [column.is_text for column, _ in between if column.is_text]
    if len(readings) > 1:
        raise TwoReadings(text)
    if not readings:
        raise Refused(9, len(text))
    return readings[0].records
