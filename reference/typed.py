"""Queries as typed text: from text to records, and from records to text.

Document 02: L1. The grammar, of words; the precedence and the left grouping are XQuery 1.0's:

    Text           ::= Expr                                               at most 32 grouping parentheses open
    Expr           ::= Single | Expr "," Single
    Single         ::= "for" "$" Var "in" Single "return" Single | "let" "$" Var ":=" Single "return" Single
                     | "if" "(" Expr ")" "then" Single "else" Single | Comparison
    Comparison     ::= Additive | Additive ("eq" | "lt") Additive
    Additive       ::= Multiplicative | Additive ("+" | "-") Multiplicative
    Multiplicative ::= Path | Multiplicative ("*" | "idiv") Path
    Path           ::= Primary | Path "/" Axis "::" Test
    Axis           ::= "child" | "descendant" | .. | "preceding"
    Test           ::= "node" "(" ")" | "*" | "text" "(" ")" | Name
    Primary        ::= Integer | Negative | "$" Var | "true" "(" ")" | "false" "(" ")" | "(" ")"
                     | "root" "(" Fragment ")" | "count" "(" Single ")" | "data" "(" Single ")"
                     | "(" Expr ")"                                       the only grouping parentheses

    Integer   digits, 0 to 2147483647       Negative  "-" directly before digits, 0 to 2147483648, one word
    Fragment  digits, 1 to 255              Name      "n" directly before digits, 0 to 65535, no leading zero
    Var       one of a to h

Between words, before the first and after the last any number of spaces, tabs and line breaks may stand. At least one
must where two words would join: the first ends in a letter or digit and the second begins with one, or the first is a
Var or a Name and the second begins with `-`.

This reader goes once through the text, from word to word. It knows two places, before an operand and after one, and
keeps what is open. typed_by_table.py reads the same texts by another method, from the table of productions alone.
"""

import struct
from functools import cache
from typing import NamedTuple

import query
from cells import Refused, Written, emptied, followed_by_zeros

SPACES = b" \t\n\r"
DIGITS = b"0123456789"
LETTERS = b"abcdefghijklmnopqrstuvwxyzABCDEFGHIJKLMNOPQRSTUVWXYZ"
VARIABLES = b"abcdefgh"

GREATEST = 2147483647
GREATEST_BELOW_0 = 2147483648
LAST_FRAGMENT = 255
LAST_NAME = 65535
MOST_GROUPS = 32


class Read(NamedTuple):
    """The reader's answer: the records, their bytes, the lent bytes."""
    refusal: int
    place: int
    records: int
    record_bytes: int
    lent: bytes


class Word(NamedTuple):
    """A word: its kind or, for a fixed word, its spelling; its value; where it begins; its last byte."""
    kind: str
    value: int
    at: int
    last: int


class Part(NamedTuple):
    """A part that was read: its record's own bytes, where its word stands in the text, its operands."""
    record: bytes
    at: int
    operands: tuple


# Words.

def numeral(text, at, most):
    """The digits from here on, as long as their value is at most that: the value, and where they end.

    A digit that leaves the range is the first byte that no text of the grammar could have there."""
    value = 0
    while at < len(text) and text[at] in DIGITS:
        value = 10 * value + text[at] - DIGITS[0]
        if value > most:
            raise Refused(9, at)
        at += 1
    return value, at


def has_digit(text, at):
    return at < len(text) and text[at] in DIGITS


def integer(text, at):
    """'Integer: digits, 0 to 2147483647'."""
    return numeral(text, at, GREATEST)


def negative(text, at):
    """'a negative literal, its sign directly before its digits, is read as one'"""
    if not has_digit(text, at + 1):
        raise Refused(9, at + 1)
    value, end = numeral(text, at + 1, GREATEST_BELOW_0)
    return -value, end


def fragment(text, at):
    """'Fragment: digits, 1 to 255'. After zeros alone only a digit can come."""
    value, end = numeral(text, at, LAST_FRAGMENT)
    if value == 0:
        raise Refused(9, end)
    return value, end


def name(text, at):
    """'Name: n directly before digits, 0 to 65535, no leading zero'."""
    if text[at + 1] == DIGITS[0] and has_digit(text, at + 2):
        raise Refused(9, at + 2)
    return numeral(text, at + 1, LAST_NAME)


def variable(text, at):
    """'Variables are $a to $h'."""
    return VARIABLES.index(text[at]), at + 1


# For each kind of word that has a value: whether one begins here, and how it is read.
KINDS = {"Integer": (has_digit, integer),
         "Negative": (lambda text, at: text[at] == ord("-"), negative),
         "Fragment": (has_digit, fragment),
         "Name": (lambda text, at: text[at] == ord("n") and has_digit(text, at + 1), name),
         "Var": (lambda text, at: text[at] in VARIABLES, variable)}


@cache
def fixed_words(expected):
    """Those of the words expected that have one spelling."""
    return [word.encode() for word in expected if word not in (*KINDS, "End")]


def fixed(text, at, words):
    """The fixed word that begins here, as far as one of these words goes along with the text."""
    length = 0
    while at + length < len(text):
        longer = [word for word in words if word.startswith(text[at:at + length + 1])]
        if not longer:
            break
        words, length = longer, length + 1
    if text[at:at + length] not in words:
        raise Refused(9, at + length)
    return text[at:at + length]


def joins(before, first):
    """'spaces are free between words, needed only where two would join'"""
    if before is None:
        return False
    both = before.last in LETTERS + DIGITS and first in LETTERS + DIGITS
    return both or (before.kind in ("Var", "Name") and first == ord("-"))


class Words:
    """The text, word by word."""

    def __init__(self, text):
        self.text = text
        self.at = 0
        self.before = None

    def skip_spaces(self):
        """A space parts the word before from the one that comes."""
        while self.at < len(self.text) and self.text[self.at] in SPACES:
            self.at += 1
            self.before = None

    def word(self, *expected):
        """The next word, one of those expected; `End` is the text's end."""
        self.skip_spaces()
        text, at = self.text, self.at
        if at == len(text):
            if "End" in expected:
                return Word("End", 0, at, 0)
            raise Refused(9, at)
        if joins(self.before, text[at]):
            raise Refused(9, at)
        kind, value, self.at = self.here(expected)
        self.before = Word(kind, value, at, text[self.at - 1])
        return self.before

    def here(self, expected):
        """Kind, value and end of the word that begins here."""
        for kind in expected:
            if kind in KINDS and KINDS[kind][0](self.text, self.at):
                return kind, *KINDS[kind][1](self.text, self.at)
        spelling = fixed(self.text, self.at, fixed_words(expected))
        return spelling.decode(), 0, self.at + len(spelling)


# What may come.

AXES = {"child": 1, "descendant": 2, "descendant-or-self": 3, "self": 4, "parent": 5, "ancestor": 6, "following": 7,
        "preceding": 8}
FUNCTIONS = {"+": 1, "-": 2, "*": 3, "idiv": 4, "eq": 5, "lt": 6}
CALLS = {"count": b"QC", "data": b"QD"}
BINDINGS = {"for": (b"QF", "in"), "let": (b"QT", ":=")}

# How tightly an operator holds its operands, and the end of all of them.
TIGHTNESS = {",": 0, "eq": 1, "lt": 1, "+": 2, "-": 2, "*": 3, "idiv": 3}
LOOSEST = -1

PRIMARIES = ("Integer", "Negative", "$", "true", "false", "(", "root", "count", "data")
SINGLES = ("for", "let", "if")
ALWAYS_AFTER = ("/", "*", "idiv", "+", "-")
COMPARERS = ("eq", "lt")

# What ends each thing that can be open. A body and an else-part end where the thing around them does.
ENDS = {"text": (",", "End"), "group": (",", ")"), "condition": (",", ")"), "call": (")",), "bound": ("return",),
        "then": ("else",)}


class Waiting(NamedTuple):
    """An operator whose second operand is not yet read, and its first operand."""
    word: Word
    first: Part


class Open:
    """Something open: the record that it will make, its operands so far, its operators that wait."""

    def __init__(self, kind, ends, record=b"", at=0, operands=()):
        self.kind = kind
        self.ends = ends
        self.record = record
        self.at = at
        self.operands = operands
        self.waiting = []

    def whole(self, last):
        """The part that it makes with its last operand."""
        return Part(self.record, self.at, (*self.operands, last))


def record(mark, *fields):
    """A record's own bytes."""
    return mark + struct.pack(query.FIELDS[mark], *fields)


def operation(word, a, b):
    """The operator's record with its operands."""
    own = record(b"QS") if word.kind == "," else record(b"QO", FUNCTIONS[word.kind])
    return Part(own, word.at, (a, b))


def goes_first(word, tightness):
    """Whether an operator goes before one of that tightness to its right: also among equals, 'left grouping'."""
    return TIGHTNESS[word.kind] >= tightness


def gathered(waiting, part, tightness):
    """The part as second operand of all that wait and go first."""
    while waiting and goes_first(waiting[-1].word, tightness):
        word, first = waiting.pop()
        part = operation(word, first, part)
    return part


class Reader:
    """Goes through the text once. `opened` is what is open, the innermost last."""

    def __init__(self, text):
        self.words = Words(text)
        self.opened = [Open("text", ENDS["text"])]
        self.groups = 0

    def whole(self):
        """The text's part, or refusal 9."""
        while True:
            part = self.operand()
            while part is not None:
                word = self.words.word(*self.after())
                if word.kind == "End":
                    return self.end_of(part)
                part = self.go_on(part, word)

    # Before an operand.

    def start(self):
        """The words that may stand before an operand."""
        top = self.opened[-1]
        words = PRIMARIES
        if not top.waiting or top.waiting[-1].word.kind == ",":
            words += SINGLES
        if top.kind == "group" and not top.waiting:
            # `()` is no grouping, so it may stand where no group may.
            words = (")",) if self.groups > MOST_GROUPS else (*words, ")")
        return words

    def operand(self):
        """The operand that begins here, if it is one word or one step; None once something is open."""
        word = self.words.word(*self.start())
        match word.kind:
            case "Integer" | "Negative":
                return Part(record(b"QL", word.value), word.at, ())
            case "$":
                return Part(record(b"QV", self.words.word("Var").value), word.at, ())
            case "true" | "false":
                self.both_parentheses()
                return Part(record(b"QB", int(word.kind == "true")), word.at, ())
            case "root":
                return self.root(word)
            case ")":
                self.groups -= 1
                return Part(record(b"QE"), self.opened.pop().at, ())
            case "(":
                self.groups += 1
                self.open("group", at=word.at)
            case "count" | "data":
                self.words.word("(")
                self.open("call", record(CALLS[word.kind]), word.at)
            case "for" | "let":
                self.binding(word)
            case "if":
                self.words.word("(")
                self.open("condition", record(b"QI"), word.at)
        return None

    def open(self, kind, own=b"", at=0, operands=()):
        """Something is open from here on."""
        ends = ENDS[kind] if kind in ENDS else self.opened[-1].ends
        self.opened.append(Open(kind, ends, own, at, operands))

    def both_parentheses(self):
        self.words.word("(")
        self.words.word(")")

    def root(self, word):
        self.words.word("(")
        k = self.words.word("Fragment").value
        self.words.word(")")
        return Part(record(b"QR", k), word.at, ())

    def binding(self, word):
        """`for $a in`, `let $a :=`."""
        mark, then = BINDINGS[word.kind]
        self.words.word("$")
        v = self.words.word("Var").value
        self.words.word(then)
        self.open("bound", record(mark, v), word.at)

    # After an operand.

    def after(self):
        """The words that may stand after an operand. A comparison is compared no further."""
        top = self.opened[-1]
        compared = any(waits.word.kind in COMPARERS for waits in top.waiting)
        return (*ALWAYS_AFTER, *(() if compared else COMPARERS), *top.ends)

    def go_on(self, part, word):
        """The word after an operand. Gives an operand again, or None where one must come."""
        if word.kind == "/":
            return self.step(part, word)
        if word.kind in TIGHTNESS:
            part = self.without_bodies(part) if word.kind == "," else part
            waiting = self.opened[-1].waiting
            first = gathered(waiting, part, TIGHTNESS[word.kind])
            waiting.append(Waiting(word, first))
            return None
        return self.close(self.without_bodies(part))

    def step(self, part, word):
        """`/`, axis, `::`, test."""
        axis = AXES[self.words.word(*AXES).kind]
        self.words.word("::")
        test = self.words.word("node", "*", "text", "Name")
        if test.kind in ("node", "text"):
            self.both_parentheses()
        number = {"node": 0, "*": 1, "text": 2, "Name": 3}[test.kind]
        return Part(record(b"QX", axis, number, test.value), word.at, (part,))

    def without_bodies(self, part):
        """Bodies and else-parts end with what ends the thing around them."""
        while self.opened[-1].kind in ("body", "else"):
            top = self.opened.pop()
            part = top.whole(gathered(top.waiting, part, LOOSEST))
        return part

    def close(self, part):
        """The innermost open thing ends: what it makes, or None where its next operand comes."""
        top = self.opened.pop()
        part = gathered(top.waiting, part, LOOSEST)
        match top.kind:
            case "group":
                self.groups -= 1
                return part
            case "call":
                return top.whole(part)
            case "bound":
                self.open("body", top.record, top.at, (part,))
            case "condition":
                self.words.word("then")
                self.open("then", top.record, top.at, (part,))
            case "then":
                self.open("else", top.record, top.at, (*top.operands, part))
        return None

    def end_of(self, part):
        """The whole text's part."""
        return gathered(self.opened[0].waiting, self.without_bodies(part), LOOSEST)


# The reader.

def parts_of(text):
    """The text's parts in prefix order, or refusal 9. A chain may be long, so nothing here calls itself."""
    parts, todo = [], [Reader(text).whole()]
    while todo:
        part = todo.pop()
        parts.append(part)
        todo.extend(reversed(part.operands))
    return parts


def records_of(text):
    """The records that the text is read as, or refusal 9."""
    return b"".join(part.record for part in parts_of(text))


def place_in_text(text, place):
    """Where in the text the record at that byte of its records comes from."""
    at = 0
    for part in parts_of(text):
        if at == place:
            return part.at
        at += len(part.record)
    return len(text)


def check_fits(length, lent):
    """'8 also when the written text doesn't fit'"""
    if length > lent:
        raise Refused(8, 0)


def checked(query_bytes, lent):
    """'refusals 2, 3 (places as in the records) and 8': the number of records."""
    records = query.read_counted(query_bytes)[1]
    check_fits(len(query_bytes), lent)
    return records


def read_text(text, lent):
    """The public call: records and their bytes; '9 for text outside the grammar, before refusals 2, 3 .. and 8'."""
    try:
        query_bytes = records_of(text)
        records = checked(query_bytes, lent)
    except Refused as refused:
        return Read(refused.number, refused.place, 0, 0, bytes(emptied(lent)))
    return Read(0, 0, records, len(query_bytes), bytes(followed_by_zeros(query_bytes, lent)))


# The writer.

# The levels of the grammar, the loosest first: what is looser than its place asks for stands in parentheses.
EXPR, SINGLE, COMPARISON, ADDITIVE, MULTIPLICATIVE, PATH, PRIMARY = range(7)

SPELLED = {number: word for word, number in FUNCTIONS.items()}
AXIS_NAMES = {number: word for word, number in AXES.items()}

# For each function its own level, and the levels that its operands are written at.
OF_FUNCTION = {"eq": (COMPARISON, ADDITIVE, ADDITIVE), "lt": (COMPARISON, ADDITIVE, ADDITIVE),
               "+": (ADDITIVE, ADDITIVE, MULTIPLICATIVE), "-": (ADDITIVE, ADDITIVE, MULTIPLICATIVE),
               "*": (MULTIPLICATIVE, MULTIPLICATIVE, PATH), "idiv": (MULTIPLICATIVE, MULTIPLICATIVE, PATH)}


def text_of(expression, level=EXPR):
    """The expression's text where that level is asked for."""
    own, text = spelled(expression)
    return text if own >= level else f"({text})"


def spelled(expression):
    """The expression's own level, and its text without parentheses around it."""
    fields, operands = expression.fields, expression.operands
    match expression.mark:
        case b"QL":
            return PRIMARY, str(*fields)
        case b"QB":
            return PRIMARY, "true()" if fields[0] else "false()"
        case b"QE":
            return PRIMARY, "()"
        case b"QR":
            return PRIMARY, f"root({fields[0]})"
        case b"QV":
            return PRIMARY, dollar(*fields)
        case b"QS":
            return EXPR, f"{text_of(operands[0], EXPR)}, {text_of(operands[1], SINGLE)}"
        case b"QT" | b"QF" | b"QI":
            return SINGLE, single(expression.mark, fields, operands)
        case b"QO":
            word = SPELLED[fields[0]]
            own, first, second = OF_FUNCTION[word]
            return own, f"{text_of(operands[0], first)} {word} {text_of(operands[1], second)}"
        case b"QC" | b"QD":
            word = "count" if expression.mark == b"QC" else "data"
            return PRIMARY, f"{word}({text_of(operands[0], SINGLE)})"
        case b"QX":
            return PATH, f"{text_of(operands[0], PATH)}/{step(*fields)}"


def dollar(v):
    return "$" + chr(VARIABLES[v])


def single(mark, fields, operands):
    """let, for, if."""
    if mark == b"QI":
        c, a, b = operands
        return f"if ({text_of(c, EXPR)}) then {text_of(a, SINGLE)} else {text_of(b, SINGLE)}"
    word, then = ("for", "in") if mark == b"QF" else ("let", ":=")
    a, b = operands
    return f"{word} {dollar(*fields)} {then} {text_of(a, SINGLE)} return {text_of(b, SINGLE)}"


def step(axis, test, name_number):
    """Axis and test."""
    return f"{AXIS_NAMES[axis]}::{('node()', '*', 'text()', f'n{name_number}')[test]}"


def write_text(query_bytes, lent):
    """The public call: a text that reads back to the same records; 1, 2, 3 as the query check, then 8."""
    try:
        text = text_of(query.read(query_bytes)).encode()
        check_fits(len(text), lent)
    except Refused as refused:
        return Written(refused.number, refused.place, 0, bytes(emptied(lent)))
    return Written(0, 0, len(text), bytes(followed_by_zeros(text, lent)))
