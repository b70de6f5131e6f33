"""A reader of more XQuery than the typed grammar has, which names what is more.

Document 02's L1 is a part of XQuery 1.0. A text outside it that an engine reads all the same is read here, and each
thing in it that the grammar lacks is named: so nothing that an engine reads goes without a reason. This reader is as
large as the texts of texts-against-engines.py need, and reads some texts that the engines refuse.
"""

import re
from typing import NamedTuple

import typed

LETTER = "A-Za-z_\xc0-\xd6\xd8-\xf6\xf8-\xff"
NAME = f"[{LETTER}][{LETTER}0-9.\\-]*"
TOKENS = re.compile(rf"""(?P<space>[ \t\n\r]+) | (?P<comment>\(:(?:[^:]|:(?!\)))*:\))
    | (?P<number>(?:[0-9]+\.[0-9]*|\.[0-9]+|[0-9]+)(?:[eE][+-]?[0-9]+)?) | (?P<string>"[^"]*"|'[^']*')
    | (?P<name>{NAME}(?::(?:{NAME}|\*))?|\*:{NAME})
    | (?P<symbol>:=|::|//|\.\.|!=|<<|>>|<=|>=|\|\||[-+*/$(),.=<>|@\[\]!])""", re.VERBOSE)

# Operators by tightness, the loosest first; those that stand once between operands; those of the typed grammar.
COMPARERS = ("eq", "lt", "ne", "le", "gt", "ge", "=", "!=", "<", "<=", ">", ">=", "is", "<<", ">>")
LEVELS = (("or",), ("and",), COMPARERS, ("to",), ("+", "-"), ("*", "idiv", "div", "mod"), ("union", "|"),
          ("intersect", "except"))
ONCE = (COMPARERS, ("to",))
MINE = ("eq", "lt", "+", "-", "*", "idiv")

OTHER_AXES = ("following-sibling", "preceding-sibling", "ancestor-or-self", "attribute")
OTHER_TESTS = ("element", "attribute", "comment", "document-node", "processing-instruction", "item")
NO_FUNCTIONS = ("if", "node", "text", "typeswitch", "empty-sequence", *OTHER_TESTS)


class Token(NamedTuple):
    """A token, and where it begins and ends."""
    kind: str
    spelling: str
    at: int
    end: int


class Unread(Exception):
    """Not read here either."""


class Reader:
    """One pass with one token ahead; `names` collects what the typed grammar lacks."""

    def __init__(self, text):
        self.names = []
        self.text = text
        self.tokens = list(self.cut(0))
        self.at = 0
        self.open = 0

    def cut(self, at):
        """The tokens from here on; a comment, and a number directly before a word, are named."""
        before = None
        while at < len(self.text):
            found = TOKENS.match(self.text, at)
            if not found:
                raise Unread
            at, kind = found.end(), found.lastgroup
            if kind == "comment":
                self.name("a comment")
            if before == "number" and kind in ("name", "number"):
                self.name("no space between a number and a word")
            if kind not in ("space", "comment"):
                yield Token(kind, found.group(), found.start(), at)
            before = kind
        yield Token("end", "", at, at)

    def name(self, what):
        if what not in self.names:
            self.names.append(what)

    def sees(self, *spellings, ahead=0):
        here = self.tokens[min(self.at + ahead, len(self.tokens) - 1)]
        return here.kind in ("name", "symbol") and here.spelling in spellings

    def sees_after(self, *words):
        """The same where no name can stand: a word of these ends before `-` and `.`; in BaseX `in` ends anywhere."""
        here = self.tokens[self.at]
        for word in words if here.kind == "name" else ():
            rest = here.spelling.removeprefix(word)
            if rest in ("", here.spelling) or rest[0] not in "-." and word != "in":
                continue
            if rest[0] not in "-.":
                self.name("no space after in, BaseX")
            end = here.at + len(word)
            self.tokens[self.at:] = [Token("name", word, here.at, end), *self.cut(end)]
            break
        return self.sees(*words)

    def take(self, *spellings):
        """The next token; one of these, if any are given."""
        if spellings and not self.sees_after(*spellings) or self.tokens[self.at].kind == "end":
            raise Unread
        self.at += 1
        return self.tokens[self.at - 1]

    def whole(self):
        self.expr()
        if self.tokens[self.at].kind != "end":
            raise Unread
        return self.names

    def expr(self):
        self.single()
        while self.sees(","):
            self.take()
            self.single()

    def single(self):
        if self.sees("for", "let") and self.sees("$", ahead=1):
            self.clauses()
        elif self.sees("if") and self.sees("(", ahead=1):
            self.take()
            self.take("(")
            self.expr()
            self.take(")")
            self.take("then")
            self.single()
            if self.sees_after("else"):
                self.take()
                self.single()
            else:
                self.name("if without else, BaseX")
        else:
            self.binary(0)

    def clauses(self):
        """for and let, then where and order, then return."""
        number = 0
        while self.sees("for", "let"):
            then = {"for": "in", "let": ":="}[self.take().spelling]
            while True:
                number += 1
                self.variable()
                if then == "in" and self.sees("at"):
                    self.name("a place of for, at")
                    self.take()
                    self.variable()
                self.take(then)
                self.single()
                if not self.sees(","):
                    break
                self.take()
        if number > 1:
            self.name("several clauses before one return")
        if self.sees("where"):
            self.name("where")
            self.take()
            self.single()
        if self.sees("order"):
            self.name("order by")
            self.take()
            self.take("by")
            self.single()
        self.take("return")
        self.single()

    def variable(self):
        self.take("$")
        token = self.take()
        if token.kind != "name":
            raise Unread
        if token.spelling not in tuple("abcdefgh"):
            self.name("a longer name, with a minus in it" if "-" in token.spelling else "a variable other than $a to $h")

    def binary(self, level):
        if level == len(LEVELS):
            return self.signed()
        self.binary(level + 1)
        while self.sees_after(*LEVELS[level]):
            operator = self.take().spelling
            if operator not in MINE:
                self.name("an operator that the grammar lacks")
            self.binary(level + 1)
            if LEVELS[level] in ONCE:
                return None

    def signed(self):
        """Signs before an operand: one minus directly before digits is the literal's."""
        signs = 0
        while self.sees("+", "-"):
            signs += 1
            sign, after = self.take(), self.tokens[self.at]
            if sign.spelling == "+" or signs > 1 or after.kind != "number" or after.at > sign.end:
                self.name("a sign that is not a literal's")
        self.path(signs)

    def path(self, signs):
        if self.sees("/", "//"):
            self.name("a path from the top")
            if self.take().spelling == "/" and not self.begins_step():
                return
            self.step(False, 0)
        else:
            self.step(True, signs)
        while self.sees("/", "//"):
            if self.take().spelling == "//":
                self.name("a short step: //, .. or @")
            self.step(False, 0)

    def begins_step(self):
        token = self.tokens[self.at]
        return token.kind in ("name", "number", "string") or self.sees("*", "(", "$", ".", "..", "@")

    def step(self, is_first, signs):
        """An axis step, a short one, or an operand; then predicates and calls."""
        token = self.tokens[self.at]
        if token.kind == "name" and self.sees("::", ahead=1):
            self.axis_step(is_first)
        elif self.sees("..", "@"):
            self.name("a short step: //, .. or @")
            if self.take().spelling == "@":
                self.test()
        elif self.sees("*") or token.kind == "name" and not self.is_call():
            self.name("a step without its axis" if not is_first else "a name or a star as an operand")
            self.test()
        else:
            if not is_first:
                self.name("an operand after /")
            self.primary(signs)
        while self.sees("[", "("):
            if self.take().spelling == "[":
                self.name("a predicate")
                self.expr()
                self.take("]")
            else:
                self.name("a call of a star, Saxon-HE" if token.spelling == "*" else "a call of a value, XQuery 3.0")
                self.arguments()

    def is_call(self):
        return self.sees("(", ahead=1) and self.tokens[self.at].spelling not in NO_FUNCTIONS

    def axis_step(self, is_first):
        axis = self.take().spelling
        self.take("::")
        if axis in OTHER_AXES:
            self.name("an axis that the grammar lacks")
        elif axis not in typed.AXES:
            raise Unread
        if is_first:
            self.name("a step without an operand before it")
        self.test()

    def test(self):
        token = self.take()
        if token.spelling in ("node", "text", *OTHER_TESTS) and self.sees("("):
            if token.spelling in OTHER_TESTS:
                self.name("a test that the grammar lacks")
            self.take("(")
            self.take(")")
        elif token.kind == "name":
            number = re.fullmatch("n(0|[1-9][0-9]*)", token.spelling)
            if not number or int(number[1]) > typed.LAST_NAME:
                self.name("a longer name, with a minus in it" if re.fullmatch("n[0-9]+-.*", token.spelling)
                          else "a name other than n0 to n65535")
        elif token.spelling != "*":
            raise Unread

    def primary(self, signs):
        token = self.tokens[self.at]
        if token.kind == "number":
            self.number(signs)
        elif token.kind == "string":
            self.name("a string")
            self.take()
        elif self.sees("$"):
            self.variable()
        elif self.sees("."):
            self.name("the context item")
            self.take()
        elif token.kind == "name":
            self.call()
        else:
            self.take("(")
            if not self.sees(")"):
                self.open += 1
                if self.open > typed.MOST_GROUPS:
                    self.name("more than 32 parentheses")
                self.expr()
                self.open -= 1
            self.take(")")

    def number(self, signs):
        digits = self.take().spelling
        if not digits.isdigit():
            self.name("a decimal or a double")
        elif int(digits) > typed.GREATEST + (signs > 0):
            self.name("a number past the record's range")

    def call(self):
        function = self.take().spelling
        self.take("(")
        first = self.at
        number = self.arguments()
        if function not in ("true", "false", "root", "count", "data"):
            self.name("a function that the grammar lacks")
        elif number != (function not in ("true", "false")):
            self.name("another number of arguments")
        elif function == "root" and not self.is_fragment(first):
            self.name("root of another thing than 1 to 255")

    def is_fragment(self, first):
        """Whether the call that has just ended has one number in it, of a fragment."""
        spelling = self.tokens[first].spelling
        return self.at == first + 2 and spelling.isdigit() and 1 <= int(spelling) <= typed.LAST_FRAGMENT

    def arguments(self):
        """How many there are, to the closing parenthesis."""
        number = 0
        while not self.sees(")"):
            if number:
                self.take(",")
            self.single()
            number += 1
        self.take(")")
        return number


def names(text):
    """What the text has that the typed grammar lacks, or None where it is not read here."""
    try:
        return Reader(text.decode("latin-1")).whole()
    except Unread:
        return None
