"""Queries and catalogues as XQuery 1.0 and XML text, for people and for other engines.

Element number 3 is `n3`, variables 0 to 7 are `$a` to `$h`, a text of number 5 is the text `5`. How the root of a
fragment is named differs from place to place, so whoever asks for a text says it.
"""

import sheets

OPERATIONS = {1: "+", 2: "-", 3: "*", 4: "idiv", 5: "eq", 6: "lt"}
AXES = {1: "child", 2: "descendant", 3: "descendant-or-self", 4: "self", 5: "parent", 6: "ancestor", 7: "following",
        8: "preceding"}

# How tightly an expression holds together: what is looser than its place asks for stands in parentheses.
COMMA, SINGLE, COMPARISON, SUM, PRODUCT, SIGNED, PATH, ATOM = range(8)
OF_OPERATION = {1: SUM, 2: SUM, 3: PRODUCT, 4: PRODUCT, 5: COMPARISON, 6: COMPARISON}


def variable(v):
    """A variable's name."""
    return "$" + "abcdefgh"[v]


class Texts:
    """The text of a query; `root` gives that of the root of fragment k, `values` that of `data`."""

    def __init__(self, root, values=lambda a: f"data({a})"):
        self.root = root
        self.values = values

    def text(self, expression, least=COMMA):
        """The expression's text, in parentheses where it is looser than `least`."""
        tightness, text = self.parts(expression)
        return text if tightness >= least else f"({text})"

    def parts(self, expression):
        """How tightly the text holds together, and the text."""
        fields, operands = expression.fields, expression.operands
        match expression.mark:
            case b"QL":
                return (ATOM if fields[0] >= 0 else SIGNED), str(fields[0])
            case b"QB":
                return ATOM, "true()" if fields[0] else "false()"
            case b"QE":
                return ATOM, "()"
            case b"QR":
                return ATOM, self.root(*fields)
            case b"QV":
                return ATOM, variable(*fields)
            case b"QS":
                # Sequences group to the left, so a first one needs parentheses only for the eye, beside a second.
                first = SINGLE if operands[1].mark == b"QS" else COMMA
                return COMMA, f"{self.text(operands[0], first)}, {self.text(operands[1], SINGLE)}"
            case b"QT" | b"QF" | b"QI":
                return SINGLE, self.single(expression.mark, fields, operands)
            case b"QO":
                return OF_OPERATION[fields[0]], self.operation(fields[0], *operands)
            case b"QC":
                return ATOM, f"count({self.text(operands[0], SINGLE)})"
            case b"QD":
                return ATOM, self.values(self.text(operands[0], SINGLE))
            case b"QX":
                return PATH, f"{self.text(operands[0], PATH)}/{step(*fields)}"

    def single(self, mark, fields, operands):
        """let, for, if."""
        first, *rest = operands
        others = [self.text(operand, SINGLE) for operand in rest]
        if mark == b"QI":
            return f"if ({self.text(first)}) then {others[0]} else {others[1]}"
        binding = ("let", ":=") if mark == b"QT" else ("for", "in")
        return f"{binding[0]} {variable(*fields)} {binding[1]} {self.text(first, SINGLE)} return {others[0]}"

    def operation(self, f, a, b):
        """Sums and products group to the left; a comparison has no comparison beside it."""
        least = OF_OPERATION[f]
        left = least if least != COMPARISON else SUM
        return f"{self.text(a, left)} {OPERATIONS[f]} {self.text(b, least + 1)}"


def step(axis, test, name):
    """A step's axis and test."""
    return f"{AXES[axis]}::{('node()', 'element()', 'text()', f'n{name}')[test]}"


def texts_side_by_side(rows):
    """Whether two sibling texts stand next to one another, which XML cannot say."""
    return any(map(sheets.side_by_side, rows, rows[1:]))


def xml(rows):
    """The XML of one fragment's rows, in one line: a line break would be a text."""
    return sheets.text_of(rows)
