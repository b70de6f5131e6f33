"""What L1 and L9 leave open, each point with texts that tell its readings apart and the answer taken.

Document 02: L1, L8 and L9. The answers are written down here by hand: a refusal with its place, or the records or rows.
"""

import some_catalogues as c
from some_queries import (CHILD, EQ, IDIV, MULTIPLY, NOTHING, SUBTRACT, choose, count, each, let, literal, operate, root,
                          sequence, step, variable)

ONE, TWO, THREE, FOUR = map(literal, range(1, 5))
A = variable(0)


def named(name, a):
    return step(CHILD, 3, name, a)


# Point; then texts, each with its records, or with the place of refusal 9.
TYPED = [
    ("eq and lt are not taken twice", [
        ("1 eq 2 eq 3", 7), ("1 lt 2 eq 3", 7), ("(1 eq 2) eq 3", operate(EQ, operate(EQ, ONE, TWO), THREE))]),
    ("a comma groups to the left", [("1,2,3", sequence(ONE, TWO, THREE))]),
    ("count and data take one Single", [
        ("count(1,2)", 7), ("data(1,2)", 6), ("count((1,2))", count(sequence(ONE, TWO)))]),
    ("a condition may have commas", [("if (1,2) then 3 else 4", choose(sequence(ONE, TWO), THREE, FOUR))]),
    ("a for has one clause", [("for $a in 1, $b in 2 return 3", 11)]),
    ("a minus before an operand is the sign of a literal", [("- 1", 1), ("--1", 1), ("-$a", 1), ("-(1)", 1), ("+1", 0)]),
    ("a minus after an operand subtracts", [
        ("1-1", operate(SUBTRACT, ONE, ONE)), ("1 -1", operate(SUBTRACT, ONE, ONE)),
        ("1--1", operate(SUBTRACT, ONE, literal(-1))), ("1 -- 1", 4)]),
    ("a signed literal is one operand", [("-1/child::n2", named(2, literal(-1)))]),
    ("minus zero is 0", [("-0", literal(0))]),
    ("leading zeros stand in integers and fragments, not in names", [
        ("007", literal(7)), ("-007", literal(-7)), ("root(01)", root(1)), ("1/child::n01", 11)]),
    ("a minus directly after a name would join", [
        ("$a-1", 2), ("$a -1", operate(SUBTRACT, A, ONE)), ("1/child::n2-1", 11),
        ("1/child::n2 -1", operate(SUBTRACT, named(2, ONE), ONE))]),
    ("a minus directly after a keyword would not", [
        ("7 idiv-2", operate(IDIV, literal(7), literal(-2))), ("for $a in 1 return-1", each(0, ONE, literal(-1)))]),
    ("digits and letters would join", [("7idiv 2", 1), ("7 idiv2", 6), ("1 eq2", 4), ("for $a in1 return 2", 9)]),
    ("spaces stand inside $a, a::b and f( )", [
        ("let $ a := 1 return $ a", let(0, ONE, A)), ("1/child :: n2", named(2, ONE)),
        ("1 / child::node ( )", step(CHILD, 0, 0, ONE)), ("let $a : = 1 return 2", 8), ("1/child: :n2", 8),
        ("1/child::n 2", 10)]),
    ("XML's four bytes are spaces, and there are no comments", [
        ("1\t+\n1", operate(1, ONE, ONE)), ("\r\n1 ", ONE), ("1\f", 1), ("(:c:)1", 1)]),
    ("() is the empty sequence and no grouping", [("(" * 32 + "()" + ")" * 32, NOTHING)]),
    ("after the 33rd parenthesis only () can come", [("(" * 33 + "1", 33), ("(" * 33 + "(", 33), ("(" * 32 + "1", 33)]),
    ("only grouping parentheses are counted, all that are open", [
        ("count(" * 40 + "1" + ")" * 40, b"QC" * 40 + ONE),
        ("(" * 31 + "count((1" + "))" + ")" * 31, count(ONE)),
        ("(" * 31 + "count(((1", 31 + 8)]),
    ("left of / stands a Primary, right of it a step with its axis", [
        ("$a/n2", 3), ("$a/(1)", 3), ("1/child::n2", named(2, ONE)), ("()/child::n2", named(2, NOTHING)),
        ("(1)/child::n2", named(2, ONE))]),
    ("after :: a star is the test, after an operand the product", [
        ("$a/child::**2", operate(MULTIPLY, step(CHILD, 1, 0, A), TWO))]),
    ("the digit that leaves the range is the place", [
        ("2147483648", 9), ("2147483647", literal(2147483647)), ("-2147483648", literal(-2147483648)),
        ("-2147483649", 10), ("1 -2147483648", 12), ("root(256)", 7), ("root(255)", root(255)),
        ("1/child::n65536", 14), ("1/child::n65535", named(65535, ONE)), ("21474836470", 10)]),
    ("after root(0 a digit may come and nothing else", [("root(0)", 6), ("root(0 ", 6), ("root(0", 6)]),
    ("a text without words ends too early", [("", 0), ("   ", 3)]),
    ("depth hides no later 9", [("count(" * 40 + "1" + ")" * 39, 280)]),
]

# Texts, the bytes lent, and refusal and place.
ORDER_TYPED = [("1,$a", 0, (3, 8)), ("1,$a", 99, (3, 8)), ("1,2", 13, (8, 0)), ("1,2", 14, (0, 0)), ("1,$a,", 0, (9, 5)),
               ("count(" * 40 + "1" + ")" * 40, 0, (2, 64)), ("count(" * 40 + "$a" + ")" * 39, 0, (9, 281)),
               ("1" + "+1" * 5000, 99, (2, 96)), ("1" + ",1" * 64, 999, (2, 64)), ("1" + ",1" * 31, 999, (0, 0)),
               ("1" + ",1" * 32, 999, (2, 64))]


def rows(*shape):
    return c.written(c.sized(list(shape)))


ROOTS = "<n1/>" * 2049
OPEN = "<n1>" * 64
# The same for sheets: a place of refusal 11, or the rows.
SHEETS = [
    ("no spaces and no line breaks", [("<n7 />", 3), ("<n7/>\n", 5), (" <n7/>", 0), ("<n7> 1</n7>", 4), ("<n 7/>", 2)]),
    ("no declaration, comment or reference", [("<?xml version", 1), ("<!--", 1), ("<n7>&#53;</n7>", 4), ("&", 0)]),
    ("nothing is no rows", [("", b"")]),
    ("an element without content in both spellings", [("<n7/>", rows((0, 1, 7))), ("<n7></n7>", rows((0, 1, 7)))]),
    ("root elements one after another", [("<n7/><n8>1</n8>", rows((0, 1, 7), (0, 1, 8), (1, 3, 1)))]),
    ("the end tag has the open name", [("<n12></n1>", 9), ("<n1></n12>", 8), ("<n1></n2>", 7), ("</n1>", 1)]),
    ("the byte that leaves the range is the place", [
        ("<n65536/>", 6), ("<n65535/>", rows((0, 1, 65535))), ("<n1>2147483648</n1>", 13),
        ("<n1>-2147483649</n1>", 14), ("<n1>05</n1>", 5), ("<n1>-0</n1>", 5), ("<n00/>", 3), ("<n1>+5</n1>", 4),
        ("<n1>2147483647</n1>", rows((0, 1, 1), (1, 3, 2147483647))),
        ("<n1>-2147483648</n1>", rows((0, 1, 1), (1, 3, -2147483648))), ("<n1>0</n1>", rows((0, 1, 1), (1, 3, 0)))]),
    ("one number between two tags", [
        ("<n7>1-2</n7>", 5), ("<n7>1 2</n7>", 5),
        ("<n7>1<n8/>2</n7>", rows((0, 1, 7), (1, 3, 1), (1, 1, 8), (1, 3, 2)))]),
    ("only root elements stand at the top", [("5", 0), ("<n7/>5", 5), ("<n7></n7>5", 9)]),
    ("inside level 63 only an end tag can come", [
        (OPEN + "<n", 257), (OPEN + "5", 256), (OPEN + "</n1>" * 64, c.written(c.sized([(n, 1, 1) for n in range(64)])))]),
    ("a text that ends too early", [("<", 1), ("<n7", 3), ("<n7>", 4), ("<n7>1", 5), ("<n7>-", 5), ("<n7></n", 7)]),
    ("the whole text goes before its rows", [(ROOTS + "<", 10246)]),
]

ORDER_SHEETS = [(ROOTS, 0, (4, 20480)), (ROOTS, 99999, (4, 20480)), (ROOTS + "<", 0, (11, 10246)), ("<n7/>", 9, (8, 0)),
                ("<n7/>", 10, (0, 0)), ("", 0, (0, 0)), (ROOTS[5:], 20479, (8, 0)), (ROOTS[5:], 20480, (0, 0))]

# Catalogues that L8 refuses, and what comes before it; and such as it lets be.
APART = [("two texts side by side", [(9, 0, 1, 7), (0, 1, 3, 1), (0, 1, 3, 2)], (4, 20)),
         ("the third of three", [(3, 0, 1, 7), (0, 1, 3, 1), (0, 1, 1, 2), (0, 1, 3, 1), (0, 1, 3, 1)], (4, 40)),
         ("a second text that is unsound", [(2, 0, 1, 7), (0, 1, 3, 1), (1, 1, 3, 2)], (4, 20)),
         ("an unsound row before them", [(2, 0, 1, 7), (0, 1, 2, 1), (0, 1, 3, 1), (0, 1, 3, 2)], (4, 10)),
         ("an unsound row after them", [(2, 0, 1, 7), (0, 1, 3, 1), (0, 1, 3, 2), (0, 1, 2, 1)], (4, 20)),
         ("a text and a deeper one", [(3, 0, 1, 7), (0, 1, 3, 1), (1, 1, 1, 8), (0, 2, 3, 2)], (0, 0)),
         ("a deep text and one less deep", [(3, 0, 1, 7), (1, 1, 1, 8), (0, 2, 3, 2), (0, 1, 3, 1)], (0, 0)),
         ("texts of two fragments", [(1, 0, 1, 7), (0, 1, 3, 1), (1, 0, 1, 7), (0, 1, 3, 1)], (0, 0))]
