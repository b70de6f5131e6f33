"""Cases at the bounds for the calls of document 02's L1: a name and what is given.

Of texts read: every open point; each word at each place, cut after each byte, with one wrong byte, and each two words
with and without a space; numbers, parentheses, chains, records and bytes at their bounds and past them; each refusal
against the others; written texts cut at every byte. Of queries written: each record as each operand of each other,
numbers of every length, parentheses as deep as they go, the longest text, and each refusal against the others.
"""

from functools import cache
from itertools import product

import open_points
import query
import some_queries as q
import some_texts
import typed
from rooms import lengths_around
from some_texts import BEGINNINGS, goes_on

LENT = 99
PLENTY = 5000

# The longest text that the program of stored cases takes.
MOST_TEXT = 16384
LONG = 6200


def lengths_of(answer, figure):
    """One byte too few, just enough, one too many, and none; one length where the call refuses."""
    return lengths_around(figure) if not answer.refusal else (LENT,)


# read_text

def text_around(text):
    """The text with the lengths around what it needs."""
    answer = typed.read_text(text.encode(), PLENTY)
    for lent in lengths_of(answer, answer.record_bytes):
        yield text, lent


def operators():
    """Each operator beside each other, each axis with each test, each variable, parts in parts."""
    for first, second in product(typed.TIGHTNESS, repeat=2):
        yield f"1 {first} 2 {second} 3"
        yield f"1 {first} (2 {second} 3)"
    for axis, test in product(typed.AXES, ("node()", "*", "text()", "n0", "n65535")):
        yield f"()/{axis}::{test}"
    for v in "abcdefgh":
        yield f"let ${v} := 1 return for ${v} in ${v} return ${v}"
    yield from ("count(data(1))", "data(count(1))", "true(), false()", "if (1) then 2 else if (3) then 4 else 5, 6",
                "for $a in 1 return 2, 3", "for $a in (1, 2) return for $b in $a return $b + 1, 4",
                "for $a in for $b in 1 return 2 return 3", "if (if (1) then 2 else 3) then 4 else 5")


def points():
    """Every open point, with the lengths around what its texts need."""
    for _, texts in open_points.TYPED:
        for text, _ in texts:
            yield from text_around(text)
    for text, lent, _ in open_points.ORDER_TYPED:
        yield text, lent


def balanced(leaves):
    """A sequence nested as little as can be."""
    half = len(leaves) // 2
    return f"{balanced(leaves[:half])}, ({balanced(leaves[half:])})" if half else leaves[0]


def steps(number):
    return "1" + "/child::n2" * number


DEEP = "count(" * 33 + "1" + ")" * 33
MANY = balanced(["1"] * 65)
FULL = balanced([steps(24)] * 4 + [steps(23)])


def orders():
    """9, 2, 3 and 8 against one another: 2 for depth and for the 129th record, before and after an unbound variable."""
    for first, second in product(("1", "$a", DEEP, MANY), repeat=2):
        text = f"{first},{second}"
        yield from ((text, 0), (text, 900), (text + ",", 0), (text + ",", 900))
    for deep in (30, 31, 32, 33):
        yield "count(" * deep + "$a" + ")" * deep, 0
        yield "count(" * deep + "$a" + ")" * (deep - 1), 0


def records():
    """127 to 130 records, and 128 of as many bytes as can be; then so many that few of them are kept."""
    for leaves in (64, 65, 300):
        for end in ("", "/self::*", " eq 1", " + 1", " * 1", ", 1", ", $a", ", 1,"):
            yield f"({balanced(['1'] * leaves)}){end}", 900
    for text in (f"count({balanced(['1'] * 64)})", f"count(count({balanced(['1'] * 64)}))"):
        yield from text_around(text)
    for lent in (0, 751, 752, 753, 768, 1023, 1024, 1025, 2000):
        yield FULL, lent
    for text in (FULL + "/child::n2", FULL.replace("1/", "$a/", 1), f"{FULL}, $a", f"({FULL}) + 1"):
        yield text, 1000


# The grammar's words: those of one spelling, and a spelling of each kind.
WORDS = (*some_texts.WORDS, "1", "-1", "n2", "a")


@cache
def may_come(beginning):
    """The words that may come there."""
    return tuple(word for word in WORDS if goes_on((beginning + word).encode()))


@cache
def places():
    """The first of the beginnings after which the same words may come, for each such set of words."""
    return tuple({may_come(beginning): beginning for beginning in reversed(BEGINNINGS)}.values())


def words():
    """Every word at every place."""
    for beginning, word in product(places(), (*WORDS, "\f")):
        yield beginning + word, LENT


def words_cut():
    """Each word wherever it may come, cut after each byte, and with one wrong byte."""
    for beginning in places():
        for word in may_come(beginning):
            for at, letter in enumerate(word):
                yield beginning + word[:at + 1], LENT
                yield beginning + word[:at] + chr(ord(letter) + 1) + word[at + 1:], LENT


def pairs_of_words():
    """Each two words, with and without a space; where there is such a place, the second may come after the first."""
    for first in WORDS:
        standing = [beginning for beginning in BEGINNINGS if first in may_come(beginning)]
        for second in WORDS:
            going = [beginning for beginning in standing if goes_on(f"{beginning}{first} {second}".encode())]
            beginning = min(going or standing, key=len)
            yield beginning + first + second, LENT
            yield f"{beginning}{first} {second}", LENT


# What stands before a number, its greatest value, what stands after it.
NUMBERS = (("", 2147483647, ""), ("1 -", 2147483647, ""), ("-", 2147483648, ""), ("1 - -", 2147483648, ""),
           ("root(", 255, ")"), ("1/child::n", 65535, ""))


def numbers():
    """Each number at its bound, above it, a digit past it, with zeros before it, and where it would come round."""
    for before, most, after in NUMBERS:
        for digits in ("", "0", "00", "1", most - 1, most, f"0{most}", most + 1, f"0{most + 1}", f"{most}0",
                       2**16, 2**32, 2**32 + 1, 2**64, 2**64 + 1):
            yield f"{before}{digits}{after}", LENT
            yield f"{before}{digits} {after}", LENT


def long_texts():
    """Parentheses, chains and nests at and past what they may be."""
    for text in some_texts.long_texts():
        if len(text) <= LONG:
            yield text.decode(), 900


def written_and_cut():
    """Written texts cut at every byte."""
    others = q.let(7, q.operate(q.IDIV, q.operate(q.SUBTRACT, q.literal(10), q.literal(-4)), q.NOTHING),
                   q.operate(q.EQ, q.step(3, 0, 0, q.variable(7)), q.step(8, 2, 0, q.step(7, 1, 0, q.FALSE))))
    for query_bytes in (q.EVERY_RECORD, others, q.EXAMPLE):
        text = typed.text_of(query.read(query_bytes))
        for end in range(len(text) + 1):
            yield text[:end], LENT


def longest_texts():
    """Chains of 5,000 terms, or as many as there is room for; refused at the far end, and only spaces around."""
    for operator in (",", "+", "-", "*"):
        yield operator.join(["1"] * 5000), 900
    for part in (" idiv 1", "/self::*"):
        yield "1" + part * ((MOST_TEXT - 1) // len(part)), 900
    yield "1" + ",1" * 4999 + ",", 0
    yield "1" + "*1" * 4999 + " eq 1 eq 1", 0
    yield " " * 8192 + "1" + "\n" * 8191, 6


READ_FAMILIES = (operators, points, orders, records, words, words_cut, pairs_of_words, numbers, written_and_cut,
                 long_texts, longest_texts)


def typed_texts():
    """Each text with its lent length once; the long ones last."""
    seen = set()
    for family in READ_FAMILIES:
        for each in family():
            text, lent = (each, LENT) if isinstance(each, str) else each
            given = text.encode(), lent
            if given not in seen:
                seen.add(given)
                yield f"{family.__name__}: {text[:40]!r}, {lent} lent", given


# write_text

def query_around(name, query_bytes):
    """The query with the lengths around what its text needs."""
    answer = typed.write_text(query_bytes, PLENTY)
    for lent in lengths_of(answer, answer.text_bytes):
        yield f"{name}, {lent} lent", (query_bytes, lent)


def every_operand():
    """Each record as each operand of each other: where parentheses are needed, and where not."""
    seen = {mark: record for mark, record in q.SMALLEST.items() if mark != b"QV"}
    seen.update({f"QO {f}".encode(): q.operate(f, q.literal(7), q.literal(-2)) for f in range(1, 7)})
    shapes = {"first of a sequence": lambda a: q.sequence(a, q.NOTHING),
              "second of a sequence": lambda a: q.sequence(q.NOTHING, a),
              "bound by let": lambda a: q.let(1, a, q.variable(1)), "in let": lambda a: q.let(2, q.NOTHING, a),
              "bound by for": lambda a: q.each(3, a, q.variable(3)), "in for": lambda a: q.each(4, q.NOTHING, a),
              "a condition": lambda a: q.choose(a, q.TRUE, q.FALSE), "then": lambda a: q.choose(q.TRUE, a, q.FALSE),
              "else": lambda a: q.choose(q.TRUE, q.FALSE, a), "counted": q.count, "valued": q.values,
              "under a step": lambda a: q.step(q.PRECEDING, 1, 0, a)}
    for f in range(1, 7):
        shapes[f"first of function {f}"] = lambda a, f=f: q.operate(f, a, q.literal(3))
        shapes[f"second of function {f}"] = lambda a, f=f: q.operate(f, q.literal(3), a)
    for mark, record in seen.items():
        for place, shape in shapes.items():
            yield f"{mark.decode()} {place}", shape(record)


def numerals():
    """Numbers of every length."""
    for power in range(10):
        for number in (10**power - 1, 10**power):
            yield f"{number}", q.literal(number)
            yield f"-{number}", q.literal(-number)
            yield f"root {number}", q.root(min(number, 255))
            yield f"name {number}", q.step(q.CHILD, 3, min(number, 65535), q.NOTHING)


def most_parentheses():
    """Each record of two operands nested in its second down to depth 32, and steps over sums."""
    last = q.literal(1)
    shapes = {"QS": lambda a: q.sequence(last, a),
              "QX over QO": lambda a: q.step(q.CHILD, 1, 0, q.operate(q.ADD, a, last))}
    for f in range(1, 7):
        shapes[f"QO {f}"] = lambda a, f=f: q.operate(f, last, a)
    for name, shape in shapes.items():
        nested = last
        for _ in range(15 if "over" in name else 31):
            nested = shape(nested)
        yield f"{name} at depth 32", nested


def longest_queries():
    """128 records of as many bytes as can be written; and 64 literals."""
    long_step = [q.literal(-2147483648)] * 5
    for number, times in enumerate((24, 24, 24, 24, 23)):
        for _ in range(times):
            long_step[number] = q.step(3, 3, 65535, long_step[number])
    yield "the longest text", q.balanced(long_step)
    yield "64 literals", q.wide(127)


def written_queries():
    for mark, query_bytes in q.SMALLEST.items():
        yield from query_around(mark.decode(), query_bytes)
    for family in (every_operand, numerals, most_parentheses, q.endings, q.fields, q.step_fields, q.scopes, q.depths,
                   q.numbers_of_records):
        for name, query_bytes in family():
            yield name, (query_bytes, 900)
    some = ("the chartask example", q.EXAMPLE), ("every record", q.EVERY_RECORD)
    for name, query_bytes in (*some, *longest_queries()):
        yield from query_around(name, query_bytes)
    for name, query_bytes in (("unsound", b"QZ"), ("depth 33", q.nest(33, q.NOTHING)), ("129 records", q.wide(129)),
                              ("not bound", q.variable(0)), ("nothing", b"")):
        for lent in (0, 1):
            yield f"{name}, {lent} lent", (query_bytes, lent)
    for lent in (4095, 4096, 4097):
        yield f"{lent} lent", (q.EXAMPLE, lent)


FAMILIES = {"read_text": (typed_texts,), "write_text": (written_queries,)}
