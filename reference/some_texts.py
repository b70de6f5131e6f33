"""Texts to try: typed queries and sheets, drawn, damaged, and at the bounds.

Typed queries are drawn from the grammar's table, with spaces wherever they may stand and left out wherever they need
not; and from drawn records, as the writer spells them.
"""

from itertools import product

import query
import sheets
import some_catalogues
import some_queries
import typed
from catalogue import Row
from typed_by_table import DEEPEST_GROUP, KINDS, PRODUCTIONS_OF, must_part

# Spellings of the words that have a value: at the bounds and around them.
INTEGERS = ("0", "1", "2", "7", "10", "00", "007", "2147483647", "02147483647")
OF_KIND = {"Integer": INTEGERS, "Negative": tuple("-" + digits for digits in INTEGERS) + ("-2147483648",),
           "Fragment": ("1", "2", "255", "01", "0099"), "Name": ("n0", "n1", "n2", "n10", "n65535"),
           "Var": tuple("abcdefgh")}
PAST_A_BOUND = ("2147483648", "-2147483649", "21474836470", "0", "256", "2550", "n65536", "n01", "n00", "n655350", "i", "n")

# The shortest way from each part to words.
SHORTEST = {"Expr": (0,), "Single": (3,), "Comparison": (0,), "Additive": (0,), "Multiplicative": (0,), "Path": (0,),
            "Primary": (0, 1, 2, 3, 5, 6)}
SPACES = (" ", " ", " ", "\n", "\t", "\r", "  ", " \n\t")
BYTES = b" \t\n$()/:=,+-*.;abcdefghijklnopqrstuwx0123456789\x00\xff\x0cNA"


# Typed queries.

def derived(rng, symbol, size, groups=0):
    """The words of a derivation of about that size: pairs of symbol and spelling."""
    if symbol in KINDS:
        return [(symbol, rng.choice(OF_KIND[symbol]))]
    if symbol[0] == '"':
        return [(symbol, symbol[1:-1])]
    ways = PRODUCTIONS_OF[symbol]
    if size <= 1 and symbol in SHORTEST:
        ways = [ways[number] for number in SHORTEST[symbol]]
    way = rng.choice([way for way in ways if groups < DEEPEST_GROUP or way.reading != ("deeper",)])
    inner = groups + (way.reading == ("deeper",))
    parts = sum(part in SHORTEST for part in way.right)
    share = (size - (parts > 1)) // max(parts, 1)
    return [word for part in way.right for word in derived(rng, part, share, inner)]


def joined(rng, words, spaced):
    """The words as text; a space where one is needed, and elsewhere as often as that."""
    text, before = "", None
    for symbol, spelling in words:
        needed = before is not None and must_part(before[0], before[1].encode(), ord(spelling[0]))
        if needed or rng.random() < spaced:
            text += rng.choice(SPACES)
        text += spelling
        before = symbol, spelling
    return text.encode() + (b" " if rng.random() < spaced else b"")


def drawn_text(rng, size):
    """A text of the grammar."""
    return joined(rng, derived(rng, "Expr", rng.randint(1, size)), rng.choice((0, 0, 0.3, 0.8)))


def written_text(rng, most):
    """A drawn query as the writer spells it."""
    return typed.text_of(query.read(some_queries.drawn(rng, most))).encode()


def damaged(rng, text, its_bytes=BYTES):
    """The text with a byte or a stretch changed, cut, doubled or taken out, once or twice."""
    for _ in range(rng.choice((1, 1, 2))):
        at, to = sorted(rng.randint(0, len(text)) for _ in range(2))
        byte = bytes([rng.choice(its_bytes)])
        text = rng.choice((text[:at], text[:at] + text[at + 1:], text[:at] + byte + text[at:],
                           text[:at] + byte + text[at + 1:], text[:at] + text[to:], text[:to] + text[at:],
                           text[:at] + text[at:to].replace(b" ", b"") + text[to:]))
    return text


def past_a_bound(rng, size):
    """A text of the grammar with one word for another."""
    words = derived(rng, "Expr", rng.randint(1, size))
    at = rng.randrange(len(words))
    words[at] = words[at][0], rng.choice(PAST_A_BOUND + tuple(WORDS))
    return joined(rng, words, 0.3)


def any_text(rng, size=14):
    """One of all these."""
    which = rng.random()
    if which < 0.25:
        return drawn_text(rng, size)
    if which < 0.35:
        return written_text(rng, size)
    if which < 0.5:
        return past_a_bound(rng, size)
    return damaged(rng, drawn_text(rng, size) if which < 0.75 else written_text(rng, size))


# Beginnings of texts, one for each place where other words may come.
BEGINNINGS = ("", "1 ", "$a ", "(", "(1 ", "1, ", "1 + ", "1 + 2 ", "1 * ", "1 eq ", "1 eq 2 ", "1 eq 2, 3 ", "$",
              "for ", "for $", "for $a ", "for $a in ", "for $a in 1 ", "for $a in 1 eq 2 ", "for $a in 1 return ",
              "for $a in 1 return 2 ", "let $a ", "let $a := ", "let $a := 1 ", "if ", "if (", "if (1 ", "if (1) ",
              "if (1) then ", "if (1) then 2 ", "if (1) then 2 eq 3 ", "if (1) then 2 else ", "if (1) then 2 else 3 ",
              "for $a in for $b in 1 return 2 ", "if (1) then if (2) then 3 else 4 ", "count ", "count(", "count(1 ",
              "count((1 ", "data", "data(", "root", "root(", "root(1 ", "true", "true(", "1/", "1/child ", "1/child::",
              "1/child::n2 ", "1/child::node ", "1/child::node(", "1/child::node() ", "1/child::* ", "(" * 32, "(" * 33)
WORDS = tuple(dict.fromkeys(part[1:-1] for ways in PRODUCTIONS_OF.values() for way in ways for part in way.right
                            if part[0] == '"'))
SOME_WORDS = (*WORDS, "0", "1", "2147483647", "2147483648", "-1", "-", "-2147483648", "-2147483649", "256", "255", "n2",
              "n0", "n01", "n65535", "n65536", "n", "a", "h", "i", ":", "=", "child::n2", "()", "$a")


def words_after_beginnings():
    """Every word where other words may come, and cut after each byte, and each cut with a wrong byte."""
    for beginning in BEGINNINGS:
        for word in SOME_WORDS:
            for end in range(1, len(word) + 1):
                for more in ("", " ", "x", "0", "-", "(", ":"):
                    yield (beginning + word[:end] + more).encode()


def goes_on(beginning):
    """Whether a text of the grammar begins so, or is so."""
    try:
        typed.records_of(beginning)
    except typed.Refused as refused:
        return refused.place == len(beginning)
    return True


def pairs_of_words():
    """Each two words, with and without a space, wherever the first may stand."""
    for beginning in BEGINNINGS:
        for first in SOME_WORDS:
            if goes_on((beginning + first).encode()):
                for second in SOME_WORDS:
                    yield (beginning + first + second).encode()
                    yield (beginning + first + " " + second).encode()


def long_texts():
    """Parentheses and chains at and past what they may be, and long ones."""
    for groups in (1, 31, 32, 33, 34):
        for inner in ("1", "()", "", "1, 2", "count((1))", "if ((1)) then (2) else (3)", "$a/child::n2", " "):
            yield ("(" * groups + inner + ")" * groups).encode()
            yield ("(" * groups + inner + ")" * (groups - 1)).encode()
            yield ("( " * groups + inner + " )" * (groups + 1)).encode()
    for terms in (2, 31, 32, 33, 64, 65, 128, 129, 5000):
        for operator in (",", "+", " - ", "*", " idiv "):
            yield operator.join(["1"] * terms).encode()
        yield b"1" + b"/child::n2" * terms
    for nested in (31, 32, 33, 300):
        yield b"count(" * nested + b"1" + b")" * nested
        yield b"if(" * nested + b"1" + b")then 2 else 3" * nested
        yield b"if(1)then " * nested + b"1" + b" else 3" * nested
        yield b"for $a in " * nested + b"1" + b" return $a" * nested
        yield b"let $a:=1 return " * nested + b"$a"
    yield b"0" * 5000 + b"1"
    yield b" " * 5000 + b"1" + b"\n" * 5000


def cut_everywhere():
    """Written texts cut at every byte, and with every byte of interest after every beginning."""
    text = typed.text_of(query.read(some_queries.EVERY_RECORD)).encode()
    for end in range(len(text) + 1):
        yield text[:end]
        for byte in BYTES:
            yield text[:end] + bytes([byte])


def all_short(its_bytes, longest):
    """Every text of these bytes up to that length."""
    for length in range(longest + 1):
        for text in product(its_bytes, repeat=length):
            yield bytes(text)


def short_texts():
    """Every short text of some bytes, whatever it is."""
    yield from all_short(b"1-(), *", 5)
    yield from all_short(b"$a-0 ,+", 5)


FAMILIES = (long_texts, cut_everywhere, words_after_beginnings, pairs_of_words, short_texts)


# Sheets.

def apart(rows):
    """The rows of a drawn catalogue without the second of two texts side by side."""
    shape = []
    for _, level, kind, prop in rows:
        if not (shape and shape[-1][0] == level and shape[-1][1] == kind == 3):
            shape.append((level, kind, prop))
    return some_catalogues.sized(shape)


def drawn_sheets(rng, most):
    """The text of a drawn catalogue; some elements without content in their other spelling."""
    rows = [Row(b"DN", *fields) for fields in apart(some_catalogues.drawn(rng, most))]
    text = sheets.text_of(rows).encode()
    while rng.random() < 0.4 and b"/>" in text:
        end = rng.choice([at for at in range(len(text)) if text[at:at + 2] == b"/>"])
        first = text.rfind(b"<", 0, end)
        text = text[:end] + b"></" + text[first + 1:end] + b">" + text[end + 2:]
    return text


OF_SHEETS = b"<>/n-0123456789 \n&+N?!\x00\xff"
SOME_SHEETS = (b"", b"<n1/>", b"<n12></n12>", b"<n0><n7>5</n7>-20<n65535/>0</n0><n1/>", b"<n1>-2147483648</n1>",
               b"<n1>2147483647<n2/></n1>", b"<n65535>1<n6553><n65/></n6553>2</n65535>", b"<n1>" * 63, b"<n1>" * 64,
               b"<n1>" * 63 + b"1", b"<n1>" * 63 + b"<n2/>" + b"</n1>" * 63)


def any_sheets(rng, most=9):
    """A text of the profile, or a damaged one."""
    text = drawn_sheets(rng, most)
    return text if rng.random() < 0.35 else damaged(rng, text, OF_SHEETS)


def every_next_byte():
    """Every byte after every beginning of some sheets; of the long ones, their last part."""
    for text in SOME_SHEETS:
        for end in range(max(0, len(text) - 40), len(text) + 1):
            for byte in range(256):
                yield text[:end] + bytes([byte])


def long_sheets():
    """Rows at and past their bound, and a fault after them."""
    for rows in (2047, 2048, 2049, 5000):
        for more in (b"", b"<", b"1", b"<n1></n1>", b"<n1>1"):
            yield b"<n7/>" * rows + more
            yield b"<n7>" + b"<n7/>" * (rows - 1) + b"</n7>" + more
    yield b"<n7>" + b"1<n8/>" * 5000 + b"</n7>"
    yield b"<n7>" + b"1" * 5000
    yield b"<n1>" * 5000


def short_sheets():
    """Every short text of the bytes of tags and numbers."""
    yield from all_short(b"<n1/>-", 6)


FAMILIES_OF_SHEETS = (long_sheets, every_next_byte, short_sheets)
