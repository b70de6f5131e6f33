"""Typed texts, given as they stand to two other engines, Saxon-HE and BaseX, and compared with the reference reader.

    python3 reference/texts-against-engines.py [texts] [seed]

So many texts of document 02's L1, and as many outside it. A text of the grammar must be read by the engine and give the
items that the model gives for the records that it is read as: another grouping would give others. Of a text outside the
grammar that an engine reads all the same, wider.py names what XQuery has and the grammar lacks. The engines, the
catalogue and the exclusions are those of against-engines.py.
"""

import importlib
import random
import re
import sys
from collections import Counter
from itertools import chain, islice

sys.dont_write_bytecode = True

import bytes as tool
import catalogue
import generate
import open_points
import query
import some_catalogues
import some_queries as q
import some_texts
import typed
import typed_at_bounds
import typed_by_table
import wider
import xquery
from cells import Refused

engines = importlib.import_module("against-engines")

TEXTS = 10000
SEED = 22

# How many texts are drawn for one that gives items; those that fail hide how they are grouped.
TRIES = 6
MOST_SHOWN = 200


# What the engines are given.

def prefixed(text):
    """The text with the words `root` and `data`, where they are called, as this project's functions."""
    made, at = "", 0
    while at < len(text):
        found = wider.TOKENS.match(text, at)
        end = found.end() if found else at + 1
        is_called = found and found.group() in ("root", "data") and re.match(r"[ \t\n\r]*\(", text[end:])
        made += ("local:" if is_called else "") + text[at:end]
        at = end
    return made


def escaped(program):
    """The program in one line, with Java's escapes, whatever its bytes are."""
    return "".join(c if " " <= c <= "~" and c != "\\" else f"\\{ord(c):03o}" for c in program)


def programs(text, doc, values):
    """The text after what it stands on; and within what tells its items. `values` are those of its free variables."""
    rows = catalogue.read(doc)
    roots = ", ".join(xquery.xml(rows.rows[fragment.start:fragment.stop]) for fragment in rows.fragments)
    bound = [(xquery.variable(v), engines.TEXTS.text(query.read(value))) for v, value in values.items()]
    typed_text = prefixed(text.decode("latin-1"))
    prolog, body = engines.PROLOG.format(roots=roots, query="\n" + typed_text + "\n").split("string-join(", 1)
    prolog += tool.DATA + "\n"
    declared = "".join(f"declare variable {name} := ({value});\n" for name, value in bound)
    around = "".join(f"let {name} := ({value}) return\n" for name, value in bound)
    return escaped(prolog + declared + typed_text), escaped(f"{prolog}{around}string-join({body}")


class Typed:
    """A text of the grammar with its records, a catalogue, values for its free variables, and the model's answer."""

    def __init__(self, text, rng):
        self.typed, self.shown = text, repr(text.decode())
        self.records = typed.records_of(text)
        doc = some_catalogues.written(some_texts.apart(some_catalogues.drawn(rng, rng.choice((3, 9, 9, 14)), 1)))
        self.values = {v: rng.choice(VALUES) for v in sorted(free_in(text))}
        self.given = bound_around(self.records, self.values), doc
        self.items = self.reason = self.left_out = None
        if not generate.is_small(self.given[0], len(doc) // catalogue.ROW.size):
            self.left_out = "more records, depth or work than the model is given"
        else:
            self.items, self.reason = engines.model(*self.given)
            self.left_out = self.reason if self.reason in (*engines.NARROWER, "room") else None

    def with_programs(self):
        """What the engines are given: the text; with the spaces that BaseX asks for; with every part in parentheses."""
        text, doc = self.typed, self.given[1]
        self.alone, self.text = programs(text, doc, self.values)
        self.texts = dict.fromkeys(engines.ENGINES, self.text)
        self.spaced, self.spaced_text = programs(with_spaces(text), doc, self.values)
        self.bare = programs(with_spaces(text), doc, {})[0]
        if not self.left_out:
            inner = query.read(self.given[0])
            for _ in self.values:
                inner = inner.operands[1]
            self.grouped = programs(GROUPED.text(inner).encode(), doc, self.values)[1]
        return self


class Grouped(xquery.Texts):
    """The text of a query with every part in parentheses."""

    def text(self, expression, least=None):
        return f"({self.parts(expression)[1]})"


GROUPED = Grouped(lambda k: f"root({k})")

VALUES = (q.literal(1), q.literal(7), q.literal(-2), q.sequence(q.literal(1), q.literal(2)), q.root(1),
          q.step(2, 0, 0, q.root(1)))


def bound_around(records, values):
    """The records with a `let` around them for each of these variables."""
    for v, value in values.items():
        records = q.let(v, value, records)
    return records


def free_in(text):
    """The variables that the text takes from outside."""
    free, todo = set(), [(typed.Reader(text).whole(), frozenset())]
    while todo:
        part, bound = todo.pop()
        mark, variable = part.record[:2], part.record[2:]
        if mark == b"QV" and variable not in bound:
            free.add(variable[0])
        for number, operand in enumerate(part.operands):
            todo.append((operand, bound | {variable} if mark in (b"QT", b"QF") and number == 1 else bound))
    return free


# Texts of the grammar.

class Recorded(typed.Words):
    """The words that a reader took."""

    def __init__(self, text):
        super().__init__(text)
        self.taken = []

    def word(self, *expected):
        word = super().word(*expected)
        if word.kind != "End":
            self.taken.append((word.kind, self.text[word.at:self.at].decode()))
        return word


def words_of(text):
    """The words of a text of the grammar, each with its kind."""
    reader = typed.Reader(text)
    reader.words = Recorded(text)
    reader.whole()
    return reader.words.taken


KEYWORD_AND_MINUS = re.compile(r"\b(return|then|else|idiv|eq|lt)-")
# The same of the words that XQuery has and the grammar lacks, and of a point.
KEYWORD_AND_MORE = re.compile(r"\b(return|then|else|where|by|%s)[-.]" % "|".join(
    word for level in wider.LEVELS for word in level if word.isalpha()))


def with_spaces(text):
    """The text with a space after each keyword that a minus follows directly: BaseX asks for it."""
    return KEYWORD_AND_MINUS.sub(r"\1 -", text.decode()).encode()


def respelled(rng, words):
    """The words with zeros before numbers and parentheses around them, here and there."""
    for kind, spelling in words:
        if kind in ("Integer", "Negative", "Fragment") and rng.random() < 0.15:
            sign = "-" if kind == "Negative" else ""
            spelling = sign + "0" * rng.choice((1, 1, 2, 9)) + spelling.removeprefix(sign)
        around = rng.choice((1, 1, 2, 3)) if kind in ("Integer", "Negative") and rng.random() < 0.1 else 0
        yield from [("(", "(")] * around + [(kind, spelling)] + [(")", ")")] * around


def spelled_otherwise(rng):
    """A drawn query as the writer spells it, then with other spaces, zeros and parentheses."""
    words = list(respelled(rng, words_of(some_texts.written_text(rng, rng.choice((6, 12, 24))))))
    return some_texts.joined(rng, words, rng.choice((0, 0, 0.3, 0.8)))


def sums(rng, nested, bound):
    """Words of a sum whose operands are integers: other groupings give other numbers."""
    words = operand(rng, nested, bound)
    for _ in range(rng.choice((0, 1, 2, 2, 3, 4))):
        operator = rng.choice(("+", "-", "-", "*", "idiv"))
        words = words + [(operator, operator)] + operand(rng, nested, bound)
    return words


def operand(rng, nested, bound):
    if nested and rng.random() < 0.15:
        return [("(", "("), *sums(rng, nested - 1, bound), (")", ")")]
    if bound and rng.random() < 0.3:
        return [("$", "$"), ("Var", "a")]
    number = str(rng.randint(1, 40))
    return [("Negative", "-" + number)] if rng.random() < 0.15 else [("Integer", number)]


def fixed(words):
    return [(word if word != "a" else "Var", word) for word in words.split()]


def a_single(rng, nested, bound):
    """Words of a sum, a comparison, a loop or a choice."""
    which = rng.random() if nested else 1
    inner = nested - 1
    if which < 0.2:
        return [*fixed("for $ a in"), *a_single(rng, inner, bound), *fixed("return"), *a_single(rng, inner, True)]
    if which < 0.3:
        return [*fixed("let $ a :="), *sums(rng, inner, bound), *fixed("return"), *a_single(rng, inner, True)]
    if which < 0.45:
        return [*fixed("if ("), *compared_sums(rng, inner, bound), *fixed(") then"), *a_single(rng, inner, bound),
                *fixed("else"), *a_single(rng, inner, bound)]
    return compared_sums(rng, nested, bound) if rng.random() < 0.4 else sums(rng, nested, bound)


def compared_sums(rng, nested, bound):
    return [*sums(rng, nested, bound), *fixed(rng.choice(("eq", "lt"))), *sums(rng, nested, bound)]


def numbers(rng):
    """A text of sums, comparisons, loops and choices over integers."""
    words = a_single(rng, 3, False)
    for _ in range(rng.choice((0, 0, 1, 2))):
        words = words + fixed(",") + a_single(rng, 2, False)
    return some_texts.joined(rng, list(respelled(rng, words)), rng.choice((0, 0, 0.3, 0.8)))


DRAWN_INSIDE = (lambda rng: some_texts.drawn_text(rng, 16), spelled_otherwise, numbers)


def giving_items(rng, draw):
    """Of some drawn texts the first that gives items, or the last."""
    for _ in range(TRIES):
        made = Typed(draw(rng), rng)
        if made.items is not None and not made.left_out:
            break
    return made.with_programs()


def is_read(text):
    return not isinstance(answer(text), int)


def answer(text):
    """The reference reader's: the records, or the place of refusal 9. Both readers must agree."""
    both = []
    for reader in (typed, typed_by_table):
        try:
            both.append(reader.records_of(text))
        except Refused as refused:
            both.append(refused.place)
    assert both[0] == both[1], text
    return both[0]


def listed_texts():
    """The texts of the open points, and every operator beside every other."""
    points = (text for _, texts in open_points.TYPED for text, _ in texts)
    return list(dict.fromkeys(text.encode() for text in chain(points, typed_at_bounds.operators())))


def inside(n, seed):
    """n texts of the grammar."""
    rng = random.Random(f"texts inside {seed}")
    for text in islice(filter(is_read, listed_texts()), n):
        n -= 1
        yield Typed(text, rng).with_programs()
    for number in range(n):
        yield giving_items(rng, DRAWN_INSIDE[number % len(DRAWN_INSIDE)])


# Texts outside it.

AXES = {f'"{axis}"': wider.OTHER_AXES for axis in typed.AXES}
COMPARED = ("=", "!=", "ne", "le", "gt", "ge", "<", "<=", ">=", "is")
CALLED = ("sum", "not", "exists", "abs", "nothing-known")
# Words of XQuery in place of the grammar's.
WIDER = {**AXES, '"eq"': COMPARED, '"lt"': COMPARED, '"*"': ("div", "mod"), '"idiv"': ("div", "mod"),
         '"+"': ("to", "and", "or", "|", "union"), '"-"': ("to", "intersect", "except"),
         '"count"': CALLED, '"data"': CALLED,
         "Integer": ("1.5", ".5", "1e3", "1.", "2147483648", "99999999999", "'a'", "- 1", "+1", "--1", ".", "(1)[1]"),
         "Negative": ("- 1", "--1", "-2147483649", "-1.5", "-(1)"), "Fragment": ("0", "256", "1 + 1", "$a", "-1"),
         "Var": ("i", "ab", "a-1"), "Name": ("n01", "n65536", "sailor", "n2-1", "element()", "n2[1]"),
         '"node"': ("comment", "element"), '"text"': ("comment", "element"),
         '"::"': ("::node()/",), '"/"': ("//", "/../"),
         '"return"': (", $b in 1 return", "for $b in 2 return", "where 1 return", "order by 1 return",
                      "let $b := 2 return")}


def with_a_wider_word(rng):
    """A text of the grammar with a word of XQuery that it lacks in place of one, or a comment, or many parentheses."""
    words = some_texts.derived(rng, rng.choice(("Expr", "Comparison", "Path", "Path")), rng.randint(1, 10))
    if rng.random() < 0.1:
        around = rng.randint(33, 40)
        words = [('"("', "(")] * around + words + [('")"', ")")] * around
    elif rng.random() < 0.1:
        words.insert(rng.randint(0, len(words)), ('"("', "(:c:)"))
    else:
        which = rng.choice(sorted({symbol for symbol, _ in words if symbol in WIDER}) or [words[0][0]])
        at = rng.choice([at for at, (symbol, _) in enumerate(words) if symbol == which])
        words[at] = words[at][0], rng.choice(WIDER.get(words[at][0], ("()()",)))
    return some_texts.joined(rng, words, 0.6)


def a_text(rng):
    return some_texts.drawn_text(rng, 14) if rng.random() < 0.5 else some_texts.written_text(rng, 12)


def cut(rng):
    text = a_text(rng)
    return text[:rng.randrange(len(text))]


def one_wrong_byte(rng):
    text = a_text(rng)
    at = rng.randrange(len(text))
    return text[:at] + bytes([rng.choice(some_texts.BYTES)]) + text[at + 1:]


def words_joined(rng):
    """One space, or all, taken out."""
    text = a_text(rng)
    spaces = [at for at, byte in enumerate(text) if byte in typed.SPACES]
    if not spaces or rng.random() < 0.2:
        return bytes(byte for byte in text if byte not in typed.SPACES)
    at = rng.choice(spaces)
    return text[:at] + text[at + 1:]


DRAWN_OUTSIDE = {"with a wider word": with_a_wider_word, "cut": cut, "one wrong byte": one_wrong_byte,
                 "words joined": words_joined, "damaged": lambda rng: some_texts.damaged(rng, a_text(rng)),
                 "past a bound": lambda rng: some_texts.past_a_bound(rng, 12)}


def outside(n, seed):
    """n texts outside the grammar: those of the open points, then drawn ones of each kind in turn."""
    rng = random.Random(f"texts outside {seed}")
    texts = {text: "open point" for text in listed_texts() if not is_read(text)}
    kinds = list(DRAWN_OUTSIDE)
    while len(texts) < n:
        kind = kinds[len(texts) % len(kinds)]
        text = DRAWN_OUTSIDE[kind](rng)
        if not is_read(text):
            texts.setdefault(text, kind)
    return dict(islice(texts.items(), n))


# What the engines say of texts outside the grammar.

NOT_READ = "early XPST0003"
# Told where a name is met, before the rest of the text is read.
UNKNOWN = {"early XPST0008": "an unknown variable is told of first",
           "early XPST0017": "an unknown function is told of first",
           "early XPST0081": "an unknown prefix is told of first"}


def shown(text):
    text = text if isinstance(text, str) else text.decode("latin-1")
    return repr(text if len(text) <= MOST_SHOWN else text[:MOST_SHOWN] + "..")


def counted(told):
    return ", ".join(f"{its} {times}" for its, times in Counter(told).items()) or "none"


def way_read(text, told):
    """How an engine takes a text outside the grammar."""
    if told == NOT_READ:
        return "not read"
    names = wider.names(text)
    if names:
        return f"read: {names[0]}"
    if told in UNKNOWN and names is None:
        return UNKNOWN[told]
    return f"UNEXPLAINED, {told}"


def why_apart(text, saxon, basex):
    """Why one engine reads a text that the other does not."""
    engine, told = ("Saxon-HE", saxon) if basex == NOT_READ else ("BaseX", basex)
    if engine == "Saxon-HE" and KEYWORD_AND_MORE.search(text.decode("latin-1")):
        return "BaseX asks for a space between a keyword and a minus or point"
    only_there = [name for name in wider.names(text) or () if name.endswith(engine)]
    return "; ".join(only_there) or (f"{engine}: {UNKNOWN[told]}" if told in UNKNOWN else f"BY {engine.upper()}")


def report_outside(texts):
    """For each engine how many it reads, by what the grammar lacks."""
    yield f"{len(texts)} texts outside the grammar: {counted(texts.values())}"
    doc = some_catalogues.written(some_catalogues.EXAMPLE)
    given = [programs(text, doc, dict.fromkeys(range(8), q.literal(1)))[0] for text in texts]
    told = {engine: engines.answers(engine, given, "read") for engine in engines.ENGINES}
    ways = {engine: list(map(way_read, texts, told[engine])) for engine in told}
    for way, _ in Counter(chain(*ways.values())).most_common():
        counts = ", ".join(f"{engine} {ways[engine].count(way)}" for engine in ways)
        one = min((text for engine in ways for text, its in zip(texts, ways[engine]) if its == way), key=len)
        yield f"{way}: {counts}; such as {shown(one)}"
    for engine in ways:
        unexplained = [(text, way) for text, way in zip(texts, ways[engine]) if way.startswith("UNEXPLAINED")]
        yield f"{engine}: unexplained {len(unexplained)}"
        for text, way in sorted(unexplained, key=lambda pair: len(pair[0])):
            yield f"    {way}: {shown(text)}"
    yield from report_apart(list(zip(texts, *told.values())))


def report_apart(told):
    """The texts that one engine alone reads, by reason; all of them where there is none."""
    apart = [(why_apart(*one), one[0]) for one in told if (one[1] == NOT_READ) != (one[2] == NOT_READ)]
    for why, times in Counter(why for why, _ in apart).most_common():
        some = sorted((text for its, text in apart if its == why), key=len)
        yield f"read by one engine alone: {why} {times}, such as {shown(some[0])}"
        if why.isupper():
            yield from (f"    {shown(text)}" for text in some)


# What they say of texts of the grammar.

def is_right_grouped(word, tightness):
    return typed.TIGHTNESS[word.kind] > tightness


# Other groupings: planted in the reference reader, to see how many texts would show each.
GROUPINGS = {"operators grouped to the right": ("goes_first", is_right_grouped),
             "sums as tight as products": ("TIGHTNESS", {**typed.TIGHTNESS, "*": 2, "idiv": 2}),
             "comparisons tighter than sums": ("TIGHTNESS", {**typed.TIGHTNESS, "eq": 4, "lt": 4})}


def report_grouping(compared, name):
    """How many of the texts would be read as other records, and give another answer, with that planted."""
    planted, wrong = GROUPINGS[name]
    right = getattr(typed, planted)
    setattr(typed, planted, wrong)
    try:
        other = [(pair, typed.records_of(pair.typed)) for pair in compared]
    finally:
        setattr(typed, planted, right)
    other = [(pair, bound_around(records, pair.values)) for pair, records in other if records != pair.records]
    seen = sum(engines.model(records, pair.given[1]) != (pair.items, pair.reason) for pair, records in other)
    return f"were it {name}: {len(other)} of them would be read otherwise, and {seen} would show it"


def report_reading(engine, pairs):
    """What the engine reads as it stands, what with the spaces that BaseX asks for, and what not at all."""
    told = engines.answers(engine, [pair.alone for pair in pairs], "read")
    unread = sorted((pair for pair, its in zip(pairs, told) if its == NOT_READ), key=lambda pair: len(pair.typed))
    spaced = engines.answers(engine, [pair.spaced for pair in unread], "read") if unread else []
    still = [pair.typed for pair, its in zip(unread, spaced) if its == NOT_READ]
    for pair in unread:
        pair.texts[engine] = pair.spaced_text
    keywords = chain(*(sorted(set(KEYWORD_AND_MINUS.findall(pair.typed.decode()))) for pair in unread))
    yield (f"{engine}: reads {len(pairs) - len(unread)}; with a space between a keyword and a minus "
           f"{len(unread) - len(still)} more: {counted(keywords)}")
    yield from (f"    such as {shown(pair.typed)}" for pair in unread[:3])
    yield f"{engine}: does not read {len(still)}"
    yield from (f"    {shown(text)}" for text in still)
    early = (its for its in told if its not in ("read", NOT_READ))
    yield f"{engine}: read, and an error told before the work: {counted(early)}"
    unbound = [pair.bare for pair in pairs if pair.values]
    told = engines.answers(engine, unbound, "read")
    yield f"{engine}: {len(unbound)} with a variable that nothing binds: {counted(told)}"


def report_inside(pairs):
    """For each engine what it does not read, and how its items stand to the model's."""
    yield f"{len(pairs)} texts of the grammar"
    for engine in engines.ENGINES:
        yield from report_reading(engine, pairs)
    for name, times in Counter(pair.left_out for pair in pairs if pair.left_out).most_common():
        yield f"not compared: {name} {times}"
    compared = [pair for pair in pairs if not pair.left_out]
    yield f"compared: {len(compared)}, of which the model gives items for {sum(pair.reason is None for pair in compared)}"
    for name in GROUPINGS:
        yield report_grouping(compared, name)
    told = {engine: engines.answers(engine, [pair.texts[engine] for pair in compared]) for engine in engines.ENGINES}
    verdicts = {engine: list(map(engines.verdict, compared, told[engine])) for engine in told}
    for engine in told:
        opinions = engines.second_opinions(engine, compared, verdicts)
        for what, times in Counter(opinions).most_common():
            yield f"{engine}: {what} {times}"
            if what not in ("same items", "both fail"):
                yield from engines.shortest(what, compared, told[engine], opinions)
        yield from report_grouped(engine, compared, told[engine], verdicts[engine])


def report_grouped(engine, compared, told, verdicts):
    """Where the items are not the model's, whether the engine answers the same with every part in parentheses."""
    others = [number for number, its in enumerate(verdicts) if its != "same items"]
    again = engines.answers(engine, [compared[number].grouped for number in others]) if others else []
    seen = Counter()
    for number, its in zip(others, again):
        # Where both fail, an error may be told early of one text and late of the other.
        both_fail = verdicts[number] == "both fail"
        same = its.split()[-1:] == told[number].split()[-1:] if both_fail else its == told[number]
        seen[verdicts[number], "the same" if same else "another answer"] += 1
        if not (same or both_fail):
            yield f"    {shown(compared[number].typed)}: {told[number]!r}, in parentheses {its!r}"
    for (its, same), times in sorted(seen.items()):
        yield f"{engine}, {its}, given again with every part in parentheses: {same} {times}"


def main(arguments):
    n, seed = (int(word) for word in (arguments + [TEXTS, SEED][len(arguments):]))
    for line in chain(report_inside(list(inside(n, seed))), report_outside(outside(n, seed))):
        print(line, flush=True)


if __name__ == "__main__":
    main(sys.argv[1:])
