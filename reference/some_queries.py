"""Queries to try: bytes built record by record, drawn ones, and those at the bounds.

Drawn queries lean toward what students slip on, and mostly ask each operand for the
kind of items its record can use, so that not every query fails.
"""

import struct

from query import OPERANDS, FIELDS

INTEGERS = (0, 1, 2, 3, 10, 20, -1, -2, 7, -7)
ENDS = (2147483647, 2147483646, -2147483648, -2147483647, 65536, 46341)
VARIABLES = (0, 0, 0, 1, 1, 2, 3, 7)
AXES = (1, 1, 1, 2, 2, 2, 2, 3, 3, 3, 3, 4, 5, 6, 7, 7, 8, 8)


# The records, by their words in document 01.

def literal(n):
    return struct.pack(">2si", b"QL", n)


def boolean(b):
    return bytes([*b"QB", b])


def root(k):
    return bytes([*b"QR", k])


def variable(v):
    return bytes([*b"QV", v])


def sequence(a, *more):
    """a, then the others: `QS` for each further operand."""
    for b in more:
        a = b"QS" + a + b
    return a


def let(v, a, b):
    return bytes([*b"QT", v]) + a + b


def each(v, a, b):
    return bytes([*b"QF", v]) + a + b


def choose(c, a, b):
    return b"QI" + c + a + b


def operate(f, a, b):
    return bytes([*b"QO", f]) + a + b


def count(a):
    return b"QC" + a


def values(a):
    return b"QD" + a


def step(axis, test, name, a):
    return struct.pack(">2sBBH", b"QX", axis, test, name) + a


NOTHING = b"QE"
FALSE, TRUE = boolean(0), boolean(1)
ADD, SUBTRACT, MULTIPLY, IDIV, EQ, LT = range(1, 7)
CHILD, DESCENDANT, DESCENDANT_OR_SELF, SELF, PARENT, ANCESTOR, FOLLOWING, PRECEDING = range(1, 9)
FAILING = operate(IDIV, literal(1), literal(0))

# The query of the chartask example.
EXAMPLE = each(0, step(CHILD, 3, 2, root(1)), count(step(CHILD, 3, 3, variable(0))))


# How much work a query can be.

def bounds(expression, rows, lengths):
    """Bounds of the records worked out and of the items given, over a catalogue of so many rows.

    A nest of `for` over few items can take for ever; what passes these bounds is not tried."""
    parts = expression.operands
    match expression.mark:
        case b"QE":
            return 1, 0
        case b"QV":
            return 1, lengths[expression.fields[0]]
        case b"QT" | b"QF":
            v, is_for = expression.fields[0], expression.mark == b"QF"
            turns, items = bounds(parts[0], rows, lengths)
            b_turns, b_items = bounds(parts[1], rows, {**lengths, v: 1 if is_for else items})
            times = items if is_for else 1
            return 1 + turns + times * b_turns, times * b_items
    inner = [bounds(part, rows, lengths) for part in parts]
    turns = 1 + sum(part_turns for part_turns, _ in inner)
    match expression.mark:
        case b"QS":
            return turns, inner[0][1] + inner[1][1]
        case b"QI":
            return turns, max(inner[1][1], inner[2][1])
        case b"QD":
            return turns, inner[0][1]
        case b"QX":
            return turns, rows if inner[0][1] else 0
    return turns, 1


# Drawn queries.

class Draw:
    """Draws expressions. `bound` says for each variable what it holds: 'one', 'many' or 'nodes'."""

    def __init__(self, rng):
        self.rng = rng

    def expression(self, want, size, bound):
        """About `size` records that mostly give what is wanted: 'one', 'many', 'nodes' or 'truth'."""
        if self.rng.random() < 0.025:
            want = self.rng.choice(("one", "many", "nodes", "truth"))
        if size <= 1:
            return LEAVES[want](self, bound)
        if self.rng.random() < 0.18:
            return self.rng.choice(SLIPS)(self, size, bound)
        forms, weights = zip(*FORMS[want])
        return self.rng.choices(forms, weights)[0](self, want, size - 1, bound)

    def part(self, size):
        """The share of the size that one of two operands takes."""
        return self.rng.randint(1, max(1, size - 1))

    def integer(self):
        return literal(self.rng.choice(ENDS if self.rng.random() < 0.1 else INTEGERS))

    def held(self, kinds, bound):
        """A variable that holds one of these kinds, or None; three times in four where there is one."""
        fitting = [v for v, kind in bound.items() if kind in kinds]
        return variable(self.rng.choice(fitting)) if fitting and self.rng.random() < 0.75 else None

    # Leaves.

    def one_leaf(self, bound):
        return self.held(("one",), bound) or self.integer()

    def many_leaf(self, bound):
        if self.rng.random() < 0.1:
            return NOTHING
        return self.held(("one", "many", "nodes"), bound) or self.integer()

    def nodes_leaf(self, bound):
        return self.held(("nodes",), bound) or root(self.rng.choices((1, 2, 3), (40, 3, 1))[0])

    def truth_leaf(self, bound):
        return self.held(("one", "nodes"), bound) or boolean(self.rng.randint(0, 1))

    # Forms: each makes an expression of the wanted kind, with `size` records for its operands.

    def arithmetic(self, want, size, bound):
        first = self.part(size)
        f = self.rng.choice((ADD, SUBTRACT, MULTIPLY, IDIV))
        return operate(f, self.expression("one", first, bound), self.expression("one", size - first, bound))

    def comparison(self, want, size, bound):
        first = self.part(size)
        f = self.rng.choice((EQ, LT))
        return operate(f, self.expression("one", first, bound), self.expression("one", size - first, bound))

    def count(self, want, size, bound):
        return count(self.expression(self.rng.choice(("many", "nodes", "nodes")), size, bound))

    def values(self, want, size, bound):
        if self.rng.random() < 0.7:
            return values(step(self.rng.choice(AXES), 2, 0, self.expression("nodes", size - 1, bound)))
        return values(self.expression("many", size, bound))

    def step(self, want, size, bound):
        test = self.rng.choice((0, 0, 1, 2, 3, 3))
        name = self.rng.choice((0, 1, 1, 2, 2, 65535)) if test == 3 else 0
        return step(self.rng.choice(AXES), test, name, self.expression("nodes", size, bound))

    def sequence(self, want, size, bound):
        first = self.part(size)
        return sequence(self.expression(want, first, bound), self.expression(want, size - first, bound))

    def let(self, want, size, bound):
        first, v = self.part(size), self.rng.choice(VARIABLES)
        kind = self.rng.choice(("one", "one", "many", "nodes"))
        return let(v, self.expression(kind, first, bound), self.expression(want, size - first, {**bound, v: kind}))

    def each(self, want, size, bound):
        first, v = self.part(size), self.rng.choice(VARIABLES)
        kind = self.rng.choice(("many", "nodes"))
        inside = {**bound, v: "one" if kind == "many" else "nodes"}
        return each(v, self.expression(kind, first, bound), self.expression(want, size - first, inside))

    def choose(self, want, size, bound):
        first = self.part(size)
        second = self.part(size - first)
        rest = size - first - second
        return choose(self.expression("truth", first, bound), self.expression(want, second, bound),
                      self.expression(want, rest, bound))

    def as_truth(self, want, size, bound):
        return self.expression(self.rng.choice(("one", "nodes")), size, bound)

    # What students slip on: each takes the size that is left and the variables bound.

    def some_integers(self):
        return sequence(*(self.integer() for _ in range(self.rng.randint(1, 4))))

    def some_roots(self):
        return sequence(*(root(k) for k in self.rng.choice(((1,), (1,), (1,), (1, 1), (1, 2), (2, 1)))))

    def nested_for(self, size, bound):
        """The inner body uses both variables, or one that hides the other."""
        v, w = self.rng.choice(((0, 1), (1, 0), (0, 0), (7, 6)))
        inner = each(w, self.some_integers(), sequence(variable(v), variable(w)))
        body = self.rng.choice((sequence(variable(v), inner), inner, sequence(inner, variable(v)), count(inner)))
        return each(v, self.some_integers(), body)

    def sequence_under_for(self, size, bound):
        v = self.rng.choice(VARIABLES)
        a, b = (self.expression("many", size // 3, {**bound, v: "one"}) for _ in range(2))
        return each(v, self.some_integers(), sequence(a, variable(v), b))

    def failing_branch(self, size, bound):
        """Only one branch is worked out; the other one, or the condition, may fail."""
        c = self.expression("truth", size // 2, bound)
        a = self.expression("many", size // 2, bound)
        return choose(c, *self.rng.choice(((a, FAILING), (FAILING, a), (NOTHING, a), (a, NOTHING))))

    def branch_by_iteration(self, size, bound):
        v = self.rng.choice(VARIABLES)
        inside = {**bound, v: "one"}
        test = self.rng.choice((operate(LT, variable(v), self.integer()), operate(EQ, variable(v), self.integer()),
                                variable(v), choose(variable(v), NOTHING, TRUE)))
        a, b = (self.expression("many", size // 3, inside) for _ in range(2))
        return each(v, self.some_integers(), choose(test, a, b))

    def count_of_nothing(self, size, bound):
        v = self.rng.choice(VARIABLES)
        what = step(self.rng.choice(AXES), self.rng.choice((0, 1, 2)), 0, variable(v))
        over = step(self.rng.choice((CHILD, DESCENDANT, DESCENDANT_OR_SELF)), 0, 0, self.some_roots())
        return each(v, over, self.rng.choice((count(what), sequence(variable(v), count(what)), what)))

    def step_over_fragments(self, size, bound):
        down = self.rng.choice((DESCENDANT_OR_SELF, CHILD, SELF))
        across = self.rng.choice((FOLLOWING, PRECEDING, ANCESTOR, PARENT))
        first, second = self.rng.choices((0, 1, 2), k=2)
        return step(across, second, 0, step(down, first, 0, self.some_roots()))

    def side(self):
        """A side of `QO`: mostly one integer, else what may or must make it fail or empty."""
        odd = (literal(self.rng.choice(ENDS)), literal(0), NOTHING, sequence(literal(1), literal(2)), TRUE, root(1),
               FAILING, count(NOTHING))
        return self.rng.choice((*odd, *(self.integer() for _ in range(10))))

    def odd_arithmetic(self, size, bound):
        return operate(self.rng.randint(1, 6), self.side(), self.side())

    def arithmetic_by_iteration(self, size, bound):
        """Sides whose length depends on the iteration."""
        v = self.rng.choice(VARIABLES)
        sometimes = choose(variable(v), self.side(), self.rng.choice((NOTHING, variable(v))))
        return each(v, self.some_integers(), operate(self.rng.randint(1, 6), sometimes, self.side()))

    def unused_let(self, size, bound):
        return let(self.rng.choice(VARIABLES), self.side(), self.expression("many", size - 1, bound))

    def for_over_nothing(self, size, bound):
        return each(self.rng.choice(VARIABLES), self.rng.choice((NOTHING, step(PARENT, 0, 0, root(1)))), FAILING)

    def odd_condition(self, size, bound):
        """Truth of several items, of a node first or a node second."""
        items = [self.rng.choice((root(1), literal(0), literal(2), FALSE, TRUE)) for _ in range(self.rng.randint(1, 3))]
        c = self.rng.choice((NOTHING, sequence(*items), sequence(*items)))
        return choose(c, self.expression("many", size // 2, bound), self.expression("many", size // 2, bound))


LEAVES = {"one": Draw.one_leaf, "many": Draw.many_leaf, "nodes": Draw.nodes_leaf, "truth": Draw.truth_leaf}
FORMS = {
    "one": ((Draw.arithmetic, 4), (Draw.count, 3), (Draw.let, 2), (Draw.choose, 2)),
    "many": ((Draw.sequence, 6), (Draw.each, 6), (Draw.choose, 2), (Draw.let, 2), (Draw.values, 2), (Draw.step, 2)),
    "nodes": ((Draw.step, 5), (Draw.sequence, 2), (Draw.each, 2), (Draw.choose, 1), (Draw.let, 1)),
    "truth": ((Draw.comparison, 4), (Draw.as_truth, 2), (Draw.choose, 1))}
SLIPS = (Draw.nested_for, Draw.sequence_under_for, Draw.failing_branch, Draw.branch_by_iteration, Draw.count_of_nothing,
         Draw.step_over_fragments, Draw.odd_arithmetic, Draw.arithmetic_by_iteration, Draw.unused_let,
         Draw.for_over_nothing, Draw.odd_condition)


def drawn(rng, most):
    """A query with every variable bound, of about that many records at most."""
    return Draw(rng).expression("many", rng.randint(1, most), {})


def damaged(rng, query):
    """The query with a byte changed, cut, longer, or with a variable that is not bound."""
    at = rng.randrange(len(query))
    match rng.randint(0, 5):
        case 0:
            return query[:at]
        case 1:
            return query + rng.choice((b"Q", b"QE", b"\0", b"QV\0"))
        case 2:
            return query[:at] + bytes([rng.choice((0, 8, 9, 255))]) + query[at + 1:]
        case 3:
            return query[:at] + bytes([(query[at] + 1) % 256]) + query[at + 1:]
        case 4:
            return query.replace(b"QL\0\0\0", b"QV", 1)
        case 5:
            return query.replace(b"QT", b"QF", 1).replace(b"QF\0", b"QF\5", 1)


def near_a_bound(rng):
    """About 128 records or depth 32, and a last record that may be unsound."""
    last = rng.choice(list(AT_A_BOUND.values()))
    if rng.random() < 0.5:
        return nest(rng.randint(29, 35), last)
    return wide_then(rng.randint(124, 130), last) + rng.choice((b"", b"", b"Q"))


# Queries at the bounds.

def nest(depth, last):
    """`last` at that depth, under `QC` records."""
    return b"QC" * (depth - 1) + last


def wide(records):
    """That many records, nested little: literals in a balanced sequence, under a `QC` if the number is even."""
    if records == 1:
        return literal(records)
    if records % 2 == 0:
        return count(wide(records - 1))
    half = (records - 1) // 2
    return b"QS" + wide(half) + wide(records - 1 - half)


def wide_then(records, last):
    """That many records before `last`, which ends the query."""
    return b"QS" + wide(records - 1) + last


def of_operators(operators):
    """A query whose plan has exactly that many operators (at least 26).

    A literal has 2, a `QC` 7, a `QD` 2, a `QS` 5, the whole 3 more: with m literals, c `QC`
    and d `QD`, 7 (m + c) + 2 d - 2."""
    d = next(d for d in range(7) if (operators + 2 - 2 * d) % 7 == 0)
    counts = (operators + 2 - 2 * d) // 7 - 3
    parts = [b"QC" * (counts // 3 + (part < counts % 3)) + literal(part) for part in range(3)]
    return b"QD" * d + sequence(*parts)


def balanced(parts):
    """A sequence nested as little as can be."""
    half = len(parts) // 2
    return sequence(balanced(parts[:half]), balanced(parts[half:])) if half else parts[0]


ALL_EIGHT = balanced([variable(v) for v in range(8)])


def with_eight_variables(inner):
    """The expression, with every variable bound."""
    for v in range(8):
        inner = let(v, literal(v), inner)
    return inner


def lifted_by_if(nested):
    """All eight variables lifted into both branches of so many nested `QI`."""
    inner = ALL_EIGHT
    for _ in range(nested):
        inner = choose(TRUE, inner, ALL_EIGHT)
    return with_eight_variables(inner)


def lifted_by_for(nested):
    """Seven variables lifted into the bodies of so many nested `QF`, each of which binds the eighth."""
    inner = ALL_EIGHT
    for turn in range(nested):
        inner = each(turn % 8, variable(turn % 8), inner)
    return with_eight_variables(inner)


def doubled(times, inner):
    """`let` upon `let`, each binding variable 0 to twice the items of the last: 1, 2, 4 and so on stand."""
    query = inner
    for _ in range(times):
        query = let(0, sequence(variable(0), variable(0)), query)
    return let(0, literal(1), query)


def filling(items):
    """A query whose count is that many items, at least 32,768: 32,767 stand in `let`, the rest in the body."""
    rest = items - 32767
    body = sequence(*[variable(0)] * (rest // 16384), *[literal(5)] * (rest % 16384))
    return doubled(14, count(body))


def standing_alone(lets, body):
    """The nodes of fragment 1 under so many `let`, which add to what stands and to no table; then the body."""
    query = body
    for _ in range(lets - 1):
        query = let(1, variable(0), query)
    return let(0, step(DESCENDANT_OR_SELF, 0, 0, root(1)), query)


# Each record by itself, sound with these operands.
SMALLEST = {b"QL": literal(0), b"QB": TRUE, b"QE": NOTHING, b"QR": root(1), b"QV": let(0, NOTHING, variable(0)),
            b"QS": sequence(NOTHING, NOTHING), b"QT": let(0, NOTHING, NOTHING), b"QF": each(0, NOTHING, NOTHING),
            b"QI": choose(NOTHING, NOTHING, NOTHING), b"QO": operate(1, NOTHING, NOTHING), b"QC": count(NOTHING),
            b"QD": values(NOTHING), b"QX": step(1, 0, 0, NOTHING)}

# One query with every record.
EVERY_RECORD = each(1, sequence(literal(1), literal(-7)),
                    let(2, step(1, 3, 258, root(1)),
                        choose(operate(6, variable(1), count(variable(2))), values(variable(1)),
                               sequence(boolean(1), NOTHING))))


def fields():
    """Each field at and past its bounds."""
    for b in (0, 1, 2, 255):
        yield f"QB {b}", boolean(b)
    for k in (0, 1, 2, 254, 255):
        yield f"QR {k}", root(k)
    for v in (0, 1, 6, 7, 8, 255):
        yield f"QT {v} and its variable", let(v, literal(1), variable(v))
        yield f"QF {v} and its variable", each(v, literal(1), variable(v))
        yield f"QV {v} under variable 7", let(7, literal(1), variable(v))
    for f in (0, 1, 2, 3, 4, 5, 6, 7, 255):
        yield f"QO {f}", operate(f, literal(7), literal(-2))
    for n in (*INTEGERS, *ENDS):
        yield f"QL {n}", literal(n)


def step_fields():
    """Axes, tests and names at and past their bounds."""
    for axis in (0, *range(1, 9), 9, 255):
        for test in (0, 1, 2, 3, 4, 255):
            yield f"axis {axis}, test {test}", step(axis, test, 0, root(1))
    for test in (0, 1, 2, 3):
        for name in (1, 256, 65535):
            yield f"test {test}, name {name}", step(2, test, name, root(1))


def scopes():
    """'v is visible in b only; an inner binding hides an outer one.'"""
    for record in (let, each):
        word = record.__name__
        yield f"{word}: its variable in a", record(0, variable(0), literal(1))
        yield f"{word}: its variable after it", sequence(record(0, literal(1), literal(2)), variable(0))
        yield f"{word}: another variable in b", record(0, literal(1), variable(1))
        hidden = record(0, literal(2), variable(0))
        yield f"{word}: hidden, then seen again", record(0, literal(1), sequence(hidden, variable(0)))
        yield f"{word}: a sees the outer one", record(0, literal(1), record(0, variable(0), variable(0)))
        yield f"{word}: an unbound variable, then a bad record", record(0, literal(1), sequence(variable(1), b"QZ"))
        yield f"{word}: a bad record, then an unbound variable", record(0, b"QZ", variable(1))
    yield "a variable alone", variable(0)


def around(part):
    """The part in every place that an operand can have, beside variable 0."""
    seen = variable(0)
    yield "alone", part
    yield "first of a sequence", sequence(part, seen)
    yield "second of a sequence", sequence(seen, part)
    yield "in a condition", choose(count(part), seen, literal(9))
    yield "in the then-branch", choose(TRUE, part, seen)
    yield "in the else-branch", choose(FALSE, seen, part)
    yield "in both branches", choose(count(seen), sequence(part, seen), part)
    yield "in the first side", operate(ADD, count(part), count(seen))
    yield "in the second side", operate(SUBTRACT, count(seen), count(part))
    yield "under a count", count(part)
    yield "under values", values(part)
    yield "under a step", step(SELF, 0, 0, choose(count(part), root(1), NOTHING))
    for record in (let, each):
        for v in (0, 1):
            word = f"{record.__name__} {v}"
            yield f"in the a of {word}", record(v, part, sequence(seen, variable(v)))
            yield f"in the b of {word}", record(v, seen, sequence(part, seen, variable(v)))


def shadowing():
    """'an inner binding hides an outer one', let and for, in every place; binding 1 instead hides nothing."""
    two = sequence(literal(1), literal(2))
    for outer in (let, each):
        for inner in (let, each):
            for w in (0, 1):
                part = inner(w, sequence(variable(0), literal(3)), sequence(variable(w), variable(0)))
                for place, body in around(part):
                    yield f"{outer.__name__} 0, in it {inner.__name__} {w} {place}", outer(0, two, body)


def eight_variables():
    """All eight variables, lifted by each form that lifts and hidden by each that binds."""
    for v in range(8):
        others = balanced([variable(u) for u in range(8) if u != v])
        for name, inner in ((f"for {v} of itself, all eight in its body", each(v, variable(v), ALL_EIGHT)),
                            (f"for {v}, the others in its body", each(v, variable(v), others)),
                            (f"for {v}, its body alone in a let", let(v, each(v, others, variable(v)), ALL_EIGHT)),
                            (f"let {v} of all eight", let(v, ALL_EIGHT, ALL_EIGHT)),
                            (f"if {v}, then the others, else itself", choose(variable(v), others, variable(v))),
                            (f"if {v}, nothing lifted", choose(variable(v), literal(1), NOTHING)),
                            (f"only {v} lifted, through for and if",
                             each((v + 1) % 8, others, choose(variable(v), variable(v), NOTHING)))):
            yield name, with_eight_variables(inner)


# What may stand where a 129th record or one at depth 33 would.
AT_A_BOUND = {"sound": literal(1), "missing": b"", "a bad mark": b"QZ", "a bad field": root(0), "cut": b"QL\0",
              "one byte": b"Q", "not bound": variable(1), "a bad variable": variable(8)}


def depths():
    """'nesting at most 32 (the root is 1)'"""
    for depth in (31, 32, 33, 34):
        for name, last in AT_A_BOUND.items():
            yield f"depth {depth}: {name}", nest(depth, last)
    yield "depth 33 in the second operand", nest(32, sequence(literal(1), literal(2)))
    yield "depth 32 in the second operand", nest(31, sequence(literal(1), literal(2)))


def numbers_of_records():
    """'At most 128 records'."""
    for records in (127, 128, 129, 130):
        yield f"{records} records", wide(records)
        yield f"{records} records and a byte", wide(records) + b"Q"
        for name, last in AT_A_BOUND.items():
            yield f"record {records}: {name}", wide_then(records - 1, last)
    yield "record 129 at depth 33: sound", b"QS" + wide(96) + nest(32, literal(1))
    yield "record 129 at depth 33: not bound", b"QS" + wide(96) + nest(32, variable(1))


def endings():
    """'bytes after the query', and operands that are missing."""
    yield "no bytes", b""
    yield "one byte", b"Q"
    for mark, query in SMALLEST.items():
        yield f"{mark.decode()} smallest", query
        yield f"{mark.decode()} and a byte", query + b"\0"
        yield f"{mark.decode()} and a record", query + NOTHING
        yield f"{mark.decode()} and a mark cut", query + b"Q"
        own = query[:2 + struct.calcsize(FIELDS[mark])] if mark != b"QV" else b""
        for present in range(OPERANDS[mark] if own else 0):
            yield f"{mark.decode()} with {present} operands", own + NOTHING * present


def every_byte():
    """A query of every record, cut at every byte, and with every byte changed."""
    for end in range(len(EVERY_RECORD)):
        yield f"cut at byte {end}", EVERY_RECORD[:end]
    for at, old in enumerate(EVERY_RECORD):
        for new in sorted({255, (old + 1) % 256, (old - 1) % 256} - {old}):
            yield f"byte {at} changed to {new}", EVERY_RECORD[:at] + bytes([new]) + EVERY_RECORD[at + 1:]


def functions():
    """Each function at the ends of the range, and of each sign."""
    least, greatest = -2147483648, 2147483647
    for a, b in ((greatest, 1), (greatest, -1), (least, 1), (least, -1), (least, 0), (greatest, greatest),
                 (least, least), (46341, 46341), (46340, 46340), (-46341, 46341), (65536, 32767), (65536, 32768),
                 (65536, -32768), (7, 2), (-7, 2), (7, -2), (-7, -2), (-1, 1), (1, -1), (1, 0), (0, 1), (0, 0), (3, 3)):
        for f in range(1, 7):
            yield f"function {f} of {a} and {b}", operate(f, literal(a), literal(b))


def sides():
    """`QO` over every two kinds of side: both are worked out, then cardinality, then emptiness, then kinds."""
    kinds = {"()": NOTHING, "1": literal(1), "0": literal(0), "(1,2)": sequence(literal(1), literal(2)), "true": TRUE,
             "a node": root(1), "1 idiv 0": FAILING, "two nodes": sequence(root(1), root(1))}
    for left, a in kinds.items():
        for right, b in kinds.items():
            for f in (1, 4, 5):
                yield f"function {f} of {left} and {right}", operate(f, a, b)


def conditions():
    """Truth of each kind of item, of several, of a node first and second; both branches told apart."""
    for items in ((), ("0",), ("1",), ("-1",), ("f",), ("t",), ("n",), ("n", "0"), ("0", "n"), ("f", "f"), ("t", "1"),
                  ("1", "1"), ("n", "n"), ("n", "f", "f"), ("f", "n"), ("t", "n", "n")):
        made = [{"f": FALSE, "t": TRUE, "n": root(1)}.get(item) or literal(int(item)) for item in items]
        condition = sequence(*made) if made else NOTHING
        yield f"a condition {items}", choose(condition, literal(1), literal(2))
        yield f"a condition {items}, nothing then", choose(condition, NOTHING, literal(2))


def all_values():
    """`QD` of each kind of item."""
    texts = step(DESCENDANT, 2, 0, root(1))
    for name, a in {"an integer": literal(-7), "booleans": sequence(TRUE, FALSE), "an element": root(1), "texts": texts,
                    "texts and more": sequence(TRUE, texts, literal(3)), "nothing": NOTHING,
                    "an element last": sequence(literal(1), texts, root(2)),
                    "each text": each(0, texts, values(variable(0)))}.items():
        yield f"values of {name}", values(a)


def all_steps():
    """Every axis and test from each node by itself, and from all nodes of two fragments at once."""
    for axis in range(1, 9):
        for test in range(4):
            name = 2 if test == 3 else 0
            for k in (1, 2):
                within = step(DESCENDANT_OR_SELF, 0, 0, root(k))
                yield (f"axis {axis}, test {test}, from each node of fragment {k}",
                       each(0, within, sequence(variable(0), step(axis, test, name, variable(0)))))
            within = step(DESCENDANT_OR_SELF, 3, 2, sequence(root(2), root(1), root(2)))
            yield f"axis {axis}, test {test}, from nodes of both fragments", step(axis, test, name, within)
        yield f"axis {axis} from an integer", step(axis, 0, 0, literal(1))
        yield f"axis {axis} from a node and a boolean", step(axis, 0, 0, sequence(root(1), TRUE))
        yield f"axis {axis} from nothing", step(axis, 0, 0, NOTHING)


def standing():
    """Each record that adds an item, and records that fail where there is no room: to be lent cell by cell."""
    two = sequence(literal(1), literal(2))
    long = sequence(root(1), two)
    inverse = operate(IDIV, literal(1), variable(0))
    yield "two", two
    yield "no such root", root(9)
    yield "two, then no such root", sequence(two, root(9))
    yield "a step", step(DESCENDANT, 0, 0, root(1))
    yield "a step from an integer", step(DESCENDANT, 0, 0, literal(1))
    yield "a step to nothing", step(PARENT, 0, 0, root(1))
    yield "a step from a step", step(PARENT, 0, 0, step(DESCENDANT_OR_SELF, 0, 0, root(1)))
    yield "count of nothing", count(NOTHING)
    yield "count of two", count(two)
    yield "values of two", values(two)
    yield "an element's value", values(root(1))
    yield "a sum", operate(ADD, literal(1), literal(2))
    yield "a sum of two", operate(ADD, two, literal(2))
    yield "a sum of two and one that fails", operate(ADD, two, FAILING)
    yield "let", let(0, two, sequence(variable(0), variable(0)))
    yield "let, unused", let(0, two, NOTHING)
    yield "for", each(0, two, sequence(variable(0), variable(0)))
    yield "for of nothing", each(0, two, NOTHING)
    yield "for that fails the second time", each(0, sequence(literal(1), literal(0)), inverse)
    yield "if", choose(root(1), two, literal(3))
    yield "if of a long condition", choose(long, literal(1), NOTHING)
    yield "if of a long branch", choose(literal(1), sequence(two, two), NOTHING)
    yield "if that fails", choose(two, two, two)


def boundaries():
    """Every query that this module knows by name and that is for the query check: its name and its bytes."""
    yield "the chartask example", EXAMPLE
    yield "every record", EVERY_RECORD
    for family in (endings, fields, step_fields, scopes, depths, numbers_of_records, every_byte):
        yield from family()
