"""Catalogues to try: sound ones, damaged ones, and those at the bounds.

A shape is a list of (level, kind, prop); its sizes follow from the levels. A row is
(size, level, kind, prop), and may be as unsound as a case wants it.
"""

import struct

from catalogue import ELEMENT, TEXT

NAMES = (0, 1, 1, 2, 2, 3, 65535)
NUMBERS = (0, 1, 2, 3, 7, -1, 5350, 995, 2147483647, -2147483648)
MARKS = (b"DM", b"QN", b"dn", b"ND", b"\0\0")

# The catalogue of the chartask example.
EXAMPLE = [(6, 0, 1, 1), (4, 1, 1, 2), (1, 2, 1, 3), (0, 3, 3, 5350), (1, 2, 1, 4), (0, 3, 3, 995), (0, 1, 1, 2)]


def row(size, level, kind, prop, mark=b"DN"):
    """The ten bytes of a row."""
    return struct.pack(">2sHBBi", mark, size, level, kind, prop)


def written(rows):
    """The bytes of some rows."""
    return b"".join(row(*fields) for fields in rows)


def sized(shape):
    """The rows of a shape, each with the size its level gives it."""
    rows = []
    for rank, (level, kind, prop) in enumerate(shape):
        after = rank + 1
        while after < len(shape) and shape[after][0] > level:
            after += 1
        rows.append((after - rank - 1, level, kind, prop))
    return rows


def drawn_level(rng, shape):
    """Often one deeper, now and then a new fragment; nothing lies below a text."""
    if not shape:
        return 0
    level, kind, _ = shape[-1]
    deepest = min(level + (kind == ELEMENT), 63)
    if rng.random() < 0.15:
        return 0
    return deepest if rng.random() < 0.5 else rng.randint(min(1, deepest), deepest)


def drawn(rng, most, least=0):
    """The rows of a sound catalogue of that many at most and at least."""
    shape = []
    for _ in range(rng.randint(least, most)):
        level = drawn_level(rng, shape)
        if level and rng.random() < 0.35:
            shape.append((level, TEXT, rng.choice(NUMBERS)))
        else:
            shape.append((level, ELEMENT, rng.choice(NAMES)))
    return sized(shape)


def damage(rng, fields):
    """One row with one field wrong, or at least changed."""
    size, level, kind, prop = fields
    return rng.choice([
        (min(size + 1, 65535), level, kind, prop),
        (max(size - 1, 0), level, kind, prop),
        (65535, level, kind, prop),
        (size, min(level + 1, 255), kind, prop),
        (size, min(level + 2, 255), kind, prop),
        (size, max(level - 1, 0), kind, prop),
        (size, rng.choice((64, 255)), kind, prop),
        (size, level, rng.choice((0, 2, 4, 255)), prop),
        (size, level, ELEMENT, rng.choice((-1, 65536, -2147483648))),
        (size, level, TEXT, prop),
        (size, 0, TEXT, prop),
        (size, level, kind, prop, rng.choice(MARKS))])


def damaged(rng, most):
    """A catalogue with one or two rows damaged, cut, or with bytes after it."""
    rows = drawn(rng, most) or [(0, 0, ELEMENT, 0)]
    for _ in range(rng.choice((0, 1, 1, 1, 2))):
        rank = rng.randrange(len(rows))
        rows[rank] = damage(rng, rows[rank][:4])
    doc = written(rows)
    ending = rng.random()
    if ending < 0.15:
        return doc[:-rng.randint(1, 9)]
    if ending < 0.25:
        return doc + b"DN"[:rng.randint(1, 2)]
    return doc


def one_fragment(rows):
    """A root and that many rows less one right below it."""
    return sized([(0, ELEMENT, 1)] + [(1, TEXT, 7)] * (rows - 1))


def chain(deepest):
    """One row at each level down to the deepest."""
    return sized([(level, ELEMENT, level) for level in range(deepest + 1)])


def changed(rows, rank, fields):
    """The bytes of the rows with another row at that rank."""
    return written(rows[:rank] + [fields] + rows[rank + 1:])


def full_catalogues():
    """'0 to 2,048 rows', 'row 2,048 present', and what is reported before it."""
    full, over = one_fragment(2048), one_fragment(2049)
    yield "2,048 rows", written(full)
    yield "2,049 rows", written(over)
    yield "2,049 fragments of one row", written([(0, 0, ELEMENT, 1)] * 2049)
    yield "2,048 rows and a byte", written(full) + b"D"
    yield "2,049 rows, row 0 of a wrong size", changed(over, 0, (9, 0, 1, 1))
    yield "2,049 rows, row 5 unsound", changed(over, 5, (0, 1, 2, 7))
    yield "2,048 rows, the last of a wrong size", changed(full, 2047, (1, 1, 1, 7))


def single_rows():
    """Each field of the only row at and past its bounds."""
    for kind in (0, 1, 2, 3, 4, 255):
        yield f"a first row of kind {kind}", row(0, 0, kind, 0)
    for prop in (0, 65535, 65536, -1, 2147483647, -2147483648):
        yield f"an element of name {prop}", row(0, 0, ELEMENT, prop)
    for level in (0, 1, 63, 64, 255):
        yield f"a first row of level {level}", row(0, level, ELEMENT, 0)
    for size in (0, 1, 65535):
        yield f"one row of size {size}", row(size, 0, ELEMENT, 0)
    for mark in MARKS:
        yield f"the mark {mark}", row(0, 0, ELEMENT, 0, mark)


def below_a_root():
    """A second and a third row at their bounds."""
    root = (1, 0, ELEMENT, 1)
    for level in (0, 1, 2, 63, 64):
        size = 1 if level else 0
        yield f"level 0, then {level}", written([(size, 0, ELEMENT, 1), (0, level, ELEMENT, 2)])
    for prop in (0, 65535, 65536, -1, 2147483647, -2147483648):
        yield f"a text of number {prop}", written([root, (0, 1, TEXT, prop)])
    yield "a text at level 0", written([(0, 0, ELEMENT, 1), (0, 0, TEXT, 1)])
    yield "a text with a size and no row below it", written([root, (1, 1, TEXT, 1)])
    yield "a text with a size and a row below it", written([(2, 0, ELEMENT, 1), (1, 1, TEXT, 1), (0, 2, TEXT, 1)])
    yield "a text of size 0 and a row below it", written([(2, 0, ELEMENT, 1), (0, 1, TEXT, 1), (0, 2, TEXT, 1)])
    yield "a size that overestimates", written([(2, 0, ELEMENT, 1), (0, 1, TEXT, 1)])
    yield "a size that reaches into the next fragment", written([(1, 0, ELEMENT, 1), (0, 0, ELEMENT, 1)])
    yield "a size one short", written([(1, 0, ELEMENT, 1), (0, 1, TEXT, 1), (0, 1, TEXT, 1)])


def orders():
    """Sizes come last, in row order; else the first unsound row is reported."""
    wrong = [(2, 0, ELEMENT, 1), (1, 1, ELEMENT, 1), (1, 1, ELEMENT, 1)]
    yield "two wrong sizes", written(wrong)
    yield "two wrong sizes, then an unsound row", written(wrong + [(0, 1, 2, 1)])
    yield "two wrong sizes, then a cut row", written(wrong) + b"DN\0"
    yield "a wrong size, then a text at level 0", written([(3, 0, ELEMENT, 1), (0, 0, TEXT, 1)])
    yield "a wrong size, then a text with a size", written([(3, 0, ELEMENT, 1), (1, 1, TEXT, 1)])
    yield "two unsound rows", written([(0, 0, ELEMENT, 1), (0, 2, ELEMENT, 1), (0, 9, 9, -1)])


def every_byte():
    """A small catalogue cut at every byte, and with every byte changed."""
    doc = written(sized([(0, ELEMENT, 1), (1, TEXT, 7), (1, ELEMENT, 2), (0, ELEMENT, 258)]))
    for end in range(len(doc)):
        yield f"cut at byte {end}", doc[:end]
    for at, old in enumerate(doc):
        for new in sorted({0, 255, old ^ 1, (old + 1) % 256} - {old}):
            yield f"byte {at} changed to {new}", doc[:at] + bytes([new]) + doc[at + 1:]


def boundaries():
    """Every catalogue that this module knows by name: its name and its bytes."""
    yield "no rows", b""
    yield "the chartask example", written(EXAMPLE)
    yield "levels down to 63", written(chain(63))
    yield "levels down to 64", written(chain(64))
    for family in (single_rows, below_a_root, orders, every_byte, full_catalogues):
        yield from family()
