"""A catalogue's rows as nested spans: a row's box holds the `size` rows after it, and stands `level` steps to the right.

So 'v is a descendant of c' is seen, c < v <= c + size(c): v's line is in c's box. Right of the boxes stand the rows
themselves: rank (pre), size, level, kind, prop, and the byte where the row begins.
"""

import catalogue
import svg
from catalogue import ROW, TEXT

LINE, STEP, CLOSE, INSET, MARGIN, LETTERS, SMALL = 24, 20, 4, 4, 12, 12, 11
MOST_SHOWN = 256
NAMES = ("pre", "size", "level", "kind", "prop", "byte")
WIDTHS = (52, 52, 58, 110, 76, 58)

# Of the levels, in turn: the box, and the lines and letters in it.
LEVELS = (("#e3f0fc", "#1560b0"), ("#e6f4e7", "#2b7a2f"), ("#fff1de", "#b85c00"), ("#f2e6f5", "#7b1fa2"))
TEXTS = ("#ffffff", "#4a5560")
LEGEND = ("A box begins at its own row and holds as many rows after it as its size says: its descendants. "
          "A child is one level further in.")


def colours(row):
    """The box of a row, and its letters."""
    return TEXTS if row.kind == TEXT else LEVELS[row.level % len(LEVELS)]


def tag(row):
    """The row as XML says it: a tag that opens, a tag without contents, a text."""
    if row.kind == TEXT:
        return str(row.prop)
    return f"<n{row.prop}>" if row.size else f"<n{row.prop}/>"


def last_of(rank, rows):
    """The last row that a row's box holds."""
    return min(rank + rows[rank].size, len(rows) - 1)


def lines_down(rows):
    """Where each row's line begins, and where its box ends.

    A fragment stands apart from the one before it, below a line with its number. Boxes that end at one row end a little
    below one another, inner ones first.
    """
    y, tops, bottoms = MARGIN + LINE, [], {}
    for rank, row in enumerate(rows):
        if row.level == 0:
            y += LINE if rank == 0 else LINE + 10
        tops.append(y)
        y += LINE
        for around in range(rank, -1, -1):
            if last_of(around, rows) == rank:
                bottoms[around] = y - 2
                y += CLOSE
        y -= CLOSE if row.size == 0 else 0
    return tops, bottoms, y


def draw_span(picture, rank, row, tops, bottoms, right):
    """The box from a row to the last one that it holds, and its tag."""
    fill, stroke = colours(row)
    left = MARGIN + STEP * row.level
    picture.box(left, tops[rank] + 2, right - INSET * row.level - left, bottoms[rank] - tops[rank] - 2, fill, stroke, 3)
    picture.words(left + 7, tops[rank] + 16, tag(row), LETTERS, stroke, bold=True)


def draw_row(picture, rank, row, y, left):
    """The row's numbers."""
    kind = f"{row.kind} text" if row.kind == TEXT else f"{row.kind} element"
    cells = (str(rank), str(row.size), str(row.level), kind, str(row.prop), str(ROW.size * rank))
    for name, cell, width in zip(NAMES, cells, WIDTHS):
        left += width
        picture.words(left, y + 16, cell, LETTERS, svg.FAINT if name == "byte" else svg.INK, bold=name == "pre", anchor="end")


def draw_heads(picture, left, right):
    """The names of the columns, and a line below them."""
    picture.words(MARGIN, MARGIN + 14, "the rows as XML", SMALL, svg.FAINT, font=svg.PLAIN)
    x = left
    for name, width in zip(NAMES, WIDTHS):
        x += width
        picture.words(x, MARGIN + 14, name, SMALL, svg.FAINT, font=svg.PLAIN, anchor="end")
    picture.line([(MARGIN, MARGIN + LINE - 2), (right, MARGIN + LINE - 2)], svg.FAINT, 0.6, arrow=False)


def of_rows(doc):
    """The drawing of a catalogue's bytes; or its refusal."""
    rows = catalogue.read(doc).rows
    drawn = rows[:MOST_SHOWN]
    tops, bottoms, y = lines_down(drawn)
    spans_end = MARGIN + max(220, *((STEP + INSET) * row.level + 22 + svg.wide(tag(row), LETTERS) for row in drawn))
    right = spans_end + 10 + sum(WIDTHS)
    picture = svg.Picture(f"{len(rows)} rows of a catalogue as nested spans")
    draw_heads(picture, spans_end + 10, right)
    fragment = 0
    for rank, row in enumerate(drawn):
        if row.level == 0:
            fragment += 1
            picture.words(MARGIN, tops[rank] - 7, f"fragment {fragment}", SMALL, svg.FAINT, font=svg.PLAIN)
        draw_span(picture, rank, row, tops, bottoms, spans_end)
        draw_row(picture, rank, row, tops[rank], spans_end + 10)
    if len(rows) > len(drawn):
        picture.words(MARGIN, y + 16, f"and {len(rows) - len(drawn)} rows more", SMALL, svg.FAINT, font=svg.PLAIN)
        y += LINE
    width = right + MARGIN
    for line in svg.wrapped(LEGEND, width - 2 * MARGIN, 10):
        y += 14
        picture.words(MARGIN, y + 4, line, 10, svg.FAINT, font=svg.PLAIN)
    return picture.written(width, y + MARGIN + 4)
