"""Cases at the bounds for the calls of document 02's L9: a name and what is given."""

import open_points
import sheets
import some_catalogues as c
import some_texts
from rooms import lengths_around

LENT = 900


def lengths_of(answer, figure):
    """One byte too few, just enough, one too many, and none; one length where the call refuses."""
    return lengths_around(figure(answer)) if not answer.refusal else (LENT,)


def sheets_around(name, text):
    needed = sheets.read_sheets(text, 21000)
    for lent in lengths_of(needed, lambda answer: 10 * answer.rows):
        yield f"{name}, {lent} bytes lent", (text, lent)


def sheet_texts():
    for point, texts in open_points.SHEETS:
        for text, _ in texts:
            yield from sheets_around(point, text.encode())
    for text, lent, _ in open_points.ORDER_SHEETS:
        yield "the order of refusals", (text.encode(), lent)
    for text in some_texts.SOME_SHEETS:
        for end in range(max(0, len(text) - 20), len(text) + 1):
            yield f"cut at byte {end}", (text[:end], LENT)


def rows_around(name, doc):
    needed = sheets.write_sheets(doc, 40000)
    for lent in lengths_of(needed, lambda answer: answer.text_bytes):
        yield f"{name}, {lent} bytes lent", (doc, lent)


def written_catalogues():
    for name, rows, _ in open_points.APART:
        yield from rows_around(name, c.written(rows))
    for name, doc in c.boundaries():
        yield name, (doc, LENT)
    yield from rows_around("levels down to 63", c.written(c.chain(63)))
    for rows in (2048, 2049):
        yield from rows_around(f"{rows} fragments of one row", c.row(0, 0, 1, 1) * rows)
    two = c.written([(0, 0, 1, 65535), (1, 0, 1, 0), (0, 1, 3, -2147483648)])
    yield from rows_around("two fragments", two)


FAMILIES = {"read_sheets": (sheet_texts,), "write_sheets": (written_catalogues,)}
