"""The self check of typed queries and sheets: the open points, two readers of each compared, and the round trips.

Document 02: L1 and L9.
"""

import random
from collections import Counter
from itertools import islice

import bytes as tool
import catalogue
import chartask
import open_points
import query
import sheets
import sheets_by_completion
import some_catalogues
import some_queries
import some_texts
import typed
import typed_by_table
from cells import Refused
from check import hold

# In the self check one text in so many of each family is compared, none of them longer than this.
SHARE = 60
LONGEST = 300

# No query or catalogue drawn here needs more bytes for its text.
MOST_TEXT = 2000


def bytes_of_rows(text):
    """What the one-pass reader reads, as bytes."""
    rows = sheets.rows_of(text)
    sheets.check_rows(rows)
    return b"".join(catalogue.ROW.pack(*row) for row in rows)


def outcome(reader, text):
    """The bytes that a text is read as, or number and place of the refusal."""
    try:
        return reader(text)
    except Refused as refused:
        return refused.number, refused.place


TYPED = typed.records_of, typed_by_table.records_of
SHEETS = bytes_of_rows, sheets_by_completion.rows_of


# The open points.

def check_points(points, readers, number):
    """Both readers answer as the list says."""
    for point, texts in points:
        for text, answer in texts:
            expected = (number, answer) if isinstance(answer, int) else answer
            for reader in readers:
                got = outcome(reader, text.encode())
                hold(got == expected, f"{point}: {text[:60]!r} gave {got}, not {expected}")
    return len(points), sum(len(texts) for _, texts in points)


def check_open_points():
    """Each point of L1, L8 and L9, and the order of refusals."""
    points, texts = check_points(open_points.TYPED, TYPED, 9)
    of_sheets, sheet_texts = check_points(open_points.SHEETS, SHEETS, 11)
    for text, lent, answer in open_points.ORDER_TYPED:
        hold(typed.read_text(text.encode(), lent)[:2] == answer, f"{text[:60]!r} with {lent} lent: not {answer}")
    for text, lent, answer in open_points.ORDER_SHEETS:
        hold(sheets.read_sheets(text.encode(), lent)[:2] == answer, f"{text[:60]!r} with {lent} lent: not {answer}")
    for name, rows, answer in open_points.APART:
        hold(sheets.write_sheets(some_catalogues.written(rows), 999)[:2] == answer, f"{name}: not {answer}")
    orders = sum(map(len, (open_points.ORDER_TYPED, open_points.ORDER_SHEETS, open_points.APART)))
    return f"open points: {points} of L1 on {texts} texts, {of_sheets} of L9 on {sheet_texts}, {orders} orders of refusals"


# Two readers.

def some_of(families, share, longest):
    """One text in so many of each family, each once."""
    for family in families:
        every = dict.fromkeys(text for text in family() if longest is None or len(text) <= longest)
        yield from islice(every, 0, None, share)


def drawn(draw, n, name):
    rng = random.Random(name)
    return (draw(rng) for _ in range(n))


def compare(what, readers, texts):
    """Both readers give the same bytes or the same refusal at the same place."""
    seen = Counter()
    for text in texts:
        one, other = (outcome(reader, text) for reader in readers)
        hold(one == other, f"{text!r}: one reader {one}, the other {other}")
        seen["refused" if isinstance(one, tuple) else "read"] += 1
    return f"{what}, two readers on {sum(seen.values())} texts: read {seen['read']}, refused {seen['refused']}, no difference"


def check_readers(n, seed, share, longest):
    """Texts at the bounds, then n drawn ones of each."""
    yield compare("typed queries", TYPED, some_of(some_texts.FAMILIES, share, longest))
    yield compare("drawn typed queries", TYPED, drawn(some_texts.any_text, n, f"typed {seed}"))
    yield compare("sheets", SHEETS, some_of(some_texts.FAMILIES_OF_SHEETS, share, longest))
    yield compare("drawn sheets", SHEETS, drawn(some_texts.any_sheets, n, f"sheets {seed}"))


# Round trips.

def check_query_trip(query_bytes):
    """Written and read back: the same records. Just enough bytes are enough, and one less is refused."""
    length = typed.write_text(query_bytes, MOST_TEXT).text_bytes
    written = typed.write_text(query_bytes, length)
    read = typed.read_text(written.lent, len(query_bytes))
    hold(read.lent == query_bytes and not read.refusal, f"{query_bytes.hex()} is written as {written.lent!r}")
    hold(typed.write_text(query_bytes, length - 1) == (8, 0, 0, bytes(length - 1)), f"{written.lent!r} in less")
    hold(typed.read_text(written.lent, read.record_bytes - 1)[:4] == (8, 0, 0, 0), f"{written.lent!r} in less")
    return length


def check_typed_trip(text):
    """What a text is read as is written as a text that is read the same."""
    records = outcome(typed.records_of, text)
    if isinstance(records, tuple) or query.check_query(records).refusal:
        return False
    check_query_trip(records)
    return True


def check_rows_trip(rows):
    """Written and read back: the same rows; read and written: the same text."""
    doc = some_catalogues.written(rows)
    length = sheets.write_sheets(doc, MOST_TEXT).text_bytes
    text = sheets.write_sheets(doc, length).lent
    read = sheets.read_sheets(text, len(doc))
    hold(read == (0, 0, len(rows), doc), f"{doc.hex()} is written as {text!r}")
    hold(length == 0 or sheets.write_sheets(doc, length - 1).refusal == 8, f"{text!r} in less")
    hold(not rows or sheets.read_sheets(text, len(doc) - 1).refusal == 8, f"{text!r} in less")


def check_standard(text):
    """A text of the profile, read and written, is the one standard spelling: no `<n7></n7>`, all else as it was."""
    doc = bytes_of_rows(text)
    hold(catalogue.check_catalogue(doc)[:2] == (0, 0), f"{text!r} is read as an unsound catalogue")
    standard = sheets.write_sheets(doc, MOST_TEXT)
    again = sheets_by_completion.without_spelled_out(text)
    hold(standard.lent[:standard.text_bytes] == again, f"{text!r} is written as {standard.lent[:standard.text_bytes]!r}")


def check_round_trips(n, seed):
    """n queries, n texts of the grammar, n catalogues, n texts of the profile."""
    rng = random.Random(f"round trips {seed}")
    longest = max(check_query_trip(some_queries.drawn(rng, rng.choice((6, 20, 60)))) for _ in range(n))
    read = sum(check_typed_trip(some_texts.drawn_text(rng, 20)) for _ in range(n))
    for _ in range(n):
        check_rows_trip(some_texts.apart(some_catalogues.drawn(rng, rng.choice((5, 20)))))
        check_standard(some_texts.drawn_sheets(rng, 12))
    return (f"round trips: {n} drawn queries (texts of at most {longest} bytes), {read} texts of the grammar, "
            f"{n} catalogues, {n} texts of the profile")


# The command.

def check_told(way, contents):
    """Whatever a file holds, the command tells a line, or a refusal with a caret below the line that it shows."""
    made = way(contents)
    lines = made.told.split("\n")
    hold(len(lines) == (3 if made.is_refused else 1), f"{contents!r}: {made.told}")
    if not made.is_refused:
        return False
    hold(lines[2].strip() == "^" and len(lines[2]) <= len(lines[1]) + 2, f"{contents!r}: {made.told}")
    if way is tool.query_to_bytes and made.contents is not None:
        check_written(lines, made)
    return True


def check_written(lines, made):
    """A query that is refused 2 or 3, and written: chartask gives the same refusal; 3 is shown at its variable."""
    refusal = lines[0].split(": ")[1]
    hold(chartask.printed(b"", made.contents) == refusal + "\n", made.told)
    hold(" 3 " not in refusal or lines[1][lines[2].index("^")] == "$", made.told)


def check_command(n, seed):
    """The four ways on files of every kind."""
    rng = random.Random(f"command {seed}")
    refused = 0
    for _ in range(n):
        junk = rng.randbytes(rng.randint(0, 60))
        query_bytes = some_queries.drawn(rng, 12)
        refused += check_told(tool.query_to_bytes, rng.choice((some_texts.any_text(rng), junk)))
        refused += check_told(tool.sheets_to_bytes, rng.choice((some_texts.any_sheets(rng), junk)) + rng.choice((b"", b"\n")))
        refused += check_told(tool.query_to_text, rng.choice((query_bytes, some_queries.damaged(rng, query_bytes), junk)))
        refused += check_told(tool.sheets_to_text, rng.choice((some_catalogues.damaged(rng, 9), junk)))
    return f"the command bytes.py: {4 * n} files, {refused} refused and shown"


def report(n, seed, share=SHARE, longest=LONGEST):
    """Every check in turn; each gives a line."""
    yield check_open_points()
    yield from check_readers(n, seed, share, longest)
    yield check_round_trips(n, seed)
    yield check_command(n // 5, seed)
