"""Cases as files keep them: the bytes, and what program `stored` must print of each.

crates/stored/data has seven files of cases: the two checks share one; each engine, the translator, the printing
program, and the reader and the writer of typed queries have one of their own. crates/stored/stdout has a heading for
each file, and under it what is printed of its cases. In checks.bin a case is a byte for the call, then a byte string.
In the others a group is its number of cases (1 byte, never 0), then what its cases share, then what each case has of
its own:

    evaluations.bin      query, catalogue; of its own: the lent cells
    translations.bin     query; of its own: the lent bytes
    runs.bin             plan, catalogue; of its own: the lent cells
    texts.bin            catalogue; of its own: the query
    typed.bin            text; of its own: the lent bytes
    written.bin          query; of its own: the lent bytes

A byte string has its length (2 bytes) before it; lent cells or bytes are a number of 4 bytes. All numbers are
big-endian. Every lent cell or byte holds 9 before the call.
"""

import pathlib
from itertools import groupby, islice

import generate

CRATE = pathlib.Path(__file__).resolve().parent.parent / "crates" / "stored"
FILES = ("checks", "evaluations", "translations", "runs", "texts", "typed", "written")
FILE_OF = {"check_catalogue": "checks", "check_query": "checks", "evaluate": "evaluations",
           "translate": "translations", "run": "runs", "chartask": "texts", "read_text": "typed",
           "write_text": "written"}
CHECKS = {"check_catalogue": 1, "check_query": 2}
SHARED = {"evaluate": 2, "translate": 1, "run": 2, "chartask": 1, "read_text": 1, "write_text": 1}
HEADING = "== "
MOST_IN_A_GROUP = 255

MULTIPLIER = 65599
MODULUS = 1000003


# What is printed.

def mixed(sum_so_far, number):
    """One number, below 2^32, into the sum."""
    return (sum_so_far * MULTIPLIER + number) % MODULUS


def sum_of_bytes(lent):
    """The sum of lent bytes, from 1 on."""
    total = 1
    for byte in lent:
        total = mixed(total, byte)
    return total


def sum_of_cells(lent):
    """The sum of lent cells, from 1 on: of each its sign, then the upper and lower 32 bits of z, or of -1 - z below 0."""
    total = 1
    for cell in lent:
        is_below = cell < 0
        number = -1 - cell if is_below else cell
        total = mixed(mixed(mixed(total, int(is_below)), number >> 32), number & 0xFFFFFFFF)
    return total


FIGURES = {"evaluate": ("items", "count"), "run": ("start", "rows", "cells"), "translate": ("operators", "bytes"),
           "read_text": ("records", "bytes"), "write_text": ("text",)}
OF_CELLS = ("evaluate", "run")


def line(call, answer):
    """The answer's figures, or the refusal and its place; then the sum of all that was lent."""
    total = sum_of_cells(answer.lent) if call in OF_CELLS else sum_of_bytes(answer.lent)
    if answer.refusal:
        return f"refused {answer.refusal} at {answer.place} sum {total}\n"
    figures = " ".join(f"{word} {figure}" for word, figure in zip(FIGURES[call], answer[2:]))
    return f"{figures} sum {total}\n"


def line_of_check(call, answer):
    """What is printed of a case of the two checks."""
    word, figure = ("catalogue", "rows") if call == "check_catalogue" else ("query", "records")
    if answer.refusal:
        return f"{word} refused {answer.refusal} at {answer.place}\n"
    return f"{word} {figure} {answer[2]}\n"


def printed(call, answer, number):
    """What is printed of case number so and so of a file, counted from 1."""
    if call in CHECKS:
        return line_of_check(call, answer)
    return f"case {number}\n{answer}" if call == "chartask" else line(call, answer)


# What is kept.

def kept(part):
    """A byte string with its length, or a lent length."""
    if isinstance(part, int):
        return part.to_bytes(4, "big")
    return len(part).to_bytes(2, "big") + part


def kept_group(shared, cases):
    """One group, of cases that share what is given but for the last."""
    parts = [*shared, *(case.given[-1] for case in cases)]
    return bytes([len(cases)]) + b"".join(map(kept, parts))


def groups(cases):
    """Cases that follow one another and share what is given but for the last."""
    for shared, members in groupby(cases, key=lambda case: case.given[:-1]):
        while some := list(islice(members, MOST_IN_A_GROUP)):
            yield kept_group(shared, some)


def kept_check(case):
    """A case of the two checks: a byte for the call, then the byte string."""
    return bytes([CHECKS[case.call]]) + kept(case.given[0])


def sections():
    """What stdout has under each file's heading; nothing where there is no such heading yet."""
    texts = dict.fromkeys(FILES, "")
    if (CRATE / "stdout").exists():
        for section in (CRATE / "stdout").read_text().split(HEADING)[1:]:
            name, _, text = section.partition("\n")
            texts[name] = text
    return texts


def write(name, cases):
    """The file of that name, and what stdout has under its heading; says how many cases and bytes there are."""
    (CRATE / "data").mkdir(parents=True, exist_ok=True)
    parts = map(kept_check, cases) if cases[0].call in CHECKS else groups(cases)
    size = (CRATE / "data" / f"{name}.bin").write_bytes(b"".join(parts))
    lines = (printed(case.call, case.answer, number) for number, case in enumerate(cases, 1))
    texts = sections() | {name: "".join(lines)}
    (CRATE / "stdout").write_text("".join(f"{HEADING}{one}\n{texts[one]}" for one in FILES))
    return f"{name}: {len(cases)} cases, {size} bytes"


# Read back.

class Reading:
    """The bytes of a file, from the front."""

    def __init__(self, path):
        self.rest = memoryview(path.read_bytes())

    def take(self, length):
        taken, self.rest = bytes(self.rest[:length]), self.rest[length:]
        return taken

    def number(self, length):
        return int.from_bytes(self.take(length), "big")

    def string(self):
        return self.take(self.number(2))


def read_checks(reading):
    """Call and what is given, of each case of the two checks."""
    calls = {number: call for call, number in CHECKS.items()}
    while reading.rest:
        yield calls[reading.number(1)], (reading.string(),)


def read_groups(call, reading):
    """The same of a call that has a file of its own."""
    while reading.rest:
        times = reading.number(1)
        shared = [reading.string() for _ in range(SHARED[call])]
        for _ in range(times):
            yield call, (*shared, reading.string() if call == "chartask" else reading.number(4))


def read_texts(call):
    """What is printed of each case."""
    text = sections()[FILE_OF[call]]
    if call != "chartask":
        return text.splitlines(keepends=True)
    return ["case " + one for one in text.split("case ")[1:]]


def read(call):
    """Every stored case of a call: what is given, what is printed, and its number in its file."""
    reading = Reading(CRATE / "data" / f"{FILE_OF[call]}.bin")
    cases = read_checks(reading) if call in CHECKS else read_groups(call, reading)
    texts = read_texts(call)
    stored = zip(cases, texts, range(1, len(texts) + 1), strict=True)
    return [(given, text, number) for (its_call, given), text, number in stored if its_call == call]


def printed_now(call, given, number):
    """What the model has the program print now."""
    return printed(call, generate.CALLS[call](*given), number)
