"""Plans of one's own: plan.txt, an operator a line, to plan.bin and back.

    python3 reference/plans.py FOLDER            makes plan.bin from plan.txt
    python3 reference/plans.py --text FOLDER     makes plan.txt from plan.bin
    python3 reference/plans.py --query FOLDER    makes both from query.bin: the plan that the translator writes
    python3 reference/plans.py --run FOLDER      what the run of plan.bin over doc.bin gives: items, or the refusal

A line is an operator's mark and its fields, t and u being tables, c and d columns. A number and a colon before it are for
the eye, but must be right; what stands after # is left out.

    RT                 RA t 5             RA t true          RP t 0 2 1         RU t u             RD t u
    RS t c             RJ t c u d         RN t in 0 by 3 1   RN t by 0 1        RF t idiv c d      RF t value c
    RC t c             RE t               RK t c             RX t child::n2     RO t k

Exit status: 0; 1 where the plan or its run is refused; 2 wrong use, or a line that is no operator.
"""

import pathlib
import re
import sys

sys.dont_write_bytecode = True

import chartask
import plan
import plan_drawing
import runner
import xquery
from cells import FALSE, TRUE, Refused
from plan import NO_COLUMN, VALUE, Operator
from plan_drawing import shown

FUNCTIONS = {**xquery.OPERATIONS, VALUE: "value"}
STEPS = {xquery.step(axis, test, 0): (axis, test, 0) for axis in xquery.AXES for test in (0, 1, 2)}
STEPS |= {f"{name}::*": (axis, 1, 0) for axis, name in xquery.AXES.items()}


class Unreadable(Exception):
    """A line that is no operator, or another fault that a word tells."""


# From text.

def number(word, least, most):
    """A number in that range."""
    if not re.fullmatch(r"-?\d{1,20}", word) or not least <= int(word) <= most:
        raise Unreadable(f"'{word}' is no number from {least} to {most}")
    return int(word)


def table(word):
    return number(word, 0, 65535)


def column(word):
    return number(word, 0, 255)


def columns(words):
    if len(words) > 255:
        raise Unreadable("more than 255 columns")
    return tuple(map(column, words))


def cell(word):
    """An integer, or a boolean's word."""
    booleans = {"true": TRUE, "false": FALSE}
    return booleans[word] if word in booleans else number(word, -2**63, 2**63 - 1)


def function(word):
    """A function's number."""
    for f, name in FUNCTIONS.items():
        if word == name:
            return f
    raise Unreadable(f"'{word}' is no function; there are {' '.join(FUNCTIONS.values())}")


def step(word):
    """Axis, test and name."""
    axis, _, test = word.partition("::")
    named = re.fullmatch(r"n(\d{1,5})", test)
    if named and axis in xquery.AXES.values():
        return next(a for a, name in xquery.AXES.items() if name == axis), 3, number(named[1], 0, 65535)
    if word not in STEPS:
        raise Unreadable(f"'{word}' is no step, such as child::n2 or descendant::text()")
    return STEPS[word]


def fields(mark, words):
    """The fields of an operator, from its words."""
    match mark, words:
        case "RT", []:
            return ()
        case "RA", [t, z]:
            return table(t), cell(z)
        case "RP", [t, *cs] if cs:
            return table(t), columns(cs)
        case ("RU" | "RD"), [t, u]:
            return table(t), table(u)
        case ("RS" | "RC" | "RK" | "RO"), [t, c]:
            return table(t), column(c)
        case "RJ", [t, c, u, d]:
            return table(t), column(c), table(u), column(d)
        case "RN", [t, "in", p, "by", *keys] if keys:
            return table(t), column(p), columns(keys)
        case "RN", [t, "by", *keys] if keys:
            return table(t), NO_COLUMN, columns(keys)
        case "RF", [t, f, *cs] if len(cs) == (1 if f == "value" else 2):
            return table(t), function(f), columns(cs)
        case "RE", [t]:
            return (table(t),)
        case "RX", [t, one_step]:
            return table(t), *step(one_step)
    raise Unreadable("no operator has these words; 'python3 reference/plans.py' shows how each is written")


def operators_in(text):
    """The operators of a text, and the line of each."""
    operators, lines = [], []
    for at, line in enumerate(text.splitlines(), 1):
        words = line.partition("#")[0].split()
        try:
            if words and words[0].endswith(":"):
                if words.pop(0) != f"{len(operators)}:":
                    raise Unreadable(f"this is operator {len(operators)}")
                if not words:
                    raise Unreadable("a number, and no operator")
            if words:
                operators.append(Operator(words[0].encode(), fields(words[0], words[1:])))
                lines.append(at)
        except Unreadable as fault:
            raise Unreadable(f"line {at}: {fault}") from None
    return operators, lines


# To text.

def text_of(operator):
    """An operator's words."""
    mark = operator.mark.decode()
    match mark, operator.fields:
        case "RA", (t, z):
            return f"RA {t} {shown(z)}"
        case "RP", (t, cs):
            return f"RP {t} {' '.join(map(str, cs))}"
        case "RN", (t, p, keys):
            within = "" if p == NO_COLUMN else f"in {p} "
            return f"RN {t} {within}by {' '.join(map(str, keys))}"
        case "RF", (t, f, cs):
            return f"RF {t} {FUNCTIONS[f]} {' '.join(map(str, cs))}"
        case "RX", (t, *one_step):
            return f"RX {t} {xquery.step(*one_step)}"
    return " ".join([mark, *map(str, operator.fields)])


def text_of_plan(operators, notes):
    """An operator a line; `notes` are put after some."""
    lines = []
    for n, operator in enumerate(operators):
        line = f"{n}: {text_of(operator)}"
        lines.append(f"{line:<24}# {notes[n]}" if n in notes else line)
    return "\n".join(lines) + "\n"


# Of the operators that a part writes itself, counted from 0: tables that hold something else than items.
TABLES = {b"QF": {2: "the variable, turn by turn", 3: "the turns: the loop", 4: "the map: outer turn, inner turn"},
          b"QI": {2: "the turns that take the first branch", 3: "the turns that take the other"}}


def notes_on(part, notes):
    """What a table holds, where a word tells it: items of a part of the query, after its last operator; turns."""
    for inner in part.parts:
        notes_on(inner, notes)
    if part.numbers and part.mark:
        notes.update({part.numbers[n]: what for n, what in TABLES.get(part.mark, {}).items()})
        notes[part.numbers[-1]] = f"the items of {part.title}"
    return notes


# The commands.

def read(folder, name):
    """A file's bytes."""
    path = folder / name
    if not path.is_file():
        raise Unreadable(f"there is no {name} in {folder}")
    return path.read_bytes()


def make_bytes(folder):
    """plan.bin from plan.txt; says what the plan check answers."""
    try:
        text = read(folder, "plan.txt").decode()
    except UnicodeDecodeError:
        raise Unreadable("plan.txt is not text") from None
    operators, lines = operators_in(text)
    bytes_made = plan.written(operators)
    (folder / "plan.bin").write_bytes(bytes_made)
    print(f"{len(operators)} operators, {len(bytes_made)} bytes")
    try:
        plan.read(bytes_made)
    except Refused as refused:
        starts = [len(plan.written(operators[:n])) for n in range(len(operators))]
        where = f", which is line {lines[starts.index(refused.place)]} of plan.txt" if refused.place in starts else ""
        print(f"refused {refused.number} at {refused.place}{where}")
        return 1
    return 0


def make_text(folder):
    """plan.txt from plan.bin."""
    operators, _ = plan.read(read(folder, "plan.bin"))
    (folder / "plan.txt").write_text(text_of_plan(operators, {}))
    return 0


def make_both(folder):
    """The plan of the folder's query."""
    bytes_made, whole, _ = plan_drawing.parts_of(read(folder, "query.bin")[:chartask.QUERY_BYTES])
    operators, _ = plan.read(bytes_made)
    notes = {**notes_on(whole, {}), len(operators) - 1: "the items of the whole query"}
    (folder / "plan.txt").write_text(text_of_plan(operators, notes))
    (folder / "plan.bin").write_bytes(bytes_made)
    print(f"{len(operators)} operators, {len(bytes_made)} bytes")
    return 0


def printed(plan_bytes, doc):
    """What a run gives, as chartask says it: items, or the refusal."""
    return chartask.first_lines(runner.run(plan_bytes, doc, chartask.WORK_CELLS))


def run(folder):
    """Prints what the run of plan.bin gives."""
    path = folder / "doc.bin"
    doc = path.read_bytes()[:chartask.DOC_BYTES] if path.is_file() else b""
    lines = printed(read(folder, "plan.bin"), doc)
    print("\n".join(lines))
    return 1 if lines[0].startswith("refused") else 0


def main(arguments):
    """The exit status."""
    commands = {"--text": make_text, "--query": make_both, "--run": run}
    match arguments:
        case [folder] if folder and not folder.startswith("-"):
            command = make_bytes
        case [option, folder] if option in commands and folder:
            command = commands[option]
        case _:
            print(__doc__.strip(), file=sys.stderr)
            return 2
    try:
        if not pathlib.Path(folder).is_dir():
            raise Unreadable(f"there is no folder {folder}")
        return command(pathlib.Path(folder))
    except Refused as refused:
        print(f"refused {refused.number} at {refused.place}")
        return 1
    except (Unreadable, OSError) as fault:
        print(f"plans: {fault}", file=sys.stderr)
        return 2


if __name__ == "__main__":
    sys.exit(main(sys.argv[1:]))
