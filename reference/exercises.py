"""The outputs in the exercises and their answers.

    python3 reference/exercises.py      fills the blocks of README.md and ANSWERS.md in examples/exercises

A block begins with one of these lines and ends with `<!-- end -->`. NAME is a query of the list below, CHANGE a change of a
plan.

    <!-- query NAME -->           the query
    <!-- prints NAME -->          what chartask prints
    <!-- table NAME NAME -->      several queries, each with what chartask prints
    <!-- plan NAME -->            its plan; `<!-- plan NAME: 19 20 -->` those operators
    <!-- places NAME -->          its records and its operators, each with its byte
    <!-- rows NAME -->            the rows of its catalogue
    <!-- room NAME: 13 12 -->     what the runner answers with so many cells
    <!-- preceding NAME: 3 -->    the ranks v with v + size(v) below 3, in whatever fragment
    <!-- changed CHANGE -->       the changed operators, and what the run then gives
    <!-- text CHANGE -->          a plan written by hand, and what its run gives
"""

import pathlib
import re
import sys

sys.dont_write_bytecode = True

import catalogue
import chartask
import plan
import plan_drawing
import plans
import query
import runner
import some_catalogues
import xquery
from some_queries import (ADD, CHILD, DESCENDANT, FAILING, FOLLOWING, IDIV, MULTIPLY, NOTHING, PRECEDING, TRUE, choose, count,
                          each, let, literal, operate, root, sequence, step, values, variable)

ROOT = pathlib.Path(__file__).resolve().parent.parent
EXAMPLES = ROOT / "examples"
PAGES = [EXAMPLES / "exercises" / name for name in ("README.md", "ANSWERS.md")]

A, B = variable(0), variable(1)
HARBOURS = step(CHILD, 3, 2, root(1))


def some(*integers):
    return sequence(*map(literal, integers))


def judged(condition):
    return choose(condition, literal(1), literal(2))


def doc_of(folder):
    """The catalogue of an example; of none, no rows."""
    return (EXAMPLES / folder / "doc.bin").read_bytes() if folder else b""


SMALL = some_catalogues.written(some_catalogues.sized([(0, 1, 1), (1, 1, 2), (1, 1, 2), (2, 1, 3), (3, 3, 7)]))

# Name: catalogue, query.
QUERIES = {
    "nodes-below": (doc_of("missing-condition"), each(0, HARBOURS, count(step(CHILD, 0, 0, A)))),
    "boolean-and-nothing": (b"", operate(ADD, TRUE, NOTHING)),
    "two-and-nothing": (b"", operate(ADD, some(1, 2), NOTHING)),
    "count-of-a-failure": (b"", count(FAILING)),
    "for-over-nothing": (b"", each(0, NOTHING, FAILING)),
    "unused-let": (b"", let(0, FAILING, literal(2))),
    "untaken": (b"", choose(NOTHING, FAILING, literal(2))),
    "toward-zero": (b"", operate(IDIV, literal(-7), literal(2))),
    "truth-nothing": (doc_of("sample"), judged(NOTHING)),
    "truth-zero": (doc_of("sample"), judged(literal(0))),
    "truth-node-first": (doc_of("sample"), judged(sequence(root(1), literal(0)))),
    "truth-node-last": (doc_of("sample"), judged(sequence(literal(0), root(1)))),
    "truth-two": (doc_of("sample"), judged(sequence(literal(2), TRUE))),
    "truth-values": (doc_of("sample"), judged(values(step(DESCENDANT, 2, 0, root(1))))),
    "products": (b"", each(0, some(1, 2), each(1, sequence(A, literal(10)), operate(MULTIPLY, A, B)))),
    "small-rows": (SMALL, NOTHING),
    "following": (doc_of("missing-condition"), each(0, HARBOURS, count(step(FOLLOWING, 0, 0, A)))),
    "other-fragment": (doc_of("two-fragments"), step(PRECEDING, 0, 0, root(2))),
    "unbound": (b"", sequence(literal(1), B)),
    "ten": (b"", literal(10)),
    "plain-for": (b"", each(0, some(1, 2), A)),
    "lifted": (b"", let(0, literal(1), each(1, some(1, 2), sequence(A, B)))),
    "count-of-nothing": (b"", count(NOTHING)),
    "harbours": (doc_of("harbour-without-longitude"), (EXAMPLES / "harbour-without-longitude" / "query.bin").read_bytes()),
    "two-sequences": (b"", (EXAMPLES / "two-sequences" / "query.bin").read_bytes()),
    "missing-condition": (doc_of("missing-condition"), (EXAMPLES / "missing-condition" / "query.bin").read_bytes()),
}

# Name: query, and the operators that are changed.
CHANGES = {
    "harbour-lost": ("harbours", {18: "RD 17 17"}),
    "halves-mixed": ("two-sequences", {22: "RN 21 in 0 by 1 3"}),
    "end-of-for-as-rows-stand": ("missing-condition", {36: "RN 35 in 3 by 3"}),
    "union-turned": ("two-sequences", {21: "RU 20 19"}),
    "union-as-rows-stand": ("two-sequences", {22: "RN 21 in 0 by 0"}),
    "both-union-changes": ("two-sequences", {21: "RU 20 19", 22: "RN 21 in 0 by 0"}),
    "once-left-out": ("two-and-nothing", {13: "RP 9 0 1 2", 14: "RP 12 0 1 2"}),
    "widths-differ": ("harbours", {20: "RU 16 18"}),
}

# Plans written by hand, over no catalogue.
TEXTS = {
    "smallest": "RT\nRP 0 0 0 0\n",
    "smallest-boolean": "RT\nRA 0 1\nRA 1 true\n",
}


# What the blocks show.

def text_of(query_bytes):
    """The query's text, its variables bound or not."""
    tree = query.Reader(query_bytes).expression(1, frozenset(range(8)))
    return xquery.Texts(lambda k: f"root({k})").text(tree)


def fenced(text):
    return f"```\n{text.rstrip()}\n```\n"


def prints(name):
    return chartask.printed(*QUERIES[name])


def table(names):
    """Queries and what is printed of each."""
    lines = ["| query | prints |", "|---|---|"]
    lines += [f"| `{text_of(QUERIES[name][1])}` | {', '.join(prints(name).splitlines())} |" for name in names]
    return "\n".join(lines) + "\n"


def operators_of(name):
    """The plan of a query: its operators, and what some tables hold."""
    bytes_made, whole, _ = plan_drawing.parts_of(QUERIES[name][1])
    operators, _ = plan.read(bytes_made)
    return operators, {**plans.notes_on(whole, {}), len(operators) - 1: "the items of the whole query"}


def plan_lines(name, numbers):
    """The plan as plan.txt has it, all of it or some operators."""
    lines = plans.text_of_plan(*operators_of(name)).splitlines()
    return "\n".join(lines[n] for n in (numbers or range(len(lines))))


def places(name):
    """Records of the query and operators of the plan, each with its byte."""
    _, query_bytes = QUERIES[name]
    lines, at = ["byte  record"], 0
    while at < len(query_bytes):
        record = query.decode(query_bytes, at)
        lines.append(f"{at:>4}  {' '.join([record.mark.decode(), *map(str, record.fields)])}")
        at = record.end
    if chartask.translator.translate(query_bytes, chartask.PLAN_BYTES).refusal == 0:
        operators, _ = operators_of(name)
        lines += ["", "byte  operator"] + [f"{operator.at:>4}  {n}: {plans.text_of(operator)}" for n, operator in enumerate(operators)]
    return "\n".join(lines)


def rows(name):
    """The rows of the catalogue, and its XML."""
    its = catalogue.read(QUERIES[name][0]).rows
    lines = ["| rank | size | level | kind | prop |", "|---|---|---|---|---|"]
    lines += [f"| {rank} | {row.size} | {row.level} | {row.kind} | {row.prop} |" for rank, row in enumerate(its)]
    return "\n".join(lines) + "\n"


def room(name, lent):
    """The runner's answers."""
    operators, _ = operators_of(name)
    bytes_made, lines = plan.written(operators), []
    for cells in lent:
        ran = runner.run(bytes_made, QUERIES[name][0], cells)
        answer = (f"refused {ran.refusal} at {ran.place}" if ran.refusal else
                  f"start {ran.start}, rows {ran.rows}, cells filled {ran.cells_filled}")
        lines.append(f"{cells} cells: {answer}")
    return "\n".join(lines)


def preceding(name, context):
    """What a test by ranks alone would give."""
    its = catalogue.read(QUERIES[name][0]).rows
    return " ".join(str(v) for v, row in enumerate(its) if v + row.size < context)


def changed(name):
    """The changed operators, and what the run gives."""
    of, changes = CHANGES[name]
    operators, _ = operators_of(of)
    lines = plans.text_of_plan(operators, {}).splitlines()
    for number, words in changes.items():
        lines[number] = f"{number}: {words}"
    changed_operators, _ = plans.operators_in("\n".join(lines))
    given = plans.printed(plan.written(changed_operators), QUERIES[of][0])
    return "\n".join([lines[number] for number in changes] + [""] + given)


def written_by_hand(name):
    """A plan's text, and what its run gives."""
    operators, _ = plans.operators_in(TEXTS[name])
    return TEXTS[name] + "\n" + "\n".join(plans.printed(plan.written(operators), b""))


def block(line):
    """What a block's first line asks for."""
    kind, what, more = re.fullmatch(r"<!-- (\w+) ([\w -]+?)(?:: ([\d ]+))? -->", line).groups()
    numbers = [int(number) for number in (more or "").split()]
    match kind:
        case "query":
            return fenced(text_of(QUERIES[what][1]))
        case "prints":
            return fenced(prints(what))
        case "table":
            return table(what.split())
        case "plan":
            return fenced(plan_lines(what, numbers))
        case "places":
            return fenced(places(what))
        case "rows":
            return rows(what)
        case "room":
            return fenced(room(what, numbers))
        case "preceding":
            return fenced(preceding(what, numbers[0]))
        case "changed":
            return fenced(changed(what))
        case "text":
            return fenced(written_by_hand(what))


def filled(page):
    """The page with its blocks made again."""
    def made(found):
        return f"{found[1]}\n\n{block(found[1])}\n<!-- end -->"
    return re.sub(r"(<!-- (?!end)[^\n]*? -->)\n.*?<!-- end -->", made, page, flags=re.S)


def main():
    """Fills both pages."""
    for page in PAGES:
        page.write_text(filled(page.read_text()))
    return 0


if __name__ == "__main__":
    sys.exit(main())
