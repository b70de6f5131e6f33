"""The tables of a run, operator by operator, as program `showing` prints them; and the cases that it is run on.

    python3 reference/showing.py                    writes crates/showing/data/cases.bin and stdout
    python3 reference/showing.py tables FOLDER      what it prints for the folder's query.bin and doc.bin
    python3 reference/showing.py typed FOLDER       .. for its query.xq and doc.bin
    python3 reference/showing.py plan FOLDER        .. for its plan.bin and doc.bin

Each operator has a heading: its number, the byte offset of its record, its mark and its fields in the order of the
record. Below it stands its table, a line a row, each cell at the right of 12 characters; `no rows` where it is empty,
`no table` where the operators up to it do not run in chartask's 8,192 cells. The last line is the run's answer.

After refusal 5, 6 or 7 the operator at the place is the last one shown. 5 comes before any work, so the tables shown
there are those that the operators up to each make by themselves. After refusal 4 no operator is shown, nor after a
refusal of the translator or of the reader of typed queries.

A case is a byte (1 tables, 2 plan, 3 typed), the query, the plan or the text, and the catalogue; a byte string has its
length (2 bytes) before it. Of each case `case n` is printed, counted from 1, and then the text.
"""

import pathlib
import random
import sys

sys.dont_write_bytecode = True

import at_bounds
import catalogue
import examples
import generate
import open_points
import plan
import runner
import some_plans
import some_queries
import stored
import translator
import typed
from cells import TRUE, Refused, is_integer, is_node, rank
from chartask import DOC_BYTES, PLAN_BYTES, QUERY_BYTES, WORK_CELLS
from query import sound_fragment, sound_step

OWN_PLAN_BYTES = 8192
COLUMN = 12
WORDS = {"tables": 1, "plan": 2, "typed": 3}
FILES = {"tables": "query.bin", "plan": "plan.bin", "typed": "query.xq"}
CRATE = "showing"

# A drawn query whose text is longer is left out.
MOST_TEXT = 6000


# The text.

def cell_text(cell):
    """An integer as itself, `false`, `true`, or `node` and its rank."""
    if is_integer(cell):
        return str(cell)
    if is_node(cell):
        return f"node {rank(cell)}"
    return "true" if cell == TRUE else "false"


def line(texts):
    """Each text at the right of its column."""
    return "".join(f"{text:>{COLUMN}}" for text in texts)


def field_texts(operator):
    """The fields in the order of the record: `RP` and `RN` say how many columns come."""
    match operator.mark, operator.fields:
        case b"RA", (t, cell):
            return [str(t), cell_text(cell)]
        case (b"RP" | b"RN"), (*before, columns):
            return [str(number) for number in (*before, len(columns), *columns)]
        case b"RF", (t, f, columns):
            return [str(number) for number in (t, f, *columns)]
    return [str(number) for number in operator.fields]


def heading(number, operator):
    return f"{number} at {operator.at}  {' '.join([operator.mark.decode(), *field_texts(operator)])}"


def table_lines(rows):
    """The rows, or that there are none; or that there is no table."""
    if rows is None:
        return [line(["no table"])]
    return [line(map(cell_text, row)) for row in rows] or [line(["no rows"])]


# The operators and their tables.

def sound_alone(mark, fields):
    """Whether the fields are in their ranges, whatever tables there are."""
    match mark, fields:
        case b"RA", (_, cell):
            return plan.attachable(cell)
        case b"RX", (_, *step):
            return sound_step(*step)
        case b"RO", (_, k):
            return sound_fragment(k)
    return True


def record_at(plan_bytes, at):
    """The operator at an offset, and the offset after it; or unsound."""
    take = plan.Cursor(plan_bytes, at)
    mark = bytes(take.take(2))
    fields = plan.read_fields(mark, take)
    plan.demand(sound_alone(mark, fields))
    return plan.Operator(mark, fields, at), take.at


def records(plan_bytes, last):
    """The operators up to the offset `last`, as far as they can be read, 512 at most."""
    at, read = 0, []
    while at <= last and at < len(plan_bytes) and len(read) < plan.MOST_OPERATORS:
        try:
            operator, at = record_at(plan_bytes, at)
        except plan.Unsound:
            break
        read.append(operator)
    return read


def widths_of(operators):
    """The widths of the tables, up to the first operator that does not suit those before it."""
    widths = []
    for operator in operators:
        try:
            widths.append(plan.width(operator.mark, operator.fields, widths))
        except plan.Unsound:
            break
    return widths


def tables_of(operators, widths, doc):
    """The tables of the operators, laid one after another, up to the first that fails or passes the room."""
    tables, left = [], WORK_CELLS
    try:
        its_catalogue = catalogue.read(doc)
        for operator, width in zip(operators, widths):
            rows = runner.made(operator, tables, its_catalogue)
            tables.append(runner.laid(operator, rows, width, left))
            left -= len(tables[-1]) * width
    except Refused:
        pass
    return tables


def shown_tables(operators, doc):
    """A table for each operator, or None. 'A plan has 1 to 512 operators, the last of width 3': the table of a 512th
    operator is shown where its width is 3, since no operator can come after it."""
    widths = widths_of(operators)
    tables = tables_of(operators, widths, doc)
    if len(tables) == plan.MOST_OPERATORS and widths[-1] != 3:
        tables.pop()
    return tables + [None] * (len(operators) - len(tables))


def operator_lines(plan_bytes, doc, answer):
    """Headings and tables, up to the place of a refusal."""
    if answer.refusal == 4:
        return
    operators = records(plan_bytes, answer.place if answer.refusal else len(plan_bytes))
    for number, (operator, rows) in enumerate(zip(operators, shown_tables(operators, doc))):
        yield heading(number, operator)
        yield from table_lines(rows)


def refused_line(answer):
    return f"refused {answer.refusal} at {answer.place}"


def lines_of_plan(plan_bytes, doc):
    answer = runner.run(plan_bytes, doc, WORK_CELLS)
    yield from operator_lines(plan_bytes, doc, answer)
    if answer.refusal:
        yield refused_line(answer)
    else:
        yield f"start {answer.start} rows {answer.rows} cells {answer.cells_filled}"


def lines_of_query(query_bytes, doc):
    translated = translator.translate(query_bytes, PLAN_BYTES)
    if translated.refusal:
        return [refused_line(translated)]
    return lines_of_plan(translated.lent[:translated.plan_bytes], doc)


def lines_of_text(text, doc):
    """Those of the query that is typed; or that it is refused."""
    answer = typed.read_text(text, QUERY_BYTES)
    if answer.refusal:
        return [refused_line(answer)]
    return lines_of_query(answer.lent[:answer.record_bytes], doc)


def printed(word, first, doc):
    """The text, of the bytes of the files that the program reads."""
    doc = doc[:DOC_BYTES]
    match word:
        case "tables":
            lines = lines_of_query(first[:QUERY_BYTES], doc)
        case "plan":
            lines = lines_of_plan(first[:OWN_PLAN_BYTES], doc)
        case "typed":
            lines = lines_of_text(first, doc)
    return "".join(one + "\n" for one in lines)


# The cases.

TWO = at_bounds.TWO
DOC = at_bounds.DOC


def some(rng, n, family):
    """n of a family, drawn."""
    return rng.sample(list(family), n)


def queries(rng):
    """Queries with a catalogue: translated plans, and the translator's refusals."""
    yield some_queries.EXAMPLE, DOC
    for _, query_bytes, doc, _ in examples.MARKED:
        yield query_bytes, doc
    for query_bytes in some_queries.SMALLEST.values():
        yield query_bytes, DOC
    for query_bytes in (b"", b"QS", b"QV\0", some_queries.nest(33, some_queries.NOTHING), some_queries.wide(129),
                        some_queries.of_operators(513), some_queries.FAILING, some_queries.root(9),
                        some_queries.EVERY_RECORD):
        yield query_bytes, DOC
    yield some_queries.EXAMPLE, at_bounds.UNSOUND_DOC
    yield some_queries.EXAMPLE, b""
    yield some_queries.EXAMPLE + b"Q", at_bounds.UNSOUND_DOC
    yield at_bounds.LAST_OF_FULL, at_bounds.FULL
    # For each of 64 items all 64: a table of 4,096 rows passes the room.
    yield some_queries.doubled(6, some_queries.each(1, some_queries.variable(0), some_queries.variable(0))), b""
    for _ in range(90):
        _, query_bytes, doc = generate.drawn_work(rng)
        if len(printed("tables", query_bytes, doc)) <= MOST_TEXT:
            yield query_bytes, doc


def own_plans(rng):
    """Plans of one's own with a catalogue."""
    for family in (some_plans.truths_by_order, some_plans.steps_by_groups):
        for _, plan_bytes in family():
            yield plan_bytes, TWO
    for _, plan_bytes in (*some(rng, 40, some_plans.by_what_they_do()), *some(rng, 25, some_plans.functions())):
        yield plan_bytes, TWO
    for family, n in ((some_plans.table_numbers, 30), (some_plans.column_numbers, 30), (some_plans.widths, 30),
                      (some_plans.other_fields, 30), (some_plans.every_byte, 40)):
        for _, plan_bytes in some(rng, n, family()):
            yield plan_bytes, DOC
    for doc in (DOC, TWO, b"", at_bounds.UNSOUND_DOC):
        yield some_plans.every_operator(), doc
    yield some_plans.every_operator()[:-1], at_bounds.UNSOUND_DOC
    for _ in range(90):
        _, (plan_bytes, doc, _) = generate.drawn_run(rng)
        yield plan_bytes, doc
    yield from long_plans()


def texts():
    """Typed queries with a catalogue: those that tell open points apart, and each refusal of the reader."""
    yield b"for $a in root(1)/child::n2 return count($a/child::n3)", DOC
    yield b"for $a in root(1)/child::n2 return count($a/child::n3)", at_bounds.UNSOUND_DOC
    for _, rows in open_points.TYPED:
        for text, _ in rows:
            yield text.encode(), DOC
    for text in (b"", b"1+", b"2147483648", b"$a", b"(" * 33, b"data(" * 33 + b"1" + b")" * 33,
                 b",".join([b"1"] * 65), b",".join([b"-1"] * 64), b"1 idiv 0", b"root(9)"):
        yield text, DOC


def one_row_of(width):
    """The operator that makes a row of that width from table 0."""
    return some_plans.record(b"RP", 0, (0,) * width)


def long_plans():
    """Plans at 512 operators, and tables at and past 8,192 cells."""
    end = some_plans.END
    for plan_bytes in (b"", b"RT", some_plans.SMALLEST, b"RT" * 511 + end, b"RT" * 512, b"RT" * 511 + end + b"RT",
                       b"RT" * 512 + end, b"RT" + some_plans.record(b"RA", 0, 1) * 512):
        yield plan_bytes, b""
    yield some_plans.filling(8192), b""
    # 128 rows, then 16,384: they pass the room, whether the plan is refused for it or for its last record.
    joined = b"RT" + b"".join(some_plans.record(b"RU", t, t) for t in range(7)) + some_plans.record(b"RJ", 7, 0, 7, 0)
    for rest in (end, b"", b"RZ", end + b"RT", some_plans.record(b"RK", 0, 0) + b"RZ"):
        yield joined + rest, b""
    # The plan is refused, and one of its operators fails.
    failing = b"RT" + some_plans.record(b"RU", 0, 0) + some_plans.record(b"RK", 1, 0) + one_row_of(2)
    yield failing + end, b""
    yield failing + b"R", b""
    yield failing + some_plans.record(b"RE", 3) + end, b""


def cases():
    """Word, first file and catalogue of each case, each once."""
    rng = random.Random("showing 7")
    seen = set()
    for word, pairs in (("tables", queries(rng)), ("plan", own_plans(rng)), ("typed", texts())):
        for first, doc in pairs:
            case = word, first[:OWN_PLAN_BYTES], doc[:DOC_BYTES]
            if case not in seen:
                seen.add(case)
                yield case


def write():
    """The crate's data/cases.bin and stdout."""
    crate = stored.CRATE.parent / CRATE
    (crate / "data").mkdir(parents=True, exist_ok=True)
    all_cases = list(cases())
    kept = b"".join(bytes([WORDS[word]]) + stored.kept(first) + stored.kept(doc) for word, first, doc in all_cases)
    text = "".join(f"case {number}\n{printed(*case)}" for number, case in enumerate(all_cases, 1))
    (crate / "data" / "cases.bin").write_bytes(kept)
    (crate / "stdout").write_text(text)
    return f"crates/{CRATE}: {len(all_cases)} cases, {len(kept)} bytes, {len(text)} bytes printed"


def file(path):
    """The bytes of a file; a missing one is empty."""
    return path.read_bytes() if path.is_file() else b""


def main(arguments):
    """The exit status: 1 where something is refused, 2 for words that are no command."""
    if not arguments:
        print(write())
        return 0
    if len(arguments) != 2 or arguments[0] not in WORDS:
        print(__doc__)
        return 2
    word, folder = arguments[0], pathlib.Path(arguments[1])
    text = printed(word, file(folder / FILES[word]), file(folder / "doc.bin"))
    print(text, end="")
    return 1 if "refused " in text else 0


if __name__ == "__main__":
    sys.exit(main(sys.argv[1:]))
