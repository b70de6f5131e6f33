"""Makes the examples, each a folder, and README.md, from the list below.

    python3 examples/make.py

The query is typed, the catalogue is XML; reference/bytes.py makes their bytes. What chartask must print is the reference
model's answer.
"""

import pathlib
import sys
from typing import NamedTuple

sys.dont_write_bytecode = True
HERE = pathlib.Path(__file__).resolve().parent
sys.path.insert(0, str(HERE.parent / "reference"))

import bytes as tool
import chartask
import query


class Example(NamedTuple):
    """A folder's name, what to look at, the query's text, the catalogue's."""
    folder: str
    look_at: str
    query: str
    xml: str


# n1 is a sheet, n2 a harbour, n3 its latitude, n4 its longitude.

SAMPLE = "<n1><n2><n3>5350</n3><n4>995</n4></n2><n2/></n1>"
HARBOURS = ("<n1><n2><n3>5350</n3><n4>995</n4></n2><n2><n3>5412</n3></n2>"
            "<n2><n3>5390</n3><n4>912</n4></n2></n1>")
TWO_SHEETS = "<n1><n2/><n2/></n1><n1><n2/></n1>"
NO_SHEET = ""

EXAMPLES = [
    Example("sample", "Document 01's own. The second harbour has nothing below it: its count is 0.",
            "for $a in root(1)/child::n2 return count($a/child::n3)", SAMPLE),
    Example("harbour-without-longitude", "The second harbour has no longitude. It keeps its place: its count is 0.",
            "for $a in root(1)/child::n2 return count($a/child::n4)", HARBOURS),
    Example("two-sequences", "The first one's items stand before the second one's.",
            "(30, 10), (20, 40)", NO_SHEET),
    Example("order-of-a-sequence", "Longitude first, though latitude stands first in the catalogue.",
            "for $a in root(1)/child::n2 return (data($a/child::n4/child::text()), data($a/child::n3/child::text()))",
            HARBOURS),
    Example("longitudes-then-latitudes", "All longitudes stand before all latitudes: the operands' order goes first.",
            "data(root(1)/descendant::n4/child::text()), data(root(1)/descendant::n3/child::text())", HARBOURS),
    Example("order-of-nested-for", "The inner `for` runs to its end before the outer one goes on.",
            "for $a in (1, 2) return ($a, for $b in (10, 20) return ($a, $b))", NO_SHEET),
    Example("order-of-a-step", "A step gives each node once, by rising rank, in whatever order its operand has them.",
            "(root(1)/descendant::n4, root(1)/descendant::n3)/parent::node()", HARBOURS),
    Example("untaken-branch", "Nobody divides by 0: the branch is worked out only for those who take it.",
            "for $a in (0, 2, 5) return if ($a eq 0) then 0 else 100 idiv $a", NO_SHEET),
    Example("missing-condition", "A condition without items is false. The harbour without a longitude takes the else.",
            "for $a in root(1)/child::n2 return if ($a/child::n4) then data($a/child::n4/child::text()) else -1", HARBOURS),
    Example("two-fragments", "The first sheet ends before the second. Nothing follows its root; one harbour follows its "
            "first harbour.",
            "count(root(1)/following::node()), count(root(1)/child::n2/following::node()), "
            "root(1)/child::n2/following::node()", TWO_SHEETS),
    Example("hidden-variable", "The inner `$a` hides the outer one, and only in its own body.",
            "let $a := 1 return (let $a := $a + 1 return $a, $a)", NO_SHEET),
    Example("sum-of-several", "A side with two items fails, also where the other side is empty.",
            "(1, 2) + ()", NO_SHEET),
    Example("sum-of-latitudes", "Three latitudes and no `n5`: the first side fails, though the second one is empty.",
            "data(root(1)/descendant::n3/child::text()) + data(root(1)/descendant::n5/child::text())", HARBOURS),
    Example("unused-let", "What is bound is always worked out. Other engines may print 2.",
            "let $a := 1 idiv 0 return 2", NO_SHEET),
    Example("unbound-variable", "The query is refused before any work: nothing to compare, no `same` line.",
            "1, $b", NO_SHEET),
    Example("no-room", "The plan's tables do not fit in 8,192 cells.",
            "for $a in (1, 2, 3, 4, 5) return for $b in (1, 2, 3, 4, 5) return for $c in (1, 2, 3, 4, 5) return "
            "($a, $b, $c)", NO_SHEET),
]


# The files of an example.

def tree(query_bytes):
    """The query's tree, its variables bound or not."""
    return query.Reader(query_bytes).expression(1, frozenset(range(8)))


def hex_of_rows(doc):
    """A row a line."""
    return "".join(doc[at:at + 10].hex(" ") + "\n" for at in range(0, len(doc), 10))


def hex_of_records(query_bytes, expression, depth=0):
    """A record a line, its operands below it and further in."""
    end = query.decode(query_bytes, expression.at).end
    lines = "  " * depth + query_bytes[expression.at:end].hex(" ") + "\n"
    return lines + "".join(hex_of_records(query_bytes, operand, depth + 1) for operand in expression.operands)


def write(example):
    """The folder's files; gives what chartask prints."""
    folder = HERE / example.folder
    folder.mkdir(exist_ok=True)
    (folder / "query.xq").write_text(example.query + "\n")
    (folder / "catalogue.xml").write_text(example.xml)
    for made in tool.convert(folder, tool.TO_BYTES):
        if made.contents is None:
            sys.exit(f"{example.folder}: {made.told}")
    query_bytes, doc = (folder / "query.bin").read_bytes(), (folder / "doc.bin").read_bytes()
    printed = chartask.printed(doc, query_bytes)
    (folder / "query.hex").write_text(hex_of_records(query_bytes, tree(query_bytes)))
    (folder / "doc.hex").write_text(hex_of_rows(doc))
    (folder / "expected").write_text(printed)
    return printed


def row_of_table(example, printed):
    """The example's row of README.md."""
    shown = ", ".join(printed.splitlines())
    return f"| [{example.folder}]({example.folder}) | `{example.query}` | {shown} | {example.look_at} |\n"


README = """# Examples

Small catalogues and queries, one a folder. Run one from the project's root:

    ./chartask examples/{first}

The names are numbers: `n1` is a sheet, `n2` a harbour, `n3` its latitude, `n4` its longitude. Latitudes and longitudes are
in hundredths of a degree. `root(1)` is the root of the first fragment. Ranks count all rows from 0, so `node 6` is row 6.
`refused 7 at 126` is a failure at byte 126 of the plan; `refused 3 at 8` a fault at byte 8 of the query.

| folder | query | prints | look at |
|---|---|---|---|
{table}
| file | holds |
|---|---|
| `query.xq` | the query, typed: XQuery 1.0, but for `root(1)` |
| `catalogue.xml` | the sheets, root elements one after another, each a fragment; empty where there is no row |
| `doc.bin`, `query.bin` | what `chartask` reads |
| `doc.hex`, `query.hex` | the same in hexadecimal: a row or a record a line, operands below their record and further in |
| `expected` | what `chartask` prints |

`python3 examples/make.py` writes all of it again; what must be printed comes from the model in [reference](../reference).

To try a query of your own, copy a folder, change `query.xq` and `catalogue.xml`, and make the bytes:

    cp -r examples/sample mine
    python3 reference/bytes.py mine
    ./chartask mine

A text that is refused is shown with the place: 9 for a query, 11 for a sheet. In `query.xq` spaces and line breaks are
free; `catalogue.xml` is one line without spaces. `python3 reference/bytes.py --text mine` goes the other way, from the
bytes to the texts.

Other engines know no `root(1)`, and to them a file with two roots is no document. `python3 reference/bytes.py --xquery mine`
prints query and catalogue as one program of XQuery 1.0 that BaseX, Saxon and others run: each sheet stands in it as an
element constructor, and is a tree of its own, as a fragment is.
"""


def main():
    """Writes every file."""
    table = "".join(row_of_table(example, write(example)) for example in EXAMPLES)
    (HERE / "README.md").write_text(README.format(first=EXAMPLES[0].folder, table=table))
    print(f"{len(EXAMPLES)} examples")


if __name__ == "__main__":
    main()
