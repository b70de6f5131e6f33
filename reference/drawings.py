"""The drawings, as SVG.

    python3 reference/drawings.py            writes docs/drawings/ and those of every example
    python3 reference/drawings.py FOLDER     writes the folder's plan.svg and rows.svg

plan.svg is the plan of query.bin with the tables it makes over doc.bin, rows.svg the rows of doc.bin. Where a folder has
a plan.bin of its own, own-plan.svg is that plan. What cannot be drawn has no file: a query or a catalogue that is refused,
a catalogue without rows.
"""

import pathlib
import sys

sys.dont_write_bytecode = True

import plan_drawing
import proofs_drawing
import rows_drawing
from cells import Refused
from chartask import DOC_BYTES, QUERY_BYTES

ROOT = pathlib.Path(__file__).resolve().parent.parent
DRAWINGS = ROOT / "docs" / "drawings"
EXAMPLES = ROOT / "examples"


def bytes_of(folder, name, most):
    """What chartask reads of a file; a missing one is empty."""
    path = folder / name
    return path.read_bytes()[:most] if path.is_file() else b""


def drawings_of(folder):
    """Name and text of each drawing of a folder; for what is refused, name and refusal."""
    doc = bytes_of(folder, "doc.bin", DOC_BYTES)
    wanted = []
    if (folder / "query.bin").is_file():
        wanted.append(("plan.svg", lambda: plan_drawing.of_query(bytes_of(folder, "query.bin", QUERY_BYTES), doc)))
    if (folder / "plan.bin").is_file():
        wanted.append(("own-plan.svg", lambda: plan_drawing.of_plan((folder / "plan.bin").read_bytes(), doc)))
    if doc:
        wanted.append(("rows.svg", lambda: rows_drawing.of_rows(doc)))
    for name, draw in wanted:
        try:
            yield name, draw()
        except Refused as refused:
            yield name, refused


def written(folder, tells):
    """Writes a folder's drawings; says how many, and whether something was refused."""
    drawn, refusals = 0, 0
    for name, text in drawings_of(folder):
        if isinstance(text, Refused):
            refusals += 1
            tells(f"refused {text.number} at {text.place}: there is no {name}")
        else:
            (folder / name).write_text(text)
            drawn += 1
            tells(f"{folder / name}")
    return drawn, refusals


def write_all():
    """docs/drawings and every example."""
    DRAWINGS.mkdir(exist_ok=True)
    (DRAWINGS / "proofs.svg").write_text(proofs_drawing.drawing())
    for name, text in drawings_of(EXAMPLES / "sample"):
        (DRAWINGS / f"sample-{name}").write_text(text)
    folders = [path.parent for path in sorted(EXAMPLES.glob("*/query.bin"))]
    drawn = sum(written(folder, lambda line: None)[0] for folder in folders)
    print(f"3 drawings in docs/drawings, {drawn} in {len(folders)} examples")
    return 0


def write_one(folder):
    """One folder's; status 1 where something is refused."""
    if not folder.is_dir():
        return wrong(f"there is no folder {folder}")
    drawn, refusals = written(folder, print)
    if not drawn and not refusals:
        return wrong(f"there is no query.bin, plan.bin or doc.bin in {folder}; "
                     f"'python3 reference/bytes.py {folder}' makes them from query.xq and catalogue.xml")
    return 1 if refusals else 0


def wrong(words):
    """Says what is wrong; status 2."""
    print(f"drawings: {words}", file=sys.stderr)
    return 2


def main(arguments):
    """The exit status: 0 drawn, 1 refused, 2 wrong use."""
    try:
        match arguments:
            case []:
                return write_all()
            case [folder] if folder and not folder.startswith("-"):
                return write_one(pathlib.Path(folder))
    except (OSError, proofs_drawing.Unknown) as error:
        return wrong(str(error))
    print(__doc__.strip(), file=sys.stderr)
    return 2


if __name__ == "__main__":
    sys.exit(main(sys.argv[1:]))
