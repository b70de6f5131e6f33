"""The blocks of a page, filled from the examples and from the files that they show.

A block begins with one of these lines, and ends with `<!-- end -->`. After FOLDER may come `; FAULT`, the fault to
plant, and `; shuffle SEED` or `; turn K`, who moves rows.

    <!-- query FOLDER -->                     the example's query
    <!-- xml FOLDER -->                       its catalogue as XML
    <!-- rows FOLDER -->                      its catalogue's rows
    <!-- tables FOLDER: 3 4 9 -->             those tables of its plan
    <!-- prints FOLDER -->                    what chartask prints
    <!-- read FOLDER; shuffle 7 -->           the items by rising place, with the rows moved and without
    <!-- definition FILE: NAME -->            a definition, with the comment above it
    <!-- clause FILE: WORDS -->               the clause that begins with these words
    <!-- file FILE -->                        a whole file
    <!-- reach -->                            how many harbours the lent cells hold
"""

import pathlib
import re

import catalogue
import described
import query
import reach
import worked
from cells import Refused
from worked import Asked, Wrong

ROOT = pathlib.Path(__file__).resolve().parent.parent
EXAMPLES = ROOT / "examples"
KINDS = "query|xml|rows|tables|prints|read|definition|clause|file|reach"


def fenced(text, language=""):
    return f"```{language}\n{text}```\n"


def lines_of(path):
    """A file's lines."""
    try:
        return path.read_text().split("\n")
    except OSError as error:
        raise Wrong(f"{path.relative_to(ROOT)} cannot be read: {error.strerror}") from None


def first_line(lines, fits, what):
    """The number of the first line that fits."""
    found = next((n for n, line in enumerate(lines) if fits(line)), None)
    if found is None:
        raise Wrong(f"there is no {what}")
    return found


def definition(path, name):
    """The definition of that name: the comment right above it, and its lines up to the next empty one."""
    lines = lines_of(path)
    begins = re.compile(rf"(unfoldable |abbrev )?pub {re.escape(name)} ")
    at = first = first_line(lines, begins.match, f"definition {name} in {path.name}")
    while lines[first - 1].startswith("--"):
        first -= 1
    end = next(n for n in range(at, len(lines)) if not lines[n])
    return fenced("\n".join(lines[first:end]) + "\n")


def clause(path, words):
    """The line that begins with these words, and those further in below it."""
    lines = lines_of(path)
    at = first_line(lines, lambda line: line.startswith(words), f"line in {path.name} that begins '{words}'")
    end = next(n for n in range(at + 1, len(lines)) if not lines[n].startswith(" "))
    return fenced("\n".join(lines[at:end]) + "\n")


def some_tables(asked, numbers):
    """Those tables, or all."""
    texts, _ = worked.described_tables(asked)
    for number in numbers:
        if not number.isdecimal() or int(number) >= len(texts):
            raise Wrong(f"the run has no table {number}")
    return "\n".join(texts[int(number)] for number in numbers) if numbers else "\n".join(texts)


def asked_of(name, options):
    """The folder, the fault, who moves rows."""
    fault, moving = "", ()
    for option in options:
        if re.fullmatch(r"(shuffle|turn) \S+", option):
            moving = tuple(option.split())
        else:
            fault = option
    return Asked(EXAMPLES / name, fault, moving)


def block(line):
    """What a block's first line asks for."""
    kind, rest = re.fullmatch(r"<!-- (\w+) ?(.*) -->", line).groups()
    if kind in ("definition", "clause", "file"):
        name, _, more = (part.strip() for part in rest.partition(":"))
        made = {"definition": definition, "clause": clause}
        return made[kind](ROOT / name, more) if more else fenced("\n".join(lines_of(ROOT / name)))
    what, *options = (part.strip() for part in rest.split(";"))
    name, _, numbers = (part.strip() for part in what.partition(":"))
    asked = asked_of(name, options)
    match kind:
        case "query":
            return fenced(worked.text_of(query.read(worked.given(asked.folder)[0])) + "\n")
        case "xml":
            return fenced(described.xml_of(catalogue.read(worked.given(asked.folder)[1])), "xml")
        case "rows":
            return described.rows_of(catalogue.read(worked.given(asked.folder)[1]))
        case "tables":
            return some_tables(asked, numbers.split())
        case "prints":
            return fenced(worked.prints(asked))
        case "read":
            return fenced(worked.both_ends(asked))
        case "reach":
            return reach.in_markdown()


def filled(page):
    """The page with its blocks made again."""
    def made(found):
        try:
            return f"{found[1]}\n\n{block(found[1])}\n<!-- end -->"
        except Wrong as wrong:
            raise Wrong(f"{found[1]}: {wrong}") from None
        except Refused as refused:
            raise Wrong(f"{found[1]}: refused {refused.number} at {refused.place}") from None
    return re.sub(rf"(<!-- (?:{KINDS})(?: [^\n]*?)? -->)\n.*?<!-- end -->", made, page, flags=re.S)
