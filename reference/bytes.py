"""From text to bytes and back, for a folder that chartask is to be run on.

    python3 reference/bytes.py FOLDER             query.xq to query.bin, catalogue.xml to doc.bin
    python3 reference/bytes.py --text FOLDER      query.bin to query.xq, doc.bin to catalogue.xml
    python3 reference/bytes.py --xquery FOLDER    prints query.xq over catalogue.xml as a program for other engines

query.xq is a typed query of document 02's L1, catalogue.xml sheets of L9: root elements one after another, none for
an empty catalogue. A line break at the end of catalogue.xml belongs to the file and not to the sheets. A file that is
not there is passed over.

A refusal is told with its number, its place and a line that shows it. Refused text gives no bytes; but a query that is
refused only for its records (2 or 3) is written, since chartask answers it the same way. The exit status is 0 if all
went well, 1 after a refusal, 2 if there was nothing to read or no way to read or write it.
"""

import pathlib
import re
import sys
from typing import NamedTuple

sys.dont_write_bytecode = True

import query
import sheets
import typed
from catalogue import ROW
from cells import Refused

# Many times what a sound query or catalogue needs; a longer file is not read.
MOST_BYTES = 200000
SHOWN = 76

WHY = {1: "bad mark, field, cut record, or bytes after the query", 2: "129th record, or depth 33",
       3: "variable not bound", 4: "catalogue row unsound, cut, beside another text, or row 2,048 present",
       9: "no query has this here", 11: "no sheet has this here"}


class Unreadable(Exception):
    """A file that cannot be read or written, and why."""


class Made(NamedTuple):
    """What became of a file: lines to tell, its new contents or None, whether it was refused."""
    told: str
    contents: bytes
    is_refused: bool


# Refusals, shown.

def why(refused, given):
    """The refusal in words."""
    if refused.number in (9, 11) and refused.place == len(given):
        return "it ends too early"
    if refused.number == 11 and given[refused.place] in b" \t\r\n":
        return "no space and no line break stands in a sheet"
    return WHY[refused.number]


def in_text(text, at):
    """The line of the text that has this byte, as much as is readable, and a caret below the byte."""
    if at == len(text):
        at = len(text.rstrip())
    first = text.rfind(b"\n", 0, at) + 1
    end = text.find(b"\n", at)
    line = text[first:end if end >= 0 else len(text)]
    left = max(0, at - first - SHOWN // 2)
    readable = "".join(chr(byte) if 32 <= byte < 127 else " " if byte in b"\t\r" else "?" for byte in line)
    return f"    {readable[left:left + SHOWN]}\n    {' ' * (at - first - left)}^"


def in_bytes(given, at):
    """The bytes around this one in hexadecimal, and a caret below it."""
    left = max(0, at - SHOWN // 6)
    return f"    {given[left:left + SHOWN // 3].hex(' ')}\n    {'   ' * (at - left)}^"


def refusal(name, refused, given, shown):
    """The line that tells it, and the two that show it."""
    return f"{name}: refused {refused.number} at {refused.place}: {why(refused, given)}\n{shown}"


# Each of the four ways. A file's contents go in, what became of them comes out.

def query_to_bytes(text):
    """query.xq to query.bin."""
    try:
        records = typed.records_of(text)
    except Refused as refused:
        return Made(refusal("query.xq", refused, text, in_text(text, refused.place)), None, True)
    try:
        number = query.read_counted(records)[1]
    except Refused as refused:
        shown = in_text(text, typed.place_in_text(text, refused.place))
        return Made(refusal("query.xq", refused, text, shown), records, True)
    return Made(f"query.bin: records {number}, bytes {len(records)}", records, False)


def without_last_break(text):
    """Editors end a file with a line break."""
    return re.sub(rb"\r?\n\Z", b"", text)


def sheets_to_bytes(contents):
    """catalogue.xml to doc.bin."""
    text = without_last_break(contents)
    try:
        rows = sheets.rows_of(text)
        sheets.check_rows(rows)
    except Refused as refused:
        at = sheets.place_in_text(text, refused.place) if refused.number == 4 else refused.place
        return Made(refusal("catalogue.xml", refused, text, in_text(text, at)), None, True)
    doc = b"".join(ROW.pack(*row) for row in rows)
    return Made(f"doc.bin: rows {len(rows)}, bytes {len(doc)}", doc, False)


def query_to_text(query_bytes):
    """query.bin to query.xq."""
    try:
        text = typed.text_of(query.read(query_bytes)).encode() + b"\n"
    except Refused as refused:
        return Made(refusal("query.bin", refused, query_bytes, in_bytes(query_bytes, refused.place)), None, True)
    return Made(f"query.xq: bytes {len(text)}", text, False)


def sheets_to_text(doc):
    """doc.bin to catalogue.xml."""
    try:
        text = sheets.text_of(sheets.sound_and_apart(doc)).encode()
    except Refused as refused:
        return Made(refusal("doc.bin", refused, doc, in_bytes(doc, refused.place)), None, True)
    return Made(f"catalogue.xml: bytes {len(text)}", text, False)


TO_BYTES = (("query.xq", "query.bin", query_to_bytes), ("catalogue.xml", "doc.bin", sheets_to_bytes))
TO_TEXT = (("query.bin", "query.xq", query_to_text), ("doc.bin", "catalogue.xml", sheets_to_text))


# Folders.

def contents_of(path):
    """The file's bytes, or None if it is not there."""
    try:
        with open(path, "rb") as file:
            contents = file.read(MOST_BYTES + 1)
    except FileNotFoundError:
        return None
    except OSError as error:
        raise Unreadable(f"{path} cannot be read: {error.strerror}") from error
    if len(contents) > MOST_BYTES:
        raise Unreadable(f"{path} is longer than {MOST_BYTES} bytes and is not read")
    return contents


def write(path, contents):
    try:
        path.write_bytes(contents)
    except OSError as error:
        raise Unreadable(f"{path} cannot be written: {error.strerror}") from error


def fate_of(target, made):
    """What a refusal leaves in the other file, on a line of its own."""
    if not made.is_refused:
        return ""
    if made.contents is not None:
        return f"\n{target.name} is written; chartask refuses it the same way"
    return f"\n{target.name} stays as it was" if target.exists() else ""


def convert(folder, ways):
    """Makes the files of the folder; gives what became of each that was there."""
    made = []
    for source, target, way in ways:
        contents = contents_of(folder / source)
        if contents is None:
            continue
        one = way(contents)
        if one.contents is not None:
            write(folder / target, one.contents)
        made.append(one._replace(told=one.told + fate_of(folder / target, one)))
    if not made:
        raise Unreadable(f"there is neither {ways[0][0]} nor {ways[1][0]} in {folder}")
    return made


# Other engines.

ROOT = ("declare function local:root($k as xs:integer) { "
        "if ($k le count($roots)) then $roots[$k] else error() };")
DATA = ("declare function local:data($items) { for $x in $items return if ($x instance of text()) "
        "then xs:integer(data($x)) else if ($x instance of node()) then error() else $x };")


def fragments_of(text):
    """Each root element of the sheets by itself."""
    begun = [row.at for row in sheets.Reader(text).whole() if row.level == 0]
    return [text[first:end].decode() for first, end in zip(begun, begun[1:] + [len(text)])]


def in_xquery(text):
    """A typed query for other engines: `root` is not XQuery's, and a text's value would be no integer there."""
    return re.sub(r"\b(root|data)\b", r"local:\1", text.decode().strip())


def to_program(folder):
    """The query over the sheets. A sheet is an element constructor: a tree of its own, as a fragment is."""
    text = contents_of(folder / "query.xq")
    if text is None:
        raise Unreadable(f"there is no query.xq in {folder}")
    xml = without_last_break(contents_of(folder / "catalogue.xml") or b"")
    for made in (query_to_bytes(text), sheets_to_bytes(xml)):
        if made.is_refused:
            return made
    roots = f"declare variable $roots := ({', '.join(fragments_of(xml))});"
    return Made("\n".join((roots, ROOT, DATA, in_xquery(text))), None, False)


def ways_of(arguments):
    """The folder, and what is to be made of it."""
    ways = {"": lambda folder: convert(folder, TO_BYTES), "--text": lambda folder: convert(folder, TO_TEXT),
            "--xquery": lambda folder: [to_program(folder)]}
    option, folder = arguments if len(arguments) == 2 else ("", *arguments[:1], "")[:2]
    if option in ways and folder and not folder.startswith("-") and len(arguments) <= 2:
        return pathlib.Path(folder), ways[option]
    return None


def main(arguments):
    """The exit status."""
    asked = ways_of(arguments)
    if asked is None:
        print(__doc__, file=sys.stderr)
        return 2
    folder, way = asked
    try:
        if not folder.is_dir():
            raise Unreadable(f"there is no folder {folder}")
        made = way(folder)
    except Unreadable as error:
        print(f"bytes.py: {error}", file=sys.stderr)
        return 2
    for one in made:
        print(one.told, file=sys.stderr if one.is_refused else sys.stdout)
    return 1 if any(one.is_refused for one in made) else 0


if __name__ == "__main__":
    sys.exit(main(sys.argv[1:]))
