"""A second reader of sheets: Python's own XML parser, a pattern for the profile, and completions for the place.

Document 02: L9. A text is in the profile if the pattern takes its tags and numbers and the XML parser finds the tags
well nested; the parser gives the rows. The place of refusal 11 is the length of the longest beginning of the text that
some text of the profile goes on from: each beginning is tried with every way to complete it.
"""

import re
from xml.parsers import expat

from catalogue import ELEMENT, LAST_LEVEL, LAST_NAME, ROW, TEXT
from cells import GREATEST_INTEGER, LEAST_INTEGER, Refused
from some_catalogues import sized, written

NAME = rb"(?:0|[1-9][0-9]*)"
NUMBER = rb"(?:0|-?[1-9][0-9]*)"
# A number stands between two tags.
PROFILE = re.compile(rb"(?:<n%b/?>|</n%b>|(?<=>)%b(?=<))*" % (NAME, NAME, NUMBER))
WHOLE_TAG = re.compile(rb"<(/?)n([0-9]+)(/?)>")


class Shape:
    """Level, kind and prop of each row, as the XML parser meets them, below one element around the whole text."""

    def __init__(self):
        self.level = -1
        self.rows = []

    def start(self, name, attributes):
        if self.level >= 0:
            self.rows.append((self.level, ELEMENT, int(name[1:])))
        self.level += 1

    def end(self, name):
        self.level -= 1

    def number(self, digits):
        self.rows.append((self.level, TEXT, int(digits)))


def parsed(text):
    """The shape of the text's rows, or None where it is not well nested."""
    shape = Shape()
    parser = expat.ParserCreate()
    parser.buffer_text = True
    parser.StartElementHandler, parser.EndElementHandler = shape.start, shape.end
    parser.CharacterDataHandler = shape.number
    try:
        parser.Parse(b"<all>" + text + b"</all>", True)
    except (expat.ExpatError, ValueError):
        return None
    return shape.rows


def in_range(level, kind, prop):
    """'a number outside the integer range or a row past level 63'; no text stands at the top."""
    if kind == ELEMENT:
        return level <= LAST_LEVEL and prop <= LAST_NAME
    return 1 <= level <= LAST_LEVEL and LEAST_INTEGER <= prop <= GREATEST_INTEGER


def member(text):
    """The shape of the text's rows, or None for a text outside the profile."""
    shape = parsed(text) if PROFILE.fullmatch(text) else None
    return shape if shape is not None and all(in_range(*row) for row in shape) else None


def end_tags(beginning):
    """The end tags of what its whole tags leave open, the innermost first."""
    opened = []
    for is_end, name, is_hollow in WHOLE_TAG.findall(beginning):
        if is_end:
            opened = opened[:-1]
        elif not is_hollow:
            opened.append(b"</n" + name + b">")
    return opened[::-1]


def completions(beginning):
    """Ways to go on: the rest of a tag or number under way, then the end tags of what is open."""
    tags = end_tags(beginning)
    for rest in (b"", b"n0/>", b"0/>", b"/>", b">", b"1"):
        yield rest + b"".join(tags)
    for cut in range(1, len(tags[0]) if tags else 0):
        yield tags[0][cut:] + b"".join(tags[1:])


def begins(beginning):
    """Whether some text of the profile begins so."""
    return any(member(beginning + rest) is not None for rest in completions(beginning))


def longest_beginning(text):
    """The length of the longest; what begins a text of the profile has beginnings that do."""
    least, most = 0, len(text)
    while least < most:
        middle = (least + most + 1) // 2
        if begins(text[:middle]):
            least = middle
        else:
            most = middle - 1
    return least


def rows_of(text):
    """The bytes of the rows that the text is read as, as far as row 2,048; or refusal 11."""
    shape = member(text)
    if shape is None:
        raise Refused(11, longest_beginning(text))
    if ROW.size * len(shape) > 20480:
        raise Refused(4, 20480)
    return written(sized(shape))


def without_spelled_out(text):
    """The standard spelling: every `<n7></n7>` as `<n7/>`."""
    return re.sub(rb"<n([0-9]+)></n\1>", rb"<n\1/>", text)
