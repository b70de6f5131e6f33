"""Faults of the readers and writers of typed queries and sheets.

Document 02: L1, L8 and L9.
"""

import catalogue
import query
import sheets
import typed
from cells import Refused
from faults import fault, wrong

# Typed queries read: numbers, names, words and spaces.

READ = "read_text"

wrong("2147483648 read", READ, typed, "GREATEST", 2147483648)
wrong("2147483647 refused", READ, typed, "GREATEST", 2147483646)
wrong("-2147483649 read", READ, typed, "GREATEST_BELOW_0", 2147483649)
wrong("-2147483648 refused", READ, typed, "GREATEST_BELOW_0", 2147483647)
wrong("root(256) read", READ, typed, "LAST_FRAGMENT", 256)
wrong("root(255) refused", READ, typed, "LAST_FRAGMENT", 254)
wrong("n65536 read", READ, typed, "LAST_NAME", 65536)
wrong("n65535 refused", READ, typed, "LAST_NAME", 65534)
wrong("$i read", READ, typed, "VARIABLES", b"abcdefghi")
wrong("$h refused", READ, typed, "VARIABLES", b"abcdefg")
wrong("a tab is no space", READ, typed, "SPACES", b" \n\r")
wrong("a line break is no space", READ, typed, "SPACES", b" \t\r")
wrong("a carriage return is no space", READ, typed, "SPACES", b" \t\n")
wrong("a form feed is a space", READ, typed, "SPACES", b" \t\n\r\f")
wrong("no space needed between words", READ, typed, "joins", lambda before, first: False)


def replaced(refusing, place):
    """The same function, refusing at another place: `place` is given the right one and all else that was given."""
    def instead(*given):
        try:
            return refusing(*given)
        except Refused as refused:
            raise Refused(refused.number, place(refused.place, *given)) from None
    return instead


def end_of_letters(at, text):
    """Where a word would end that was cut out first and looked up then."""
    while at < len(text) and text[at] in typed.LETTERS:
        at += 1
    return at


wrong("the place is the number's first digit", READ, typed, "numeral",
      replaced(typed.numeral, lambda place, text, at, most: at))
wrong("the place is past the digit that leaves the range", READ, typed, "numeral",
      replaced(typed.numeral, lambda place, text, at, most: place + 1))
wrong("the place is the word's first byte", READ, typed, "fixed",
      replaced(typed.fixed, lambda place, text, at, words: at))
wrong("the place is past the byte that no word has", READ, typed, "fixed",
      replaced(typed.fixed, lambda place, text, at, words: place + 1))
wrong("the place is the word's end", READ, typed, "fixed",
      replaced(typed.fixed, lambda place, text, at, words: end_of_letters(place, text)))
wrong("a text that ends too early is refused at 0", READ, typed, "records_of",
      replaced(typed.records_of, lambda place, text: 0 if place == len(text) else place))
wrong("spaces at the end are not in the place", READ, typed, "records_of",
      replaced(typed.records_of, lambda place, text: len(text.rstrip(b" ")) if place == len(text) else place))


def kind(name, reads):
    """A kind of word that begins as it should and is read otherwise."""
    return typed.KINDS[name][0], reads


def no_leading_zero(text, at):
    if text[at] == ord("0") and typed.has_digit(text, at + 1):
        raise Refused(9, at + 1)
    return typed.integer(text, at)


def no_minus_zero(text, at):
    value, end = typed.negative(text, at)
    if value == 0:
        raise Refused(9, end)
    return value, end


def spaced_sign(text, at):
    at += 1
    while at < len(text) and text[at] in typed.SPACES:
        at += 1
    return typed.negative(text, at - 1)


wrong("leading zeros refused in integers", READ, typed.KINDS, "Integer", kind("Integer", no_leading_zero))
wrong("a minus zero refused", READ, typed.KINDS, "Negative", kind("Negative", no_minus_zero))
wrong("a space after the sign", READ, typed.KINDS, "Negative", kind("Negative", spaced_sign))
wrong("root(0) read", READ, typed.KINDS, "Fragment",
      kind("Fragment", lambda text, at: typed.numeral(text, at, typed.LAST_FRAGMENT)))
wrong("root(0) refused at the 0", READ, typed.KINDS, "Fragment",
      kind("Fragment", replaced(typed.fragment, lambda place, text, at: place - (not typed.has_digit(text, place)))))
wrong("n01 read", READ, typed.KINDS, "Name",
      kind("Name", lambda text, at: typed.numeral(text, at + 1, typed.LAST_NAME)))
wrong("a plus sign read", READ, typed.KINDS, "Integer", (
    lambda text, at: typed.has_digit(text, at) or text[at] == ord("+"),
    lambda text, at: typed.integer(text, at + (text[at] == ord("+")))))


def between(first, second):
    """Two words would join, but not where the one ends with one of these bytes and the other begins with one of those."""
    def joins(before, byte, joins=typed.joins):
        return joins(before, byte) and not (before.last in first and byte in second)
    return joins


wrong("$a-1 read", READ, typed, "joins", between(typed.LETTERS, b"-"))
wrong("n2-1 read", READ, typed, "joins", between(typed.DIGITS, b"-"))
wrong("7idiv read", READ, typed, "joins", between(typed.DIGITS, typed.LETTERS))
wrong("idiv2 read", READ, typed, "joins", between(typed.LETTERS, typed.DIGITS))


@fault("return-1 refused", READ, typed, "joins")
def minus_joins_keywords(before, first, joins=typed.joins):
    return joins(before, first) or before is not None and before.last in typed.LETTERS and first == ord("-")


# Typed queries read: what may come, and what it is read as.

wrong("the 33rd grouping parenthesis read", READ, typed, "MOST_GROUPS", 33)
wrong("the 32nd grouping parenthesis refused", READ, typed, "MOST_GROUPS", 31)
wrong("count(1,2) read", READ, typed.ENDS, "call", (",", ")"))
wrong("a condition without commas", READ, typed.ENDS, "condition", (")",))
wrong("a comma in what for binds", READ, typed.ENDS, "bound", (",", "return"))
wrong("a comma before else", READ, typed.ENDS, "then", (",", "else"))
wrong("for as an operand of +", READ, typed, "PRIMARIES", (*typed.PRIMARIES, "for"))
wrong("idiv not after an operand", READ, typed, "ALWAYS_AFTER", ("/", "*", "+", "-"))
wrong("* as loose as +", READ, typed.TIGHTNESS, "*", 2)
wrong("- tighter than +", READ, typed.TIGHTNESS, "-", 3)
wrong("lt as tight as +", READ, typed.TIGHTNESS, "lt", 2)
wrong("- read as +", READ, typed.FUNCTIONS, "-", 1)
wrong("lt read as eq", READ, typed.FUNCTIONS, "lt", 5)
wrong("following read as preceding", READ, typed.AXES, "following", 8)
wrong("descendant-or-self read as descendant", READ, typed.AXES, "descendant-or-self", 2)
wrong("data read as count", READ, typed.CALLS, "data", b"QC")
wrong("let read as for", READ, typed.BINDINGS, "let", (b"QF", ":="))
wrong("operands in the wrong order", READ, typed, "operation",
      lambda word, a, b, operation=typed.operation: operation(word, b, a))


@fault("an operator's record before its second operand", READ, typed, "operation")
def inserted_too_far(word, a, b, operation=typed.operation):
    own = operation(word, a, b).record
    return typed.Part(b"", word.at, (a, typed.Part(own, word.at, (b,))))


@fault("a step's record after its operand", READ, typed.Reader, "step")
def appended(reader, part, word, step=typed.Reader.step):
    return typed.Part(b"", word.at, (part, step(reader, part, word)._replace(operands=())))


def right_grouping(of):
    """Among operators of this tightness the right one goes first."""
    def goes_first(word, tightness):
        return typed.TIGHTNESS[word.kind] + (0 if tightness == of else 1) > tightness
    return goes_first


for its_word, its_tightness in ((",", 0), ("+ and -", 2), ("* and idiv", 3)):
    wrong(f"{its_word} grouped to the right", READ, typed, "goes_first", right_grouping(its_tightness))


@fault("eq and lt taken twice", READ, typed.Reader, "after")
def compared_again(reader):
    return (*typed.ALWAYS_AFTER, *typed.COMPARERS, *reader.opened[-1].ends)


@fault("eq not read before else", READ, typed.Reader, "after")
def else_alone(reader, after=typed.Reader.after):
    ends = reader.opened[-1].ends
    return tuple(word for word in after(reader) if "else" not in ends or word != "eq")


@fault("() counted as grouping", READ, typed.Reader, "start")
def empty_is_a_group(reader, start=typed.Reader.start):
    full = reader.groups >= typed.MOST_GROUPS
    return tuple(word for word in start(reader) if not full or word != "(")


@fault("count( counted as grouping", READ, typed.Reader, "open")
def calls_are_groups(reader, kind, *rest, open=typed.Reader.open, **more):
    if kind == "call":
        reader.groups += 1
    return open(reader, kind, *rest, **more)


@fault("depth 33 before 9", READ, typed.Reader, "open")
def depth_first(reader, *rest, open=typed.Reader.open, **more):
    if sum(bool(one.record) for one in reader.opened) > 31:
        raise Refused(2, 64)
    return open(reader, *rest, **more)


@fault("an unbound variable before 9", READ, typed, "records_of")
def unbound_first(text, records_of=typed.records_of):
    for end in range(len(text), 0, -1):
        try:
            typed.query.read(records_of(text[:end]))
        except Refused as refused:
            if refused.number == 3:
                raise
        else:
            break
    return records_of(text)


@fault("8 before 2 and 3", READ, typed, "checked")
def room_first(query_bytes, lent):
    typed.check_fits(len(query_bytes), lent)
    return query.read_counted(query_bytes)[1]


@fault("2 and 3 at the place in the text", READ, typed, "read_text")
def place_in_text(text, lent, read_text=typed.read_text):
    answer = read_text(text, lent)
    return answer._replace(place=typed.place_in_text(text, answer.place)) if answer.refusal in (2, 3) else answer


for its_call in ("read_text", "write_text"):
    wrong(f"{its_call}: as many bytes as are lent refused", its_call, typed, "check_fits",
          lambda length, lent, check_fits=typed.check_fits: check_fits(length + 1, lent))
    wrong(f"{its_call}: a byte more than is lent", its_call, typed, "check_fits",
          lambda length, lent, check_fits=typed.check_fits: check_fits(length - 1, lent))
    wrong(f"{its_call}: what was lent is not cleared after it", its_call, typed, "followed_by_zeros",
          lambda written, lent: [*written] + [9] * (lent - len(written)))
    wrong(f"{its_call}: a refusal leaves what was lent", its_call, typed, "emptied", lambda lent: [9] * lent)


# Typed queries written.

WRITE = "write_text"

for its_word, levels in (("*", (typed.MULTIPLICATIVE, typed.ADDITIVE, typed.PATH)),
                         ("*", (typed.MULTIPLICATIVE, typed.MULTIPLICATIVE, typed.MULTIPLICATIVE)),
                         ("-", (typed.ADDITIVE, typed.ADDITIVE, typed.ADDITIVE)),
                         ("+", (typed.ADDITIVE, typed.COMPARISON, typed.MULTIPLICATIVE)),
                         ("eq", (typed.COMPARISON, typed.COMPARISON, typed.ADDITIVE)),
                         ("lt", (typed.COMPARISON, typed.ADDITIVE, typed.COMPARISON)),
                         ("idiv", (typed.PRIMARY, typed.MULTIPLICATIVE, typed.PATH))):
    wrong(f"parentheses of {its_word} at levels {levels}", WRITE, typed.OF_FUNCTION, its_word, levels)

wrong("no parentheses at all", WRITE, typed, "text_of", lambda expression, level=0: typed.spelled(expression)[1])
wrong("element() written for *", WRITE, typed, "step",
      lambda axis, test, name, step=typed.step: step(axis, test, name).replace("::*", "::element()"))
wrong("the name left out", WRITE, typed, "step", lambda axis, test, name, step=typed.step: step(axis, test, 0))
wrong("$b written for every variable", WRITE, typed, "dollar", lambda v: "$b")
wrong("+ written for -", WRITE, typed.SPELLED, 2, "+")


@fault("a sequence as second operand without parentheses", WRITE, typed, "spelled")
def sequence_in_sequence(expression, spelled=typed.spelled):
    if expression.mark == b"QS":
        return typed.EXPR, ", ".join(typed.text_of(operand, typed.EXPR) for operand in expression.operands)
    return spelled(expression)


@fault("a sequence counted without parentheses", WRITE, typed, "spelled")
def sequence_in_count(expression, spelled=typed.spelled):
    if expression.mark == b"QC":
        return typed.PRIMARY, f"count({typed.text_of(expression.operands[0], typed.EXPR)})"
    return spelled(expression)


@fault("a step's operand without parentheses", WRITE, typed, "spelled")
def loose_operand(expression, spelled=typed.spelled):
    if expression.mark == b"QX":
        a = typed.text_of(expression.operands[0], typed.MULTIPLICATIVE)
        return typed.PATH, f"{a}/{typed.step(*expression.fields)}"
    return spelled(expression)


@fault("8 before 3", WRITE, typed, "write_text")
def no_room_first(query_bytes, lent, write_text=typed.write_text):
    return typed.Written(8, 0, 0, bytes(lent)) if not lent else write_text(query_bytes, lent)


# Sheets read.

SHEETS = "read_sheets"

wrong("level 64 read", SHEETS, sheets, "LAST_LEVEL", 64)
wrong("level 63 refused", SHEETS, sheets, "LAST_LEVEL", 62)
wrong("name 65536 read", SHEETS, sheets, "LAST_NAME", 65536)
wrong("name 65535 refused", SHEETS, sheets, "LAST_NAME", 65534)
wrong("the number 2147483648 read", SHEETS, sheets, "GREATEST_INTEGER", 2147483648)
wrong("the number 2147483647 refused", SHEETS, sheets, "GREATEST_INTEGER", 2147483646)
wrong("the number -2147483649 read", SHEETS, sheets, "LEAST_INTEGER", -2147483649)
wrong("the number -2147483648 refused", SHEETS, sheets, "LEAST_INTEGER", -2147483647)
wrong("row 2,048 read", SHEETS, sheets, "MOST_ROWS", 2049)
wrong("row 2,047 refused", SHEETS, sheets, "MOST_ROWS", 2047)
wrong("leading zeros read", SHEETS, sheets.Reader, "leads", lambda reader, first: False)
wrong("spaces and line breaks passed over", SHEETS, sheets, "rows_of",
      lambda text, rows_of=sheets.rows_of: rows_of(text.translate(None, b" \n")))
wrong("a line break at the end passed over", SHEETS, sheets, "rows_of",
      lambda text, rows_of=sheets.rows_of: rows_of(text.removesuffix(b"\n")))
wrong("11 at the tag's start", SHEETS, sheets, "rows_of",
      replaced(sheets.rows_of, lambda place, text: max(text.rfind(b"<", 0, place), 0)))
wrong("11 a byte too far", SHEETS, sheets, "rows_of", replaced(sheets.rows_of, lambda place, text: place + 1))
wrong("11 at 0 where the text ends too early", SHEETS, sheets, "rows_of",
      replaced(sheets.rows_of, lambda place, text: 0 if place == len(text) else place))


@fault("a size one too many", SHEETS, sheets.Reader, "end_tag")
def one_too_many(reader, end_tag=sheets.Reader.end_tag):
    row = reader.rows[reader.opened[-1]]
    end_tag(reader)
    row.size += 1


@fault("the end tag's name not compared", SHEETS, sheets.Reader, "end_tag")
def any_end_tag(reader):
    reader.pass_over(b"/n")
    reader.numeral(sheets.LAST_NAME)
    reader.pass_over(b">")
    rank = reader.opened.pop()
    reader.rows[rank].size = len(reader.rows) - 1 - rank


@fault("the end tag's name compared as a whole", SHEETS, sheets.Reader, "end_tag")
def whole_end_tag(reader, end_tag=sheets.Reader.end_tag):
    at = reader.at
    try:
        end_tag(reader)
    except Refused:
        raise Refused(11, at) from None


@fault("a number's minus zero read", SHEETS, sheets.Reader, "number")
def minus_zero(reader):
    if reader.here() != ord("-"):
        return reader.numeral(sheets.GREATEST_INTEGER)
    reader.at += 1
    return -reader.numeral(-sheets.LEAST_INTEGER)


@fault("two numbers side by side read", SHEETS, sheets.Reader, "may_hold_rows")
def side_by_side(reader, may_hold_rows=sheets.Reader.may_hold_rows):
    reader.beside_number = False
    return may_hold_rows(reader)


@fault("<n7></n7> refused", SHEETS, sheets.Reader, "end_tag")
def never_empty(reader, end_tag=sheets.Reader.end_tag):
    if reader.opened[-1] == len(reader.rows) - 1:
        reader.outside()
    end_tag(reader)


@fault("a second root refused", SHEETS, sheets.Reader, "start_tag")
def one_root(reader, start_tag=sheets.Reader.start_tag):
    if reader.rows and not reader.opened:
        reader.outside()
    start_tag(reader)


@fault("no text refused", SHEETS, sheets, "rows_of")
def some_root(text, rows_of=sheets.rows_of):
    if not text:
        raise Refused(11, 0)
    return rows_of(text)


@fault("4 before 11", SHEETS, sheets.Reader, "add")
def rows_first(reader, *row, add=sheets.Reader.add):
    if len(reader.rows) == sheets.MOST_ROWS:
        raise Refused(4, 20480)
    add(reader, *row)


@fault("8 before 4", SHEETS, sheets, "checked")
def sheets_room_first(rows, lent):
    sheets.check_fits(10 * len(rows), lent)
    sheets.check_rows(rows)


for its_call in ("read_sheets", "write_sheets"):
    wrong(f"{its_call}: as many bytes as are lent refused", its_call, sheets, "check_fits",
          lambda length, lent, check_fits=sheets.check_fits: check_fits(length + 1, lent))
    wrong(f"{its_call}: a byte more than is lent", its_call, sheets, "check_fits",
          lambda length, lent, check_fits=sheets.check_fits: check_fits(length - 1, lent))
    wrong(f"{its_call}: what was lent is not cleared after it", its_call, sheets, "followed_by_zeros",
          lambda written, lent: [*written] + [9] * (lent - len(written)))
    wrong(f"{its_call}: a refusal leaves what was lent", its_call, sheets, "emptied", lambda lent: [9] * lent)


# Sheets written.

WRITTEN = "write_sheets"

wrong("<n7></n7> written for <n7/>", WRITTEN, sheets, "start_of",
      lambda row: f"<n{row.prop}>" if row.size else f"<n{row.prop}></n{row.prop}>")
wrong("texts side by side written", WRITTEN, sheets, "check_apart", lambda rows: None)
wrong("L8 refuses a text beside an element", WRITTEN, sheets, "side_by_side",
      lambda before, row: before.level == row.level and catalogue.TEXT in (before.kind, row.kind))
wrong("L8 refuses texts of two levels", WRITTEN, sheets, "side_by_side",
      lambda before, row: before.kind == catalogue.TEXT == row.kind)
wrong("a line break after the last sheet", WRITTEN, sheets, "text_of",
      lambda rows, text_of=sheets.text_of: text_of(rows) + "\n" if rows else "")
wrong("the end tags of the last sheet left out", WRITTEN, sheets, "text_of",
      lambda rows, text_of=sheets.text_of: text_of(rows[:-1]) + text_of(rows[-1:]))


@fault("L8 at the first of the two texts", WRITTEN, sheets, "check_apart")
def at_the_first(rows, check_apart=sheets.check_apart):
    try:
        check_apart(rows)
    except Refused as refused:
        raise Refused(4, refused.place - 10) from None


@fault("L8 after the sizes", WRITTEN, sheets, "sound_and_apart")
def apart_last(doc):
    rows = catalogue.read(doc).rows
    sheets.check_apart(rows)
    return rows


@fault("L8 after all rows' own checks", WRITTEN, sheets, "sound_and_apart")
def apart_after_rows(doc):
    rows = catalogue.read_rows(doc)
    sheets.check_apart(rows)
    catalogue.check_sizes(rows)
    return rows
