"""Faults of the readers: bounds off by one, checks left out, refusals in the wrong order.

Document 01: 'Catalogue rows', 'Query records', 'Plan operators', 'The eight refusals'.
"""

import catalogue
import cells
import evaluator
import plan
import query
import runner
import translator
from cells import FALSE, Refused
from faults import fault, wrong

# The catalogue check.

wrong("2,049 rows accepted", "check_catalogue", catalogue, "MOST_ROWS", 2049)
wrong("2,048 rows refused", "check_catalogue", catalogue, "MOST_ROWS", 2047)
wrong("level 64 accepted", "check_catalogue", catalogue, "LAST_LEVEL", 64)
wrong("level 63 refused", "check_catalogue", catalogue, "LAST_LEVEL", 62)
wrong("name 65536 accepted", "check_catalogue", catalogue, "LAST_NAME", 65536)
wrong("name 65535 refused", "check_catalogue", catalogue, "LAST_NAME", 65534)


@fault("a level may rise by 2", "check_catalogue", catalogue, "level_follows")
def rising_by_two(level, before):
    return level <= (before[-1].level + 2 if before else 0) and level <= catalogue.LAST_LEVEL


@fault("row 0 may have level 1", "check_catalogue", catalogue, "level_follows")
def first_level_one(level, before):
    return level <= (before[-1].level if before else 0) + 1 and level <= catalogue.LAST_LEVEL


@fault("a text at level 0 accepted", "check_catalogue", catalogue, "sound_text")
def text_as_root(row):
    return row.kind == catalogue.TEXT and row.size == 0


@fault("a text's size left to the last check", "check_catalogue", catalogue, "sound_text")
def text_with_size(row):
    return row.kind == catalogue.TEXT and row.level >= 1


@fault("a text's number held to the range of names", "check_catalogue", catalogue, "sound_text")
def text_as_name(row):
    return row.kind == catalogue.TEXT and row.size == 0 and row.level >= 1 and 0 <= row.prop <= catalogue.LAST_NAME


@fault("sizes checked before the rows' own checks", "check_catalogue", catalogue, "read_rows")
def sizes_first(doc, read_rows=catalogue.read_rows):
    whole = len(doc) // catalogue.ROW.size
    catalogue.check_sizes([catalogue.row_at(doc, catalogue.ROW.size * rank) for rank in range(whole)])
    return read_rows(doc)


@fault("a size may overestimate", "check_catalogue", catalogue, "check_sizes")
def size_at_least(rows):
    for at, row in enumerate(rows):
        if row.size < catalogue.deeper_rows_after(rows, at):
            raise Refused(4, 10 * at)


@fault("the last wrong size reported", "check_catalogue", catalogue, "check_sizes")
def last_size_first(rows):
    for at in reversed(range(len(rows))):
        if rows[at].size != catalogue.deeper_rows_after(rows, at):
            raise Refused(4, 10 * at)


@fault("4 is at the row's number", "check_catalogue", catalogue, "check_catalogue")
def row_for_offset(doc, check_catalogue=catalogue.check_catalogue):
    answer = check_catalogue(doc)
    return answer._replace(place=answer.place // 10)


@fault("a cut last row passed over", "check_catalogue", catalogue, "read_rows")
def whole_rows_only(doc, read_rows=catalogue.read_rows):
    return read_rows(doc[:len(doc) // 10 * 10])


# The query check.

wrong("129 records accepted", "check_query", query, "MOST_RECORDS", 129)
wrong("128 records refused", "check_query", query, "MOST_RECORDS", 127)
wrong("depth 33 accepted", "check_query", query, "DEEPEST", 33)
wrong("depth 32 refused", "check_query", query, "DEEPEST", 31)
wrong("variable 8 accepted", "check_query", query, "LAST_VARIABLE", 8)
wrong("variable 7 refused", "check_query", query, "LAST_VARIABLE", 6)
wrong("k 0 accepted", "check_query", query, "FIRST_FRAGMENT", 0)
wrong("k 1 refused", "check_query", query, "FIRST_FRAGMENT", 2)
wrong("k 255 refused", "check_query", query, "LAST_FRAGMENT", 254)
wrong("function 7 accepted", "check_query", query, "sound_function", lambda f: 1 <= f <= 7)
wrong("function 6 refused", "check_query", query, "sound_function", lambda f: 1 <= f <= 5)
wrong("a name under tests 0 to 2", "check_query", query, "sound_step",
      lambda axis, test, name: 1 <= axis <= 8 and test <= 3)
wrong("axis 9 accepted", "check_query", query, "sound_step",
      lambda axis, test, name: 1 <= axis <= 9 and test <= 3 and (test == 3 or name == 0))
wrong("axis 0 accepted", "check_query", query, "sound_step",
      lambda axis, test, name: axis <= 8 and test <= 3 and (test == 3 or name == 0))
wrong("test 4 accepted", "check_query", query, "sound_step",
      lambda axis, test, name: 1 <= axis <= 8 and test <= 4 and (test >= 3 or name == 0))
wrong("3 before 2", "check_query", query, "IN_ONE_RECORD",
      (query.is_unsound, query.is_unbound, query.is_past_a_bound))
wrong("2 before 1", "check_query", query, "IN_ONE_RECORD",
      (query.is_past_a_bound, query.is_unsound, query.is_unbound))
wrong("bytes after the query accepted", "check_query", query, "nothing_after", lambda query_bytes, end: None)


@fault("bytes after 128 records refused as a 129th", "check_query", query, "read_counted")
def a_record_more(query_bytes):
    reader = query.Reader(query_bytes)
    expression = reader.expression(1, frozenset())
    if reader.at < len(query_bytes):
        raise Refused(2 if reader.records == 128 else 1, reader.at)
    return expression, reader.records


@fault("a missing operand is at the record that lacks it", "check_query", query.Reader, "expression")
def at_the_record_before(reader, depth, bound, expression=query.Reader.expression):
    here = reader.at
    try:
        return expression(reader, depth, bound)
    except Refused as refused:
        if refused.place == len(reader.query):
            refused.place = here
        raise


@fault("v visible in a", "check_query", query, "scopes")
def visible_in_a(record, bound):
    inner = bound | {record.fields[0]} if record.mark in (b"QT", b"QF") else bound
    return [inner] * query.OPERANDS[record.mark]


@fault("only the inner variable visible", "check_query", query, "scopes")
def outer_forgotten(record, bound):
    if record.mark in (b"QT", b"QF"):
        return [bound, frozenset({record.fields[0]})]
    return [bound] * query.OPERANDS[record.mark]


# The plan check.

wrong("513 operators accepted", "run", plan, "MOST_OPERATORS", 513)
wrong("512 operators refused", "run", plan, "MOST_OPERATORS", 511)
wrong("width 7 accepted", "run", plan, "within", lambda width: width)
wrong("0 columns accepted", "run", plan, "sound_number_of_columns", lambda n: n <= 6)
wrong("7 columns accepted", "run", plan, "sound_number_of_columns", lambda n: 1 <= n <= 7)
wrong("6 columns refused", "run", plan, "sound_number_of_columns", lambda n: 1 <= n <= 5)
wrong("width 6 refused", "run", plan, "MOST_COLUMNS", 5)
wrong("0 keys accepted", "run", plan, "sound_number_of_keys", lambda k: k <= 2)
wrong("3 keys accepted", "run", plan, "sound_number_of_keys", lambda k: 1 <= k <= 3)
wrong("2 keys refused", "run", plan, "sound_number_of_keys", lambda k: k == 1)
wrong("a column one past the last accepted", "run", plan, "column", lambda c, width: plan.demand(c <= width))
wrong("the last column refused", "run", plan, "column", lambda c, width: plan.demand(c < width - 1 or c == 0))
wrong("any cell attached", "run", plan, "attachable", lambda cell: True)
wrong("a boolean not attached", "run", plan, "attachable", cells.is_integer)
wrong("a node attached", "run", plan, "attachable", lambda cell: cells.is_integer(cell) or cell >= FALSE)
wrong("p 255 refused", "run", plan, "NO_COLUMN", 256)
wrong("the step's name under tests 0 to 2 in a plan", "run", plan, "sound_step",
      lambda axis, test, name: 1 <= axis <= 8 and test <= 3)
wrong("RO 0 accepted", "run", plan, "sound_fragment", lambda k: k <= 255)


@fault("the last width not checked", "run", plan, "check_end")
def any_last_width(its_operators, widths):
    if not its_operators:
        raise Refused(5, 0)


@fault("the last width's place is 0", "run", plan, "check_end")
def last_width_at_zero(its_operators, widths):
    if not its_operators or widths[-1] != 3:
        raise Refused(5, 0)


@fault("an operator may name its own table", "run", plan, "earlier")
def own_table(t, widths):
    plan.demand(t <= len(widths) and widths)
    return widths[min(t, len(widths) - 1)]


@fault("RU of different widths", "run", plan, "width_of_pair")
def any_widths(t, u, widths):
    plan.earlier(u, widths)
    return plan.earlier(t, widths)


# The order of refusals between readers.

@fault("the catalogue before the query", "evaluate", evaluator, "evaluated")
def catalogue_before_query(query_bytes, doc, lent):
    sound_catalogue = catalogue.read(doc)
    return evaluator.work_out(query.read(query_bytes), {}, cells.room(lent), sound_catalogue)


@fault("the catalogue before the plan", "run", runner, "worked")
def catalogue_before_plan(plan_bytes, doc, lent):
    sound_catalogue = catalogue.read(doc)
    return runner.lay(*plan.read(plan_bytes), sound_catalogue, cells.room(lent))


@fault("the catalogue only when it is used", "evaluate", evaluator, "evaluated")
def catalogue_when_used(query_bytes, doc, lent):
    sound_catalogue = catalogue.read(doc if b"QR" in query_bytes else b"")
    return evaluator.work_out(query.read(query_bytes), {}, cells.room(lent), sound_catalogue)


@fault("8 before 2", "translate", translator, "check_plan")
def bytes_first(its_operators, plan_bytes, lent):
    if plan_bytes > lent:
        raise Refused(8, 0)
    if its_operators > 512:
        raise Refused(2, 0)


wrong("513 operators translated", "translate", translator, "MOST_OPERATORS", 513)
wrong("512 operators not translated", "translate", translator, "MOST_OPERATORS", 511)
