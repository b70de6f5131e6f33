"""What a class looks at, as markdown: an operator in words, its table with named columns, the rows of a catalogue."""

import chartask
import xquery
from catalogue import TEXT
from plan import NO_COLUMN, VALUE

ITEMS = ["iter", "pos", "item"]


# An operator.

def columns_of(columns):
    """'column 1', 'columns 3, 1'."""
    return f"column{'s' if len(columns) > 1 else ''} {', '.join(map(str, columns))}"


def words(operator):
    """What the operator does."""
    match operator.mark, operator.fields:
        case b"RT", ():
            return "one row, one cell, 1"
        case b"RA", (t, cell):
            return f"attach {shown(cell)} to table {t}"
        case b"RP", (t, columns):
            return f"{columns_of(columns)} of table {t}"
        case b"RU", (t, u):
            return f"table {t}, then table {u}"
        case b"RD", (t, u):
            return f"table {t} minus table {u}"
        case b"RS", (t, c):
            return f"the rows of table {t} whose column {c} is true"
        case b"RJ", (t, c, u, d):
            return f"table {t} and table {u} joined where column {c} equals column {d}"
        case b"RN", (t, p, keys):
            within = "" if p == NO_COLUMN else f" within column {p}"
            return f"table {t} numbered{within} by {columns_of(keys)}"
        case b"RF", (t, f, columns):
            name = "value" if f == VALUE else xquery.OPERATIONS[f]
            return f"{name} of {columns_of(columns)} of table {t}"
        case b"RC", (t, c):
            return f"how often table {t} has each cell of column {c}"
        case b"RE", (t,):
            return f"the truth of each group of table {t}"
        case b"RK", (t, c):
            return f"table {t}, if no cell of column {c} occurs twice"
        case b"RX", (t, *step):
            return f"the step {xquery.step(*step)} from table {t}"
        case b"RO", (t, k):
            return f"the root of fragment {k} attached to table {t}"


# The names of a table's columns, in a plan that the translator writes.

def attached(names, cell):
    """What an attached column is: by the columns that stand there already."""
    if "inner" in names:
        return "new pos"
    if "item" in names:
        return "side"
    if "pos" in names:
        return "item"
    return "pos" if "count" in names or cell else "count"


def projected(names, columns):
    """Three columns are always the items of some part, one is a loop, and the map goes from an outer turn to an inner."""
    match len(columns):
        case 1:
            return ["iter"]
        case 3:
            return ITEMS
    kept = [names[c] for c in columns]
    return ["outer", "inner"] if kept == ["iter", "inner"] else kept


def joined(names, others, u):
    """A column of the second table whose name is taken says whose it is."""
    return names + [f"{name} of {u}" if name in names else name for name in others]


def names_of(operator, earlier):
    """The names of the operator's columns, from those of the earlier tables."""
    match operator.mark, operator.fields:
        case b"RT", ():
            return ["iter"]
        case b"RA", (t, cell):
            return earlier[t] + [attached(earlier[t], cell)]
        case b"RP", (t, columns):
            return projected(earlier[t], columns)
        case b"RJ", (t, _, u, _):
            return joined(earlier[t], earlier[u], u)
        case b"RN", (t, p, _):
            return earlier[t] + ["inner" if p == NO_COLUMN else "new pos" if "pos" in earlier[t] else "pos"]
        case b"RF", (t, f, _):
            return earlier[t] + ["value" if f == VALUE else "result"]
        case b"RC", _:
            return ["iter", "count"]
        case b"RE", _:
            return ["iter", "truth"]
        case b"RX", _:
            return ["iter", "node"]
        case b"RO", (t, _):
            return earlier[t] + ["item"]
        case _, (t, *_):
            return earlier[t]


def all_names(operators):
    """The names of every table's columns."""
    names = []
    for operator in operators:
        names.append(names_of(operator, names))
    return names


# Tables.

def shown(cell):
    """A cell as a reader sees it."""
    kind, number = chartask.item_line(cell).split()
    return {"int": number, "node": f"node {number}", "bool": "true" if number == "1" else "false"}[kind]


def grid(heads, rows):
    """A table of markdown."""
    lines = ["| " + " | ".join(heads) + " |", "|" + "---|" * len(heads)]
    return "\n".join(lines + ["| " + " | ".join(row) + " |" for row in rows]) + "\n"


def table(number, operator, names, rows, ends):
    """One small table. The head has the operator's mark and its byte in the plan; `ends` is what else to say."""
    head = f"Table {number} (`{operator.mark.decode()}` at {operator.at}): {words(operator)}{ends}"
    if not rows:
        return head + ".\n"
    return head + ".\n\n" + grid([f"{c} {name}" for c, name in enumerate(names)], [map(shown, row) for row in rows])


# A catalogue.

def xml_of(catalogue):
    """The XML, a fragment a line."""
    return "".join(xquery.xml(catalogue.rows[span.start:span.stop]) + "\n" for span in catalogue.fragments)


def is_what(catalogue, rank):
    """A row in words."""
    row = catalogue.rows[rank]
    if row.kind == TEXT:
        return f"the text {row.prop}"
    return f"`n{row.prop}`" + (f", root of fragment {catalogue.roots.index(rank) + 1}" if not row.level else "")


def rows_of(catalogue):
    """The rows, each with what it is."""
    heads = ["rank", "size", "level", "kind", "prop", "what it is"]
    return grid(heads, [[str(rank), *map(str, row[1:]), is_what(catalogue, rank)] for rank, row in enumerate(catalogue.rows)])
