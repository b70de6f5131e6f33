"""The plan operators over tables, each a list of rows, each row a tuple of cells.

Document 01: 'Plan operators'. An operator fails before it gives its first row, and its
rows may be taken one by one, so that a table too long for the room is never built.
"""

import meaning
from cells import TRUE, Fails, boolean
from plan import NO_COLUMN, VALUE


def one_row():
    """'`RT`: one row, one cell, 1.'"""
    return [(1,)]


def attach(t, cell):
    """'`RA` t cell(8): adds a column of that cell'"""
    return [row + (cell,) for row in t]


def project(t, columns):
    """'`RP` t n cols: those n columns'"""
    return [tuple(row[c] for c in columns) for row in t]


def union(t, u):
    """'`RU` t u: rows of t, then u'"""
    return t + u


def minus(t, u):
    """'`RD` t u: rows of t equal to no row of u'; repeated rows of t stay."""
    rows_of_u = set(u)
    return [row for row in t if row not in rows_of_u]


def select(t, c):
    """'`RS` t c: rows whose column c is true'"""
    return [row for row in t if row[c] == TRUE]


def rows_by_cell(t, c):
    """The rows of t that hold each cell of column c, cells by first appearance."""
    groups = {}
    for row in t:
        groups.setdefault(row[c], []).append(row)
    return groups


def join(t, c, u, d):
    """'`RJ` t c u d: for each row of t, each row of u with equal cells; both rows joined'"""
    matching = rows_by_cell(u, d)
    return (row + other for row in t for other in matching.get(row[c], ()))


def in_order(t, columns):
    """'rows in rising order by' these columns, 'ties as they stood'."""
    return sorted(t, key=lambda row: [row[c] for c in columns])


def number(t, p, keys):
    """'`RN` t p k a [b]: ... adds a column counting from 1 within equal p'"""
    rows, seen = [], {}
    for row in in_order(t, keys if p == NO_COLUMN else (p, *keys)):
        group = None if p == NO_COLUMN else row[p]
        seen[group] = seen.get(group, 0) + 1
        rows.append(row + (seen[group],))
    return rows


def function(t, f, columns, catalogue):
    """'`RF` t f c [d]: adds function 1 to 6 above of two cells, or 7, the value of one'"""
    if f == VALUE:
        return [row + (meaning.value(catalogue, row[columns[0]]),) for row in t]
    c, d = columns
    return [row + (meaning.arith(f, row[c], row[d]),) for row in t]


def count(t, c):
    """'`RC` t c: (cell, rows holding it), by first appearance'"""
    return [(cell, len(rows)) for cell, rows in rows_by_cell(t, c).items()]


def by_column_1(rows):
    """`RE`: 'first = least column 1, then earliest row'."""
    return sorted(rows, key=lambda row: row[1])


def truths(t):
    """'`RE` t, width 3: (column 0, truth of its group by rule `QI`...), by first appearance'"""
    return [(cell, boolean(meaning.truth([row[2] for row in by_column_1(rows)])))
            for cell, rows in rows_by_cell(t, 0).items()]


def once(t, c):
    """'`RK` t c: t; fails if a cell of column c occurs twice'"""
    if len({row[c] for row in t}) < len(t):
        raise Fails
    return t


def steps(t, axis, test, name, catalogue):
    """'`RX` t axis test name, width 2: per different column 0, by first appearance, the step's nodes from column 1'"""
    meaning.all_nodes([row[1] for row in t])
    return ((cell, reached) for cell, rows in rows_by_cell(t, 0).items()
            for reached in meaning.step(catalogue, axis, test, name, [row[1] for row in rows]))


def roots(t, k, catalogue):
    """'`RO` t k: adds the root cell; fails if t has a row and there is no fragment k'"""
    if not t:
        return []
    return attach(t, meaning.root(catalogue, k))


def make(operator, tables, catalogue):
    """The rows of the operator's table, or it fails."""
    match operator.mark, operator.fields:
        case b"RT", ():
            return one_row()
        case b"RA", (t, cell):
            return attach(tables[t], cell)
        case b"RP", (t, columns):
            return project(tables[t], columns)
        case b"RU", (t, u):
            return union(tables[t], tables[u])
        case b"RD", (t, u):
            return minus(tables[t], tables[u])
        case b"RS", (t, c):
            return select(tables[t], c)
        case b"RJ", (t, c, u, d):
            return join(tables[t], c, tables[u], d)
        case b"RN", (t, p, keys):
            return number(tables[t], p, keys)
        case b"RF", (t, f, columns):
            return function(tables[t], f, columns, catalogue)
        case b"RC", (t, c):
            return count(tables[t], c)
        case b"RE", (t,):
            return truths(tables[t])
        case b"RK", (t, c):
            return once(tables[t], c)
        case b"RX", (t, axis, test, name):
            return steps(tables[t], axis, test, name, catalogue)
        case b"RO", (t, k):
            return roots(tables[t], k, catalogue)
