"""The plan runner: tables laid end to end in the lent cells.

Document 01: 'Room', and refusals 5, then 4, then 6 and 7.
"""

from itertools import islice
from typing import NamedTuple

import operators
import plan
from catalogue import read as read_catalogue
from cells import Fails, Refused, emptied, followed_by_zeros, room


class Answer(NamedTuple):
    """'the answer names the last table's start and rows, and cells filled'"""
    refusal: int
    place: int
    start: int
    rows: int
    cells_filled: int
    lent: list


def made(operator, tables, catalogue):
    """The operator's rows; refusal 7 at its record if it fails."""
    try:
        return operators.make(operator, tables, catalogue)
    except Fails:
        raise Refused(7, operator.at) from None


def laid(operator, rows, width, left):
    """The table, if rows times width fit in the cells left; refusal 6 at its record if not."""
    most_rows = left // width
    table = list(islice(rows, most_rows + 1))
    if len(table) > most_rows:
        raise Refused(6, operator.at)
    return table


def lay(its_operators, widths, catalogue, left):
    """Every table: 'For each operator in order, failing is tested before room.'"""
    tables = []
    for operator, width in zip(its_operators, widths):
        rows = made(operator, tables, catalogue)
        tables.append(laid(operator, rows, width, left))
        left -= len(tables[-1]) * width
    return tables


def end_to_end(tables):
    """'The runner lays tables end to end: rows times width.'"""
    return [cell for table in tables for row in table for cell in row]


def worked(plan_bytes, doc, lent):
    """'Query or plan, then catalogue, then work.'"""
    its_operators, widths = plan.read(plan_bytes)
    catalogue = read_catalogue(doc)
    return lay(its_operators, widths, catalogue, room(lent))


def run(plan_bytes, doc, lent):
    """The public call: start, rows, cells filled, and the lent cells; or a refusal and zeros."""
    try:
        tables = worked(plan_bytes, doc, lent)
    except Refused as refused:
        return Answer(refused.number, refused.place, 0, 0, 0, emptied(lent))
    cells = end_to_end(tables)
    rows = len(tables[-1])
    return Answer(0, 0, len(cells) - 3 * rows, rows, len(cells), followed_by_zeros(cells, lent))


def items(answer):
    """The item column of the last table, its third."""
    return answer.lent[answer.start + 2:answer.cells_filled:3]
