"""The step-by-step evaluator: items, counted as they stand.

Document 01: 'Query records' (what each record means) and 'Room' (the count).

Every rule answers its items and its count, the most items standing at once while it
was worked out. `left` is the room that the records further out have left, so that each rule
looks at its own items only. Only a record that adds an item can lack room for it.
"""

from typing import NamedTuple

import meaning
import query
from catalogue import read as read_catalogue
from cells import Fails, Refused, emptied, followed_by_zeros, room


class Answer(NamedTuple):
    """'the items stand from cell 0 on; the answer gives their number and this count'"""
    refusal: int
    place: int
    items: int
    count: int
    lent: list


def or_fail(expression, rule, *given):
    """Refusal 7, 'the query or operator fails': at the record at work."""
    try:
        return rule(*given)
    except Fails:
        raise Refused(7, expression.at) from None


def stand(expression, standing, left):
    """Refusal 6: at the record 'where that number would pass the lent cells'."""
    if standing > left:
        raise Refused(6, expression.at)


def work_out(expression, variables, left, catalogue):
    """Items and count of one expression, in at most `left` cells."""
    return RULES[expression.mark](expression, variables, left, catalogue)


def literal(expression, variables, left, catalogue):
    """`QL`, `QB`. 'literal, root: 1'"""
    stand(expression, 1, left)
    return [query.literal(expression)], 1


def nothing(expression, variables, left, catalogue):
    """'`QE`: the empty sequence.' '`QE`: 0'"""
    return [], 0


def root(expression, variables, left, catalogue):
    """`QR`. 'a failure of the same record comes first'"""
    items = [or_fail(expression, meaning.root, catalogue, *expression.fields)]
    stand(expression, 1, left)
    return items, 1


def variable(expression, variables, left, catalogue):
    """`QV`. 'Variable: its length.'"""
    items = variables[expression.fields[0]]
    stand(expression, len(items), left)
    return items, len(items)


def both(expression, variables, left, catalogue):
    """Both sides in order: 'the larger of a's count and a's length plus b's count'."""
    a, b = expression.operands
    xs, x_count = work_out(a, variables, left, catalogue)
    ys, y_count = work_out(b, variables, left - len(xs), catalogue)
    return xs, ys, max(x_count, len(xs) + y_count)


def sequence(expression, variables, left, catalogue):
    """'`QS` a b: a's items, then b's.'"""
    xs, ys, count = both(expression, variables, left, catalogue)
    return xs + ys, count


def let(expression, variables, left, catalogue):
    """`QT`: 'The bound expression is always worked out, used or not.'"""
    v, (a, b) = expression.fields[0], expression.operands
    xs, x_count = work_out(a, variables, left, catalogue)
    ys, y_count = work_out(b, {**variables, v: xs}, left - len(xs), catalogue)
    return ys, max(x_count, len(xs) + y_count)


def for_each(expression, variables, left, catalogue):
    """'`QF`: a's count, or a's length plus results so far plus b's count.'"""
    v, (a, b) = expression.fields[0], expression.operands
    xs, count = work_out(a, variables, left, catalogue)
    results = []
    for x in xs:
        standing = len(xs) + len(results)
        ys, y_count = work_out(b, {**variables, v: [x]}, left - standing, catalogue)
        count = max(count, standing + y_count)
        results += ys
    return results, count


def choose(expression, variables, left, catalogue):
    """`QI`: 'Only the chosen branch is worked out.' 'the larger of c's and the branch's'"""
    c, a, b = expression.operands
    zs, z_count = work_out(c, variables, left, catalogue)
    branch = a if or_fail(expression, meaning.truth, zs) else b
    xs, x_count = work_out(branch, variables, left, catalogue)
    return xs, max(z_count, x_count)


def operate(expression, variables, left, catalogue):
    """`QO`: 'Both sides are worked out' before either is looked at."""
    xs, ys, count = both(expression, variables, left, catalogue)
    return or_fail(expression, meaning.operate, *expression.fields, xs, ys), count


def number_of(expression, variables, left, catalogue):
    """'`QC` a: number of items.' '`QC`: at least 1.'"""
    xs, count = work_out(expression.operands[0], variables, left, catalogue)
    stand(expression, 1, left)
    return [len(xs)], max(count, 1)


def values(expression, variables, left, catalogue):
    """'`QD` a: each item's value, in order'; its count is a's."""
    xs, count = work_out(expression.operands[0], variables, left, catalogue)
    return [or_fail(expression, meaning.value, catalogue, x) for x in xs], count


def step(expression, variables, left, catalogue):
    """'`QX`: a's count, or a's length plus the result's.'"""
    xs, count = work_out(expression.operands[0], variables, left, catalogue)
    ys = or_fail(expression, meaning.step, catalogue, *expression.fields, xs)
    stand(expression, len(xs) + len(ys), left)
    return ys, max(count, len(xs) + len(ys))


RULES = {b"QL": literal, b"QB": literal, b"QE": nothing, b"QR": root, b"QV": variable, b"QS": sequence,
         b"QT": let, b"QF": for_each, b"QI": choose, b"QO": operate, b"QC": number_of, b"QD": values, b"QX": step}


def evaluated(query_bytes, doc, lent):
    """'Query or plan, then catalogue, then work.'"""
    expression = query.read(query_bytes)
    catalogue = read_catalogue(doc)
    return work_out(expression, {}, room(lent), catalogue)


def evaluate(query_bytes, doc, lent):
    """The public call: items, count, and the lent cells; or a refusal and zeros."""
    try:
        items, count = evaluated(query_bytes, doc, lent)
    except Refused as refused:
        return Answer(refused.number, refused.place, 0, 0, emptied(lent))
    return Answer(0, 0, len(items), count, followed_by_zeros(items, lent))
