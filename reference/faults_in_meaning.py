"""Faults of meaning: what items, steps and plan operators give.

Document 01: 'Query records' and 'Plan operators'.
"""

import cells
import evaluator
import meaning
import operators
import plan
import query
from cells import FALSE, TRUE, Fails, Refused, is_node, node, rank
from faults import fault, wrong

# What a query means.

@fault("both branches of if worked out", "evaluate", evaluator.RULES, b"QI")
def both_branches(expression, variables, left, catalogue):
    c, *branches = expression.operands
    zs, z_count = evaluator.work_out(c, variables, left, catalogue)
    holds = evaluator.or_fail(expression, meaning.truth, zs)
    a, b = [evaluator.work_out(branch, variables, left, catalogue) for branch in branches]
    xs, x_count = a if holds else b
    return xs, max(z_count, x_count)


@fault("let's bound expression skipped when unused", "evaluate", evaluator.RULES, b"QT")
def lazy_let(expression, variables, left, catalogue):
    if expression.fields[0] not in query.free(expression.operands[1]):
        return evaluator.work_out(expression.operands[1], variables, left, catalogue)
    return evaluator.let(expression, variables, left, catalogue)


@fault("an outer binding hides an inner one", "evaluate", evaluator.RULES, b"QT")
def outer_hides(expression, variables, left, catalogue):
    v, (a, b) = expression.fields[0], expression.operands
    xs, x_count = evaluator.work_out(a, variables, left, catalogue)
    ys, y_count = evaluator.work_out(b, {v: xs, **variables}, left - len(xs), catalogue)
    return ys, max(x_count, len(xs) + y_count)


@fault("the first side of QO looked at before the second is worked out", "evaluate", evaluator.RULES, b"QO")
def first_side_first(expression, variables, left, catalogue):
    a, b = expression.operands
    xs, x_count = evaluator.work_out(a, variables, left, catalogue)
    if len(xs) > 1:
        raise Refused(7, expression.at)
    ys, y_count = evaluator.work_out(b, variables, left - len(xs), catalogue)
    return evaluator.or_fail(expression, meaning.operate, *expression.fields, xs, ys), max(x_count, len(xs) + y_count)


@fault("an empty side spares the other", "evaluate", evaluator.RULES, b"QO")
def lazy_side(expression, variables, left, catalogue):
    a, b = expression.operands
    xs, x_count = evaluator.work_out(a, variables, left, catalogue)
    if not xs:
        return [], x_count
    ys, y_count = evaluator.work_out(b, variables, left - len(xs), catalogue)
    return evaluator.or_fail(expression, meaning.operate, *expression.fields, xs, ys), max(x_count, len(xs) + y_count)


def division(a, b):
    """The divisor 0 still fails."""
    if b == 0:
        raise Fails
    return a // b


wrong("idiv rounds down", "evaluate", meaning, "quotient", division)
wrong("idiv by 0 is 0", "run", meaning, "quotient",
      lambda a, b, quotient=meaning.quotient: quotient(a, b) if b else 0)
wrong("a result past the range wraps", "evaluate", meaning, "in_range", lambda n: (n + 2**31) % 2**32 - 2**31)
wrong("a result past the range stands", "evaluate", meaning, "in_range", lambda n: n)
wrong("2147483648 counts as in range", "evaluate", meaning, "in_range",
      lambda n, in_range=meaning.in_range: n if n == 2**31 else in_range(n))


@fault("booleans and nodes compare", "run", meaning, "arith")
def eq_of_all(f, a, b, arith=meaning.arith):
    return cells.boolean(a == b) if f == 5 else arith(f, a, b)


@fault("lt for gt", "evaluate", meaning, "arith")
def turned_lt(f, a, b, arith=meaning.arith):
    return arith(f, b, a) if f == 6 else arith(f, a, b)


@fault("eq gives an integer", "evaluate", meaning, "arith")
def integer_eq(f, a, b, arith=meaning.arith):
    return int(a == b) if f == 5 and cells.is_integer(a) and cells.is_integer(b) else arith(f, a, b)


@fault("truth of several items is that of the first", "evaluate", meaning, "truth")
def truth_of_first(items, truth=meaning.truth):
    return truth(items[:1])


@fault("truth of a node and more fails", "run", meaning, "truth")
def one_node_only(items, truth=meaning.truth):
    if len(items) > 1:
        raise Fails
    return truth(items)


@fault("truth of any node among the items", "evaluate", meaning, "truth")
def any_node(items, truth=meaning.truth):
    return True if any(map(is_node, items)) else truth(items)


@fault("0 is true", "evaluate", meaning, "truth")
def zero_true(items, truth=meaning.truth):
    return True if items == [0] else truth(items)


@fault("an element's value is its name", "run", meaning, "value")
def names_as_values(catalogue, cell):
    return catalogue.rows[rank(cell)].prop if is_node(cell) else cell


@fault("a boolean's value is an integer", "evaluate", meaning, "value")
def boolean_as_integer(catalogue, cell, value=meaning.value):
    return cell - FALSE if cell in (FALSE, TRUE) else value(catalogue, cell)


@fault("fragments counted from 0", "evaluate", meaning, "root")
def from_zero(catalogue, k):
    if k >= len(catalogue.roots):
        raise Fails
    return node(catalogue.roots[k])


# Steps.

wrong("descendants end one short", "evaluate", meaning.AXES, 2, lambda rows, c, v: c < v < c + rows[c].size)
wrong("child is descendant", "evaluate", meaning.AXES, 1, meaning.is_descendant)
wrong("descendant-or-self without self", "evaluate", meaning.AXES, 3, meaning.is_descendant)
wrong("parent is ancestor", "evaluate", meaning.AXES, 5, meaning.is_ancestor)
wrong("ancestor with self", "evaluate", meaning.AXES, 6, lambda rows, c, v: v <= c <= v + rows[v].size)
wrong("following with descendants", "evaluate", meaning.AXES, 7, lambda rows, c, v: v > c)
wrong("preceding with ancestors", "evaluate", meaning.AXES, 8, lambda rows, c, v: v < c)
wrong("a name matches a text of that number", "evaluate", meaning, "passes",
      lambda test, name, row, passes=meaning.passes: row.prop == name if test == 3 else passes(test, name, row))


@fault("a step's nodes once per context", "evaluate", meaning, "step")
def per_context(catalogue, axis, test, name, items):
    meaning.all_nodes(items)
    return [node(v) for item in items for v in meaning.reach(catalogue, axis, rank(item))
            if meaning.passes(test, name, catalogue.rows[v])]


@fault("a step's nodes in the order of the contexts", "run", meaning, "step")
def by_contexts(catalogue, axis, test, name, items):
    return list(dict.fromkeys(per_context(catalogue, axis, test, name, items)))


@fault("a step passes over what is no node", "evaluate", meaning, "all_nodes")
def first_only(items):
    if items and not is_node(items[0]):
        raise Fails
    items[:] = [item for item in items if is_node(item)]


# The operators.

@fault("RN turns ties round", "run", operators, "in_order")
def unstable(t, columns, in_order=operators.in_order):
    return in_order(t[::-1], columns)


@fault("RN orders cells as unsigned numbers", "run", operators, "in_order")
def unsigned(t, columns):
    return sorted(t, key=lambda row: [row[c] % 2**64 for c in columns])


@fault("RN orders by its keys before p", "run", operators, "in_order")
def keys_before_p(t, columns, in_order=operators.in_order):
    return in_order(t, columns[1:] + columns[:1])


@fault("RN counts over the whole table", "run", operators, "number")
def one_count(t, p, keys, number=operators.number):
    return [row[:-1] + (place + 1,) for place, row in enumerate(number(t, p, keys))]


@fault("RN takes no p for column 0", "run", operators, "number")
def p_for_none(t, p, keys, number=operators.number):
    return number(t, 0 if p == plan.NO_COLUMN else p, keys)


@fault("RN forgets the second key", "run", operators, "number")
def one_key(t, p, keys, number=operators.number):
    return number(t, p, keys[:1])


@fault("RC by last appearance", "run", operators, "count")
def by_last(t, c, count=operators.count):
    return count(t[::-1], c)[::-1]


@fault("RC by rising cell", "run", operators, "count")
def by_cell(t, c, count=operators.count):
    return sorted(count(t, c))


@fault("RC counts runs of equal cells", "run", operators, "count")
def by_run(t, c):
    runs = []
    for row in t:
        if runs and runs[-1][0] == row[c]:
            runs[-1] = (row[c], runs[-1][1] + 1)
        else:
            runs.append((row[c], 1))
    return runs


@fault("RE with the greatest column 1 first", "run", operators, "by_column_1")
def greatest_first(rows):
    return sorted(rows, key=lambda row: -row[1])


@fault("RE with the latest row first", "run", operators, "by_column_1")
def latest_first(rows):
    return sorted(rows[::-1], key=lambda row: row[1])


@fault("RE in row order", "run", operators, "by_column_1")
def as_they_stand(rows):
    return rows


@fault("RE by rising column 0", "run", operators, "truths")
def rising_truths(t, truths=operators.truths):
    return sorted(truths(t))


@fault("RO fails over an empty table", "run", operators, "roots")
def fails_on_empty(t, k, catalogue):
    return operators.attach(t, meaning.root(catalogue, k))


@fault("RD makes a set of t", "run", operators, "minus")
def as_a_set(t, u, minus=operators.minus):
    return list(dict.fromkeys(minus(t, u)))


@fault("RD compares the first cell alone", "run", operators, "minus")
def by_first_cell(t, u):
    return [row for row in t if row[0] not in {other[0] for other in u}]


@fault("RU drops rows that t has", "run", operators, "union")
def as_a_union_of_sets(t, u):
    return t + [row for row in u if row not in t]


@fault("RJ by the rows of u first", "run", operators, "join")
def by_u(t, c, u, d):
    return [row + other for other in u for row in t if row[c] == other[d]]


@fault("RJ with the first equal row alone", "run", operators, "join")
def first_match(t, c, u, d):
    firsts = {other[d]: other for other in reversed(u)}
    return [row + firsts[row[c]] for row in t if row[c] in firsts]


@fault("RK sees neighbours alone", "run", operators, "once")
def neighbours(t, c):
    if any(row[c] == other[c] for row, other in zip(t, t[1:])):
        raise Fails
    return t


@fault("RS selects whatever is not false", "run", operators, "select")
def not_false(t, c):
    return [row for row in t if row[c] != FALSE]


@fault("RS selects the integer 1", "run", operators, "select")
def one_is_true(t, c):
    return [row for row in t if row[c] in (TRUE, 1)]


@fault("RX by rising column 0", "run", operators, "steps")
def rising_groups(t, *step, steps=operators.steps):
    return sorted(steps(t, *step))


@fault("RX row by row", "run", operators, "steps")
def row_by_row(t, *step, steps=operators.steps):
    return [reached for row in t for reached in steps([row], *step)]
