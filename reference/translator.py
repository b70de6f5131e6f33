"""The translator: a query to a plan, by loop-lifting.

Document 01: 'Translation', and refusals 1, 2, 3, then 2 at 0 over 512 operators, then 8.

Each rule takes an expression, the number of its loop table L and the numbers of its
variables' tables, and gives the number of a table (iter, pos, item).
"""

from typing import NamedTuple

from cells import Refused, emptied, followed_by_zeros
from plan import MOST_OPERATORS, NO_COLUMN, VALUE, Operator, written
from query import free, literal, read


class Answer(NamedTuple):
    """'the translator the number of operators and of plan bytes'"""
    refusal: int
    place: int
    operators: int
    plan_bytes: int
    lent: bytes


class Translation:
    """The operators so far. The words of the rules add one each and give its table's number."""

    def __init__(self):
        self.operators = []

    def add(self, mark, *fields):
        """Operator number n makes table n."""
        self.operators.append(Operator(mark, fields))
        return len(self.operators) - 1

    def attach(self, t, cell):
        """'attach': `RA`."""
        return self.add(b"RA", t, cell)

    def project(self, t, *columns):
        """'project': `RP`."""
        return self.add(b"RP", t, columns)

    def union(self, t, u):
        """'union': `RU`."""
        return self.add(b"RU", t, u)

    def minus(self, t, u):
        """'L minus it': `RD`."""
        return self.add(b"RD", t, u)

    def join(self, t, c, u, d):
        """'join': `RJ`."""
        return self.add(b"RJ", t, c, u, d)

    def number(self, t, p, *keys):
        """'number': `RN`."""
        return self.add(b"RN", t, p, keys)

    def expression(self, expression, loop, tables):
        """The rule for the expression's mark."""
        return RULES[expression.mark](self, expression, loop, tables)


def the_literal(to, expression, loop, tables):
    """'`QL`, `QB`: attach 1 to L, attach the cell.'"""
    return to.attach(to.attach(loop, 1), literal(expression))


def the_root(to, expression, loop, tables):
    """'`QR`: attach 1, `RO`.'"""
    return to.add(b"RO", to.attach(loop, 1), *expression.fields)


def nothing(to, expression, loop, tables):
    """'`QE`: attach 1, attach 0, `RD` of that with itself.'"""
    row = to.attach(to.attach(loop, 1), 0)
    return to.minus(row, row)


def variable(to, expression, loop, tables):
    """'`QV`, `QT`: no operator.'"""
    return tables[expression.fields[0]]


def let(to, expression, loop, tables):
    """'`QV`, `QT`: no operator.'"""
    v, (a, b) = expression.fields[0], expression.operands
    bound = to.expression(a, loop, tables)
    return to.expression(b, loop, {**tables, v: bound})


def both(to, expression, loop, tables):
    """'Operands come first, in order'."""
    a, b = expression.operands
    return to.expression(a, loop, tables), to.expression(b, loop, tables)


def united_by_side(to, united):
    """`QS`: 'number by p 0, keys 3, 1'."""
    return to.number(united, 0, 3, 1)


def sequence(to, expression, loop, tables):
    """'`QS`: attach 1 to a, 2 to b; union; number by p 0, keys 3, 1; project 0 4 2.'"""
    a, b = both(to, expression, loop, tables)
    marked_a = to.attach(a, 1)
    marked_b = to.attach(b, 2)
    return to.project(united_by_side(to, to.union(marked_a, marked_b)), 0, 4, 2)


def lift(to, tables, lifted, rule):
    """'Variables are lifted only where free in the part concerned, by rising number.'"""
    return {v: rule(to, tables[v]) for v in sorted(lifted)}


def turns_in_order(to, a):
    """`QF`: 'N = number a, no p, keys 0, 1'."""
    return to.number(a, NO_COLUMN, 0, 1)


def body_by_inner_iteration(to, body, to_map):
    """`QF`, after b: 'join 0 with map 1; number p 3, keys 0, 1; project 3 5 2'."""
    return to.project(to.number(to.join(body, 0, to_map, 1), 3, 0, 1), 3, 5, 2)


def for_each(to, expression, loop, tables):
    """'`QF`: N = number a, no p, keys 0, 1; attach 1; project 3 4 2; from N project 3, project 0 3 ...'"""
    v, (a, b) = expression.fields[0], expression.operands
    numbered = turns_in_order(to, to.expression(a, loop, tables))
    bound = to.project(to.attach(numbered, 1), 3, 4, 2)
    inner_loop = to.project(numbered, 3)
    to_map = to.project(numbered, 0, 3)
    inner = lift(to, tables, free(b) - {v}, lambda to, t: to.project(to.join(t, 0, to_map, 0), 4, 1, 2))
    body = to.expression(b, inner_loop, {**inner, v: bound})
    return body_by_inner_iteration(to, body, to_map)


def branch(to, expression, loop, tables):
    """`QI`: 'Variables of a: join 0 with then-loop 0, project 0 1 2; a.' Likewise b."""
    inside = lift(to, tables, free(expression), lambda to, t: to.project(to.join(t, 0, loop, 0), 0, 1, 2))
    return to.expression(expression, loop, inside)


def else_loop(to, loop, then_loop, truths):
    """`QI`: '`RD` L minus it (else-loop)'; an iteration without rows is in L alone."""
    return to.minus(loop, then_loop)


def choose(to, expression, loop, tables):
    """'`QI`: c; `RE`; select 1; project 0 (then-loop); `RD` L minus it (else-loop) ... Union.'"""
    c, a, b = expression.operands
    truths = to.add(b"RE", to.expression(c, loop, tables))
    then = to.project(to.add(b"RS", truths, 1), 0)
    otherwise = else_loop(to, loop, then, truths)
    first = branch(to, a, then, tables)
    return to.union(first, branch(to, b, otherwise, tables))


def operate(to, expression, loop, tables):
    """'`QO`: a, b, `RK` a 0, `RK` b 0, join these 0 0, project 0 1 2 5, `RF` f 2 3, project 0 1 4.'"""
    a, b = both(to, expression, loop, tables)
    one_a = to.add(b"RK", a, 0)
    one_b = to.add(b"RK", b, 0)
    sides = to.project(to.join(one_a, 0, one_b, 0), 0, 1, 2, 5)
    return to.project(to.add(b"RF", sides, expression.fields[0], (2, 3)), 0, 1, 4)


def with_zeros(to, counts, loop):
    """`QC`: 'project 0; L minus it; attach 0; union (counts first)'."""
    without_rows = to.minus(loop, to.project(counts, 0))
    return to.union(counts, to.attach(without_rows, 0))


def number_of(to, expression, loop, tables):
    """'`QC`: `RC` 0; project 0; L minus it; attach 0; union (counts first); attach 1; project 0 2 1.'"""
    counts = to.add(b"RC", to.expression(expression.operands[0], loop, tables), 0)
    return to.project(to.attach(with_zeros(to, counts, loop), 1), 0, 2, 1)


def values(to, expression, loop, tables):
    """'`QD`: `RF` 7 2; project 0 1 3.'"""
    a = to.expression(expression.operands[0], loop, tables)
    return to.project(to.add(b"RF", a, VALUE, (2,)), 0, 1, 3)


def nodes_by_rank(to, reached):
    """`QX`: 'number p 0, key 1'."""
    return to.number(reached, 0, 1)


def step(to, expression, loop, tables):
    """'`QX`: project 0 2; `RX`; number p 0, key 1; project 0 2 1.'"""
    contexts = to.project(to.expression(expression.operands[0], loop, tables), 0, 2)
    return to.project(nodes_by_rank(to, to.add(b"RX", contexts, *expression.fields)), 0, 2, 1)


RULES = {b"QL": the_literal, b"QB": the_literal, b"QR": the_root, b"QE": nothing, b"QV": variable, b"QT": let,
         b"QS": sequence, b"QF": for_each, b"QI": choose, b"QO": operate, b"QC": number_of, b"QD": values, b"QX": step}


def items_by_place(to, result):
    """'Last: number p 0, key 1'."""
    return to.number(result, 0, 1)


def operators_of(expression):
    """The whole plan: '(first `RT`)', the rules, 'Last: number p 0, key 1; project 0 3 2.'"""
    to = Translation()
    loop = to.add(b"RT")
    result = to.expression(expression, loop, {})
    to.project(items_by_place(to, result), 0, 3, 2)
    return to.operators


def check_plan(operators, plan_bytes, lent):
    """'The translator: query, 512, then 8.'"""
    if operators > MOST_OPERATORS:
        raise Refused(2, 0)
    if plan_bytes > lent:
        raise Refused(8, 0)


def translate(query, lent):
    """The public call: operators, plan bytes, and the lent bytes; or a refusal and zeros."""
    try:
        operators = operators_of(read(query))
        plan = written(operators)
        check_plan(len(operators), len(plan), lent)
    except Refused as refused:
        return Answer(refused.number, refused.place, 0, 0, bytes(emptied(lent)))
    return Answer(0, 0, len(operators), len(plan), bytes(followed_by_zeros(plan, lent)))
