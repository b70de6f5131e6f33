"""Faults of the engines: what students slip on, room and counts, the translator's rules, the printing.

Document 01: 'Where students slip', 'Room', 'Translation', and 'Program `chartask`'.
"""

import cells
import chartask
import evaluator
import meaning
import runner
import translator
from cells import Fails, Refused
from faults import fault, wrong

# The five of 'Where students slip'.

@fault("following by ranks alone walks into the next fragment", "evaluate", meaning, "ranks_to_try")
def following_by_ranks(catalogue, axis, c):
    return range(len(catalogue.rows)) if axis == 7 else catalogue.fragment_of[c]


@fault("count gives no 0 for an iteration without rows", "agreement", translator, "with_zeros")
def counts_alone(to, counts, loop):
    return counts


@fault("if gives no else for an iteration without rows", "agreement", translator, "else_loop")
def else_of_the_false(to, loop, then_loop, truths):
    return to.minus(to.project(truths, 0), then_loop)


@fault("union without the order column", "agreement", translator.RULES, b"QS")
def sequence_by_pos(to, expression, loop, tables):
    a, b = translator.both(to, expression, loop, tables)
    return to.project(to.number(to.union(a, b), 0, 1), 0, 3, 2)


@fault("the body's rows numbered by pos before inner iteration", "agreement", translator, "body_by_inner_iteration")
def body_by_pos(to, body, to_map):
    return to.project(to.number(to.join(body, 0, to_map, 1), 3, 1, 0), 3, 5, 2)


@fault("cardinality checked after the join", "agreement", translator.RULES, b"QO")
def cardinality_after_join(to, expression, loop, tables):
    a, b = translator.both(to, expression, loop, tables)
    joined = to.add(b"RK", to.join(a, 0, b, 0), 0)
    sides = to.project(joined, 0, 1, 2, 5)
    return to.project(to.add(b"RF", sides, expression.fields[0], (2, 3)), 0, 1, 4)


# The same slips in the other engine and in the operators.

@fault("preceding by ranks alone walks into the fragment before", "run", meaning, "ranks_to_try")
def preceding_by_ranks(catalogue, axis, c):
    return range(len(catalogue.rows)) if axis == 8 else catalogue.fragment_of[c]


@fault("the evaluator's count of nothing is nothing", "evaluate", evaluator.RULES, b"QC")
def no_zero(expression, variables, left, catalogue):
    items, count = evaluator.number_of(expression, variables, left, catalogue)
    return ([] if items == [0] else items), count


@fault("an empty side comes before cardinality", "evaluate", meaning, "operate")
def empty_side_first(f, xs, ys):
    if not xs or not ys:
        return []
    if len(xs) > 1 or len(ys) > 1:
        raise Fails
    return [meaning.arith(f, xs[0], ys[0])]


@fault("kinds come before an empty side", "evaluate", meaning, "operate")
def kinds_first(f, xs, ys):
    if len(xs) > 1 or len(ys) > 1 or not all(map(cells.is_integer, xs + ys)):
        raise Fails
    return [meaning.arith(f, xs[0], ys[0])] if xs and ys else []


# Room, and what is left in what was lent.

@fault("the runner tests room before failing", "run", runner, "lay")
def room_before_failing(its_operators, widths, catalogue, left):
    tables = []
    for operator, width in zip(its_operators, widths):
        if operator.mark in (b"RK", b"RF", b"RO"):
            # These make as many rows as their table has, so their room is known before they fail.
            runner.laid(operator, tables[operator.fields[0]], width, left)
        rows = runner.made(operator, tables, catalogue)
        tables.append(runner.laid(operator, rows, width, left))
        left -= len(tables[-1]) * width
    return tables


@fault("the evaluator tests room before failing", "evaluate", evaluator.RULES, b"QR")
def room_before_root(expression, variables, left, catalogue):
    evaluator.stand(expression, 1, left)
    return evaluator.root(expression, variables, left, catalogue)


wrong("the runner counts cells past 65,536", "run", runner, "room", lambda lent: lent)
wrong("the evaluator counts cells past 65,536", "evaluate", evaluator, "room", lambda lent: lent)
wrong("65,536 cells are one too many", "run evaluate", cells, "MOST_CELLS", 65535)
wrong("a refused run leaves a cell", "run", runner, "emptied", lambda lent: ([1] + [0] * lent)[:lent])
wrong("a refused evaluation leaves a cell", "evaluate", evaluator, "emptied", lambda lent: ([0] * lent + [1])[1:])
wrong("a refused translation leaves a byte", "translate", translator, "emptied",
      lambda lent: ([82] + [0] * lent)[:lent])
wrong("a cell left past the last table", "run", runner, "followed_by_zeros",
      lambda written, lent: (written + [1] + [0] * lent)[:lent])
wrong("a cell left past the evaluator's items", "evaluate", evaluator, "followed_by_zeros",
      lambda written, lent: (written + [1] + [0] * lent)[:lent])
wrong("a byte left after the plan", "translate", translator, "followed_by_zeros",
      lambda written, lent: (list(written) + [82] + [0] * lent)[:lent])
wrong("only the last table stands", "run", runner, "followed_by_zeros",
      lambda written, lent: [0] * (len(written) - 3) + written[-3:] + [0] * (lent - len(written)))
wrong("a full room refused by the runner", "run", runner, "laid",
      lambda operator, rows, width, left, laid=runner.laid: laid(operator, rows, width, left - 1))


@fault("a full room refused by the evaluator", "evaluate", evaluator, "stand")
def never_full(expression, standing, left):
    if standing >= left and standing:
        raise Refused(6, expression.at)


# The evaluator's count and places.

@fault("the evaluator gives the parent's place", "evaluate", evaluator, "work_out")
def parents_place(expression, variables, left, catalogue):
    try:
        return evaluator.RULES[expression.mark](expression, variables, left, catalogue)
    except Refused as refused:
        if refused.place == expression.at or hasattr(refused, "is_parents"):
            raise
        refused.place, refused.is_parents = expression.at, True
        raise


@fault("count of QC at least 0", "evaluate", evaluator.RULES, b"QC")
def count_alone(expression, variables, left, catalogue):
    xs, count = evaluator.work_out(expression.operands[0], variables, left, catalogue)
    evaluator.stand(expression, 1, left)
    return [len(xs)], count


@fault("count of QX forgets a's items", "evaluate", evaluator.RULES, b"QX")
def step_without_a(expression, variables, left, catalogue):
    xs, count = evaluator.work_out(expression.operands[0], variables, left, catalogue)
    ys = evaluator.or_fail(expression, meaning.step, catalogue, *expression.fields, xs)
    evaluator.stand(expression, len(ys), left)
    return ys, max(count, len(ys))


@fault("count of QS and QO forgets a's items", "evaluate", evaluator, "both")
def sides_without_a(expression, variables, left, catalogue):
    a, b = expression.operands
    xs, x_count = evaluator.work_out(a, variables, left, catalogue)
    ys, y_count = evaluator.work_out(b, variables, left, catalogue)
    return xs, ys, max(x_count, y_count)


@fault("count of QO is of its result", "evaluate", evaluator.RULES, b"QO")
def result_alone(expression, variables, left, catalogue):
    items, _ = evaluator.operate(expression, variables, left, catalogue)
    return items, len(items)


@fault("count of QI adds the condition's items", "evaluate", evaluator.RULES, b"QI")
def condition_stays(expression, variables, left, catalogue):
    c, a, b = expression.operands
    zs, z_count = evaluator.work_out(c, variables, left, catalogue)
    branch = a if evaluator.or_fail(expression, meaning.truth, zs) else b
    xs, x_count = evaluator.work_out(branch, variables, left - len(zs), catalogue)
    return xs, max(z_count, len(zs) + x_count)


@fault("count of QF forgets a's items", "evaluate", evaluator.RULES, b"QF")
def for_without_a(expression, variables, left, catalogue):
    v, (a, b) = expression.fields[0], expression.operands
    xs, count = evaluator.work_out(a, variables, left, catalogue)
    results = []
    for x in xs:
        ys, y_count = evaluator.work_out(b, {**variables, v: [x]}, left - len(results), catalogue)
        count = max(count, len(results) + y_count)
        results += ys
    return results, count


@fault("count of QF forgets the results so far", "evaluate", evaluator.RULES, b"QF")
def for_without_results(expression, variables, left, catalogue):
    v, (a, b) = expression.fields[0], expression.operands
    xs, count = evaluator.work_out(a, variables, left, catalogue)
    results = []
    for x in xs:
        ys, y_count = evaluator.work_out(b, {**variables, v: [x]}, left - len(xs), catalogue)
        count = max(count, len(xs) + y_count)
        results += ys
    return results, count


@fault("count of QT forgets the bound items", "evaluate", evaluator.RULES, b"QT")
def let_without_a(expression, variables, left, catalogue):
    v, (a, b) = expression.fields[0], expression.operands
    xs, x_count = evaluator.work_out(a, variables, left, catalogue)
    ys, y_count = evaluator.work_out(b, {**variables, v: xs}, left, catalogue)
    return ys, max(x_count, y_count)


# The translator.

@fault("every variable in scope lifted", "translate", translator, "lift")
def lift_all(to, tables, lifted, rule, lift=translator.lift):
    return lift(to, tables, tables, rule)


@fault("variables lifted by falling number", "translate", translator, "lift")
def falling(to, tables, lifted, rule):
    return {v: rule(to, tables[v]) for v in sorted(lifted, reverse=True)}


@fault("the variable of a for taken for free in its body", "translate", translator, "free")
def free_though_bound(expression):
    own = {expression.fields[0]} if expression.mark == b"QV" else set()
    return own.union(*map(free_though_bound, expression.operands))


@fault("both branches see the then-loop", "agreement", translator, "else_loop")
def same_loop(to, loop, then_loop, truths):
    return to.minus(then_loop, loop)


@fault("both branches worked out for everybody, then chosen", "agreement", translator.RULES, b"QI")
def both_for_everybody(to, expression, loop, tables):
    c, a, b = expression.operands
    truths = to.add(b"RE", to.expression(c, loop, tables))
    then = to.project(to.add(b"RS", truths, 1), 0)
    otherwise = to.minus(loop, then)
    whole = [to.expression(branch, loop, tables) for branch in (a, b)]
    kept = [to.project(to.join(t, 0, part, 0), 0, 1, 2) for t, part in zip(whole, (then, otherwise))]
    return to.union(*kept)


@fault("branches see unlifted variables", "agreement", translator, "branch")
def unlifted(to, expression, loop, tables):
    return to.expression(expression, loop, tables)


@fault("zeros before counts", "translate", translator, "with_zeros")
def zeros_first(to, counts, loop):
    without_rows = to.minus(loop, to.project(counts, 0))
    return to.union(to.attach(without_rows, 0), counts)


@fault("b taken for a, and a for b", "agreement", translator, "both")
def b_before_a(to, expression, loop, tables, both=translator.both):
    return both(to, expression, loop, tables)[::-1]


@fault("no numbering at the end", "translate", translator, "operators_of")
def no_end(expression):
    to = translator.Translation()
    to.expression(expression, to.add(b"RT"), {})
    return to.operators


# The printing program.

wrong("20,480 bytes of doc.bin", "chartask", chartask, "DOC_BYTES", 20480)
wrong("4,096 bytes for the plan", "chartask", chartask, "PLAN_BYTES", 4096)
wrong("8,191 cells for the engines", "chartask", chartask, "WORK_CELLS", 8191)
wrong("8,193 cells for the engines", "chartask", chartask, "WORK_CELLS", 8193)
wrong("the cell printed for a node or a boolean", "chartask", chartask, "item_line", lambda cell: f"int {cell}")


@fault("equal refusals printed as no", "chartask", chartask, "same")
def no_for_refusals(ran, evaluated, same=chartask.same):
    return "no" if ran.refusal and ran.refusal != 6 else same(ran, evaluated)


@fault("a lack of room printed as no", "chartask", chartask, "same")
def no_for_room(ran, evaluated, same=chartask.same):
    return "no" if ran.refusal == 6 else same(ran, evaluated)


@fault("no same line after the runner's refusal", "chartask", chartask, "lines")
def no_same_line(doc, query_bytes, lines=chartask.lines):
    printed = lines(doc, query_bytes)
    return printed[:1] if printed[0].startswith("refused") else printed


@fault("a same line after the translator's refusal", "chartask", chartask, "lines")
def always_same_line(doc, query_bytes, lines=chartask.lines):
    printed = lines(doc, query_bytes)
    return printed if printed[-1].startswith("same") else printed + ["same yes"]
