"""Cases at the bounds, for each public call and for chartask: a name and what is given.

Every case here is there for a sentence of document 01 or for a reading of it. typed_at_bounds.py has those of
document 02's L1, sheets_at_bounds.py those of L9.
"""

import chartask
import examples
import sheets_at_bounds
import some_catalogues as c
import some_plans as p
import some_queries as q
import typed_at_bounds
from rooms import bytes_needed, cells_needed, items_needed, lengths_around, plan_of, query_of_cells

DOC = examples.EXAMPLE_DOC
UNSOUND_DOC = c.changed(c.EXAMPLE, 1, (9, 1, 1, 2))
# Two fragments. Texts have the numbers of names; ancestors lie before what they hold.
TWO = c.written(c.sized([(0, 1, 1), (1, 1, 2), (2, 3, 2), (2, 1, 1), (3, 3, 7), (1, 3, 1),
                         (0, 1, 2), (1, 3, 2), (1, 1, 2), (2, 1, 1), (3, 1, 2), (2, 3, 1), (1, 1, 65535)]))
FULL = c.written(c.one_fragment(2047) + [(0, 1, 1, 9)]).replace(c.row(2046, 0, 1, 1), c.row(2047, 0, 1, 1))
LAST_OF_FULL = q.step(q.CHILD, 3, 9, q.root(1))


# check_catalogue, check_query

def catalogues():
    for name, doc in c.boundaries():
        yield name, (doc,)


def queries():
    for name, query_bytes in q.boundaries():
        yield name, (query_bytes,)
    for name, query_bytes, _, _ in examples.MARKED:
        yield name, (query_bytes,)


# translate

def bytes_around(name, query_bytes):
    """One byte too few, just enough, one too many, and none."""
    for lent in lengths_around(bytes_needed(query_bytes)):
        yield f"{name}, {lent} bytes lent", (query_bytes, lent)


def translations():
    for mark, query_bytes in q.SMALLEST.items():
        yield from bytes_around(mark.decode(), query_bytes)
    for name, query_bytes in (("the chartask example", q.EXAMPLE), ("every record", q.EVERY_RECORD),
                              ("64 literals", q.wide(127)), ("no query", b""), ("a cut query", b"QS"),
                              ("an unbound variable", b"QV\0"), ("depth 33", q.nest(33, q.NOTHING))):
        yield from bytes_around(name, query_bytes)
    for operators in (511, 512, 513, 514):
        yield from bytes_around(f"{operators} operators", q.of_operators(operators))
    for nested in (1, 5):
        yield from bytes_around(f"{nested} nested if with eight variables", q.lifted_by_if(nested))
    for nested in (1, 20):
        yield from bytes_around(f"{nested} nested for with eight variables", q.lifted_by_for(nested))
    yield from bytes_around("19 and 5 nested for", q.sequence(q.lifted_by_for(19), q.lifted_by_for(5)))
    for family in (q.scopes, q.shadowing, q.eight_variables):
        for name, query_bytes in family():
            yield name, (query_bytes, bytes_needed(query_bytes) + 2)
    for operators in range(515, 608, 4):
        yield f"{operators} operators", (q.of_operators(operators), 20)
    yield "far more bytes than needed", (q.TRUE, 7000)
    for query_bytes in (examples.TEN, q.EXAMPLE, q.of_operators(512)):
        yield "6,144 bytes lent", (query_bytes, chartask.PLAN_BYTES)


# run

def cells_around(name, plan_bytes, doc):
    """One cell too few, just enough, one too many, and none."""
    for lent in lengths_around(cells_needed(plan_bytes, doc)):
        yield f"{name}, {lent} cells lent", (plan_bytes, doc, lent)


def runs():
    for family, doc in ((p.boundaries, DOC), (p.by_what_they_do, TWO), (p.truths_by_order, TWO),
                        (p.functions, TWO), (p.steps_by_groups, TWO)):
        for name, plan_bytes in family():
            yield name, (plan_bytes, doc, cells_needed(plan_bytes, doc) + 2)
    for name, plan_bytes in (("the smallest plan", p.SMALLEST), ("every operator", p.every_operator()),
                             ("literal 10", plan_of(examples.TEN)), ("the chartask example", plan_of(q.EXAMPLE)),
                             ("a failing query", plan_of(q.FAILING)), ("no root", plan_of(q.root(9)))):
        yield from cells_around(name, plan_bytes, DOC)
        yield f"{name}, an unsound catalogue", (plan_bytes, UNSOUND_DOC, 9)
        yield f"{name}, cut, and an unsound catalogue", (plan_bytes[:-1], UNSOUND_DOC, 9)
        yield f"{name}, no rows", (plan_bytes, b"", 300)
        yield f"{name}, 8,192 cells lent", (plan_bytes, DOC, chartask.WORK_CELLS)
    for family in (q.shadowing, q.eight_variables):
        for name, query_bytes in family():
            plan_bytes = plan_of(query_bytes)
            yield name, (plan_bytes, DOC, cells_needed(plan_bytes, DOC) + 2)
    yield "no plan, no room", (b"", b"", 0)
    yield "no plan, an unsound catalogue", (b"", UNSOUND_DOC, 2)


def long_runs():
    """'Only the first 65,536 cells of work count.'"""
    for cells, lents in ((65536, (65535, 65536, 65600)), (65537, (65536, 65600))):
        for lent in lents:
            yield f"{cells} cells, {lent} lent", (p.filling(cells), b"", lent)
    yield "rank 2,047", (plan_of(LAST_OF_FULL), FULL, 100)
    yield from cells_around("512 operators of a query", plan_of(q.of_operators(512)), b"")


# evaluate

def rooms_around(name, query_bytes, doc):
    """One cell too few, just enough, one too many, and none."""
    for lent in lengths_around(items_needed(query_bytes, doc)):
        yield f"{name}, {lent} cells lent", (query_bytes, doc, lent)


def evaluations():
    for name, query_bytes, doc, _ in examples.MARKED:
        yield from rooms_around(name, query_bytes, doc)
    for name, query_bytes in (("the chartask example", q.EXAMPLE), ("every record", q.EVERY_RECORD)):
        yield from rooms_around(name, query_bytes, DOC)
    for mark, query_bytes in q.SMALLEST.items():
        yield from rooms_around(mark.decode(), query_bytes, DOC)
        yield f"{mark.decode()}, an unsound catalogue", (query_bytes, UNSOUND_DOC, 9)
        yield f"{mark.decode()} and a byte, an unsound catalogue", (query_bytes + b"Q", UNSOUND_DOC, 9)
    for family in (q.fields, q.step_fields, q.scopes, q.functions, q.sides, q.conditions, q.all_values, q.all_steps):
        for name, query_bytes in family():
            yield name, (query_bytes, TWO, 70)
    for family in (q.shadowing, q.eight_variables):
        for name, query_bytes in family():
            yield name, (query_bytes, DOC, 40)
    for name, query_bytes in q.standing():
        for lent in range(9):
            yield f"{name}, {lent} cells lent", (query_bytes, DOC, lent)
    for depth in (32, 33):
        yield f"depth {depth}", (q.nest(depth, q.NOTHING), b"", 1)
    for records in (128, 129):
        yield f"{records} records", (q.wide(records), b"", 70)


def long_evaluations():
    """'Only the first 65,536 cells of work count.'"""
    for items, lents in ((65536, (65535, 65536, 65600)), (65537, (65536, 65600))):
        for lent in lents:
            yield f"{items} items, {lent} lent", (q.filling(items), b"", lent)
    for items in (1, 2, 3):
        for lent in (8191, 8192, 8193):
            query_bytes = q.standing_alone(26, q.sequence(*[q.literal(5)] * items))
            yield f"{26 * 315 + items} items, {lent} lent", (query_bytes, c.written(c.one_fragment(315)), lent)
    whole = q.count(q.step(q.DESCENDANT_OR_SELF, 0, 0, q.root(1)))
    for lent in (2048, 2049):
        yield f"2,048 nodes, {lent} lent", (whole, FULL, lent)


# chartask

def printings():
    yield "the chartask example", (DOC, q.EXAMPLE)
    for name, query_bytes, doc, _ in examples.MARKED:
        yield name, (doc, query_bytes)
    for mark, query_bytes in q.SMALLEST.items():
        yield mark.decode(), (DOC, query_bytes)
    yield "both files missing", (b"", b"")
    yield "no catalogue", (b"", q.EXAMPLE)
    yield "no query", (DOC, b"")
    yield "an unsound catalogue", (UNSOUND_DOC, q.EXAMPLE)
    yield "an unsound catalogue and query", (UNSOUND_DOC, q.EXAMPLE + b"Q")
    yield "an unbound variable", (DOC, q.count(q.variable(0)))
    yield "depth 33", (DOC, q.nest(33, q.NOTHING))
    yield "every kind of item", (DOC, q.sequence(q.literal(-2147483648), q.TRUE, q.FALSE, q.step(3, 0, 0, q.root(1)),
                                                 q.literal(2147483647)))
    yield from long_printings()


def long_printings():
    """The plan, the cells and the files at their lengths."""
    for operators in (512, 513):
        yield f"{operators} operators", (b"", q.of_operators(operators))
    yield "64 literals", (b"", q.wide(127))
    for cells in range(chartask.WORK_CELLS - 6, chartask.WORK_CELLS + 7):
        yield f"{cells} cells", (b"", query_of_cells(cells))
    for rows in (2048, 2049, 2050):
        yield f"{rows} fragments", (c.row(0, 0, 1, 1) * rows, q.root(255))
    yield from lacking_room()
    yield "a query of 1,100 bytes", (b"", q.NOTHING + b"\0" * 1098)
    yield "a query of 1,100 bytes, no end", (b"", b"QC" * 550)


def lacking_room():
    """Either engine by itself, and both, short of 8,192 cells; and one short where the other fails."""
    doc = c.written(c.one_fragment(315))
    for items in (1, 2, 3):
        body = q.sequence(*[q.literal(5)] * items)
        yield f"{26 * 315 + items} items stand", (doc, q.standing_alone(26, body))
        yield f"{26 * 315 + items} items stand in a for", (doc, q.standing_alone(26, q.each(2, q.literal(5), body)))
        yield f"{26 * 315 + items} items stand in a count", (doc, q.standing_alone(26, q.count(body)))
        yield f"{26 * 315 + items} items stand in a branch", (doc, q.standing_alone(26, q.choose(body, body, body)))
    yield "the evaluator lacks room, then a failure", (doc, q.standing_alone(27, q.FAILING))
    yield "a failure before the evaluator lacks room", (doc, q.let(2, q.FAILING, q.standing_alone(27, q.NOTHING)))
    many = q.doubled(12, q.count(q.variable(0)))
    yield "both lack room", (doc, many)
    yield "the runner lacks room", (doc, q.doubled(9, q.count(q.variable(0))))
    yield "the runner lacks room, then a failure", (b"", q.doubled(9, q.FAILING))
    yield "128 items", (b"", q.doubled(7, q.variable(0)))


FAMILIES = {"check_catalogue": (catalogues,), "check_query": (queries,), "translate": (translations,),
            "run": (runs, long_runs), "evaluate": (evaluations, long_evaluations), "chartask": (printings,),
            **typed_at_bounds.FAMILIES, **sheets_at_bounds.FAMILIES}


def inputs(call):
    """Name and input of every case at a bound."""
    for family in FAMILIES[call]:
        yield from family()
