"""The self check: marked examples, the agreement of both engines, rows that are moved, least room, what the cases cover.

Document 01: 'Marked examples', 'What the contracts owe' (demand 3), 'Translation' (the bound), 'Room'.
"""

import pathlib
from collections import Counter

import chartask
import evaluator
import examples
import generate
import plan
import query
import runner
import shuffling
import some_queries
import translator
from rooms import plan_of

PLENTY_OF_BYTES = 12 * plan.MOST_OPERATORS
PLENTY_OF_CELLS = 8192
FOLDERS = pathlib.Path(__file__).resolve().parent.parent / "examples"


class Wrong(Exception):
    """Something that document 01 asks for does not hold."""


def hold(holds, what):
    """What must hold."""
    if not holds:
        raise Wrong(what)


def both_engines(query_bytes, doc, cells):
    """The runner's answer for the query's plan, and the evaluator's."""
    return runner.run(plan_of(query_bytes), doc, cells), evaluator.evaluate(query_bytes, doc, cells)


def items_or_refusal(ran, evaluated):
    """For each engine its items, or the number of its refusal."""
    return (ran.refusal or runner.items(ran)), (evaluated.refusal or evaluated.lent[:evaluated.items])


def check_marked_examples():
    """The examples 1 to 12."""
    for name, query_bytes, doc, items in examples.MARKED:
        expected = 7 if items is examples.FAILS else items
        answers = items_or_refusal(*both_engines(query_bytes, doc, 100000))
        hold(answers == (expected, expected), f"{name} gave {answers}")
    translated = translator.translate(examples.TEN, PLENTY_OF_BYTES)
    plan_bytes = translated.lent[:translated.plan_bytes]
    hold(translated[:4] == (0, 0, examples.TEN_OPERATORS, examples.TEN_BYTES), "11. operators and bytes")
    ran = runner.run(plan_bytes, b"", examples.TEN_CELLS)
    hold(ran.cells_filled == examples.TEN_CELLS and runner.items(ran) == [10], "11. cells filled")
    hold(runner.run(plan_bytes, b"", examples.TEN_CELLS - 1)[:2] == (6, examples.TEN_PLACE), "11. refusal 6")
    return f"marked examples: {len(examples.MARKED) + 1} of 12 hold"


def check_chartask_example():
    """The example of the printing program, and its figures."""
    doc, query_bytes = examples.EXAMPLE_DOC, examples.EXAMPLE_QUERY
    translated = translator.translate(query_bytes, PLENTY_OF_BYTES)
    ran, evaluated = both_engines(query_bytes, doc, chartask.WORK_CELLS)
    figures = translated.operators, translated.plan_bytes, ran.cells_filled, evaluated.count
    hold(figures == (examples.EXAMPLE_OPERATORS, examples.EXAMPLE_BYTES, examples.EXAMPLE_CELLS,
                     examples.EXAMPLE_COUNT), f"chartask's example: {figures}")
    hold(chartask.printed(doc, query_bytes) == examples.EXAMPLE_TEXT, "chartask's text")
    shown = "{} operators, {} plan bytes, {} cells filled, count {}".format(*figures)
    return f"chartask's example: {shown}; text as printed"


def per_record(query_bytes, operators):
    """'A plan never has more than 37 operators per query record plus 3.' How many there are per record."""
    records = query.check_query(query_bytes).records
    hold(operators <= 37 * records + 3, f"{operators} operators for {query_bytes.hex()}")
    return (operators - 3) / records


def check_bound():
    """The bound where most variables are lifted."""
    queries = [some_queries.lifted_by_if(nested) for nested in range(6)]
    queries += [some_queries.lifted_by_for(nested) for nested in range(21)]
    most = max(per_record(each, len(translator.operators_of(query.read(each)))) for each in queries)
    return f"the bound of 37 operators per record plus 3: at most {most:.1f} with eight variables lifted"


def agreement(query_bytes, doc):
    """Demand 3 for one query and catalogue: 'same items', 'both fail', 'room' or 'past 512 operators'.

    A plan that did not pass the plan check would give the runner's refusal 5, and that does not hold."""
    translated = translator.translate(query_bytes, PLENTY_OF_BYTES)
    if translated.refusal:
        return "past 512 operators"
    per_record(query_bytes, translated.operators)
    ran, evaluated = items_or_refusal(
        runner.run(translated.lent[:translated.plan_bytes], doc, PLENTY_OF_CELLS),
        evaluator.evaluate(query_bytes, doc, PLENTY_OF_CELLS))
    if 6 in (ran, evaluated):
        return "room"
    hold(ran == evaluated and (ran == 7 or isinstance(ran, list)),
         f"{query_bytes.hex()} over {doc.hex()}: the runner {ran}, the evaluator {evaluated}")
    return "both fail" if ran == 7 else "same items"


def check_agreement(n, seed):
    """Demand 3, the bound and the plan check on n drawn queries with catalogues."""
    seen = Counter(agreement(query_bytes, doc) for query_bytes, doc in generate.pairs(n, seed))
    tally = ", ".join(f"{what} {times}" for what, times in seen.most_common())
    return f"demand 3, the bound of 37 and the plan check on {n} queries with catalogues: {tally}"


def moved(query_bytes, doc, seeds, turning):
    """The query's plan runs to the same end whoever moves its rows; how many hands were tried. None without a plan."""
    plan_bytes = plan_of(query_bytes)
    if plan_bytes is None:
        return None
    hand, tried = shuffling.leaning(shuffling.work(plan_bytes, doc, PLENTY_OF_CELLS), seeds, turning)
    hold(hand is None, f"{query_bytes.hex()} over {doc.hex()}: the plan leans on the order of rows, {hand}")
    return tried


def tally_of_moved(tries):
    """How many plans there were, how many of them with rows to move, and the runs."""
    tries = [tried for tried in tries if tried is not None]
    return f"{len(tries)} plans, {sum(map(bool, tries))} of them with rows to move, {sum(tries)} runs"


def check_moved_examples():
    """Every folder of examples/, with ten seeds and each table turned round alone."""
    given = [((folder / "query.bin").read_bytes(), (folder / "doc.bin").read_bytes())
             for folder in sorted(FOLDERS.iterdir()) if (folder / "query.bin").exists()]
    tries = [moved(query_bytes, doc, range(1, 11), True) for query_bytes, doc in given]
    return f"rows moved in the examples, the same items and cells: {tally_of_moved(tries)}"


def check_moved(n, seed, seeds, turning):
    """The same on n drawn queries with catalogues."""
    tries = [moved(query_bytes, doc, seeds, turning) for query_bytes, doc in generate.pairs(n, seed)]
    how = f"shuffled {len(seeds)} time{'s' if len(seeds) > 1 else ''}{', and each table turned alone' if turning else ''}"
    return f"rows moved in drawn queries ({how}), the same refusals, items and cells: {tally_of_moved(tries)}"


def check_plan(query_bytes, plan_bytes):
    """The written plan reads back to the operators that were written."""
    read_back = [(mark, fields) for mark, fields, _ in plan.read(plan_bytes)[0]]
    meant = [(mark, fields) for mark, fields, _ in translator.operators_of(query.read(query_bytes))]
    hold(read_back == meant, f"the plan of {query_bytes.hex()}")


def is_least_room(needed, call):
    """Whether so many lent cells are accepted, and one less is refused for room."""
    return call(needed).refusal == 0 and (needed == 0 or call(needed - 1).refusal == 6)


def check_closely(n, seed):
    """Plans read back; the cells filled, and the evaluator's count, are the least room that is not refused."""
    for query_bytes, doc in generate.pairs(n, seed):
        plan_bytes = plan_of(query_bytes)
        check_plan(query_bytes, plan_bytes)
        ran, evaluated = both_engines(query_bytes, doc, PLENTY_OF_CELLS)
        if ran.refusal or evaluated.refusal:
            continue
        hold(is_least_room(ran.cells_filled, lambda lent: runner.run(plan_bytes, doc, lent))
             and is_least_room(evaluated.count, lambda lent: evaluator.evaluate(query_bytes, doc, lent)),
             f"least room of {query_bytes.hex()} over {doc.hex()}")
    return f"{n} more: plans read back, cells filled and count suffice as room, one less does not"


def outcome(case):
    """What a case ends in: the refusal's number, or for chartask the words of the first and last line."""
    if case.call != "chartask":
        return f"refusal {case.answer.refusal}" if case.answer.refusal else "accepted"
    lines = case.answer.split("\n")
    first = " ".join(lines[0].split()[:2]) if lines[0].startswith("refused") else "items"
    return f"{first}, {lines[-2]}" if lines[-2].startswith("same") else first


def check_cases(n, seed):
    """How many cases each call has, and what they end in."""
    for call in generate.CALLS:
        seen, size = Counter(), 0
        for case in generate.cases(call, n, seed):
            seen[outcome(case)] += 1
            size += sum(len(part) for part in case.given if isinstance(part, bytes))
        tally = ", ".join(f"{what} {times}" for what, times in sorted(seen.items()))
        yield f"cases of {call}: {sum(seen.values())} ({size} bytes given): {tally}"


def report(pairs, drawn, seed):
    """Every check in turn; each gives a line."""
    yield check_marked_examples()
    yield check_chartask_example()
    yield check_bound()
    yield check_agreement(pairs, seed)
    yield check_moved_examples()
    yield check_moved(pairs // 10, seed + 2, (1,), False)
    yield check_closely(pairs // 20, seed + 1)
    yield from check_cases(drawn, seed)


def report_moved(pairs, seed):
    """The runs whose rows are moved, all of them."""
    yield check_moved_examples()
    yield check_moved(pairs, seed + 2, (1, 2), True)
