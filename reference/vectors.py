"""Writes the cases that program `stored` is run on, and what it must print.

    python3 reference/vectors.py                the two checks: checks.bin, and its part of stdout
    python3 reference/vectors.py evaluate       evaluations.bin and its part; likewise translate, run, chartask,
                                                read_text (typed.bin) and write_text (written.bin)
    python3 reference/vectors.py all            all of these
    python3 reference/vectors.py faults         plants the faults and tries them on the files as they stand
    python3 reference/vectors.py order          the faults of order: how many stored texts tell, and how many shuffled runs

How the files are laid out is said in stored.py. What must be printed is the model's alone. Of typed texts both readers
must give the same before a file is written.
"""

import random
import struct
import sys

sys.dont_write_bytecode = True

import at_bounds
import check
import check_texts
import faults
import faults_in_engines  # each of the five notes its faults
import faults_in_meaning
import faults_in_order
import faults_in_readers
import faults_in_texts
import generate
import query
import some_queries
import some_texts
import stored
import typed
from chartask import DOC_BYTES, QUERY_BYTES
from rooms import bytes_needed, cells_needed, items_needed

SEED = 7
MOST_LENT = 5000

# How many are drawn beside the cases at a bound; where something is lent, each is tried with several lengths.
DRAWN = {"check_catalogue": 1800, "check_query": 2400, "evaluate": 1000, "run": 900, "translate": 860,
         "chartask": 1990, "read_text": 700, "write_text": 300}


# The calls that have no file of cases.
NOT_STORED = {"read_sheets", "write_sheets"}


def lent_lengths(rng, needed):
    """One less than needed, enough, one more; and any below, where the place of a refusal moves."""
    return sorted({rng.randint(0, needed), max(needed - 1, 0), needed, needed + 1})


def near_512_operators(rng):
    """A drawn query after many lifted variables: its plan has about 512 operators, mostly more."""
    while True:
        query_bytes = some_queries.sequence(some_queries.lifted_by_for(rng.randint(14, 20)), some_queries.drawn(rng, 40))
        if not query.check_query(query_bytes).refusal:
            return query_bytes


def drawn_evaluation(rng):
    name, query_bytes, doc = generate.drawn_work(rng)
    return name, (query_bytes, doc), items_needed(query_bytes, doc)


def drawn_run(rng):
    name, (plan_bytes, doc, _) = generate.drawn_run(rng)
    return name, (plan_bytes, doc), cells_needed(plan_bytes, doc)


def drawn_translation(rng):
    if rng.random() < 0.06:
        query_bytes = near_512_operators(rng)
        return "near 512 operators", (query_bytes,), bytes_needed(query_bytes)
    name, (query_bytes, _) = generate.drawn_translation(rng)
    return name, (query_bytes,), bytes_needed(query_bytes)


def drawn_typing(rng):
    text = some_texts.any_text(rng, rng.choice((6, 14, 30)))
    return "drawn", (text,), typed.read_text(text, MOST_LENT).record_bytes


def drawn_wording(rng):
    query_bytes = some_queries.drawn(rng, rng.choice((4, 12, 30)))
    if rng.random() < 0.15:
        query_bytes = some_queries.damaged(rng, query_bytes)
    return "drawn", (query_bytes,), typed.write_text(query_bytes, MOST_LENT).text_bytes


LENT = {"evaluate": drawn_evaluation, "run": drawn_run, "translate": drawn_translation, "read_text": drawn_typing,
        "write_text": drawn_wording}


def inputs_with_lengths(call):
    """Name and input of every case at a bound, then of the drawn ones, each with its lent lengths."""
    yield from at_bounds.inputs(call)
    rng = random.Random(f"stored {call} {SEED}")
    for _ in range(DRAWN[call]):
        name, given, needed = LENT[call](rng)
        for lent in lent_lengths(rng, needed):
            yield name, (*given, lent)


def inputs_of_chartask():
    """Each once, cut to the bytes that chartask reads."""
    seen = set()
    for name, (doc, query_bytes) in generate.inputs("chartask", DRAWN["chartask"], SEED):
        given = doc[:DOC_BYTES], query_bytes[:QUERY_BYTES]
        if given not in seen:
            seen.add(given)
            yield name, given


def cases(call):
    """The call's cases, with the model's answers."""
    if call in stored.CHECKS:
        return list(generate.cases(call, DRAWN[call], SEED))
    inputs = inputs_of_chartask() if call == "chartask" else inputs_with_lengths(call)
    return [generate.Case(call, name, given, generate.CALLS[call](*given)) for name, given in inputs]


def write_checks():
    """The two checks share a file."""
    return stored.write("checks", [case for call in stored.CHECKS for case in cases(call)])


def tells(call, given, text, number):
    """Whether the stored case shows the fault that is planted now."""
    if call == "shuffled":
        return faults.leans(*given)
    try:
        now = stored.printed_now("chartask" if call == "agreement" else call, given, number)
    except (IndexError, KeyError, TypeError, ValueError, struct.error) as error:
        now = type(error).__name__
    return now.endswith("same no\n") if call == "agreement" else now != text


def first_to_tell(fault, kept):
    """The first stored case that tells of the fault: its call and number; or None."""
    with faults.planted(fault):
        for call in fault.calls:
            for given, text, number in kept["chartask" if call in ("agreement", "shuffled") else call]:
                if tells(call, given, text, number):
                    return call, number
    return None


def told_in_a_plain_run(fault, kept):
    """Whether some stored text of chartask is another with the fault planted, nobody moving rows."""
    return first_to_tell(fault._replace(calls=("chartask",)), kept) is not None


def plant_faults():
    """A line for each fault that no stored case tells of, and last how many are caught."""
    kept = {call: stored.read(call) for call in stored.FILE_OF}
    for call, its_cases in kept.items():
        wrong = [number for given, text, number in its_cases if stored.printed_now(call, given, number) != text]
        yield f"{call}: {len(its_cases)} stored cases, {len(wrong)} of them not as the model prints them"
    caught = moved = 0
    all_faults = [fault for fault in faults.FAULTS if not NOT_STORED.intersection(fault.calls)]
    for fault in all_faults:
        found = first_to_tell(fault, kept)
        caught += found is not None
        if found is None:
            yield f"NOT CAUGHT: {fault.name}"
        elif found[0] == "shuffled":
            moved += 1
            if told_in_a_plain_run(fault, kept):
                yield f"NOT CAUGHT by moved rows alone, as it is noted: {fault.name}"
    yield f"{caught} of {len(all_faults)} faults caught by the stored cases, {moved} of them only where rows are moved"


def count_of_order():
    """For each fault of order: the stored texts that change, and the stored queries whose plan then leans on order."""
    kept = stored.read("chartask")
    for fault in faults.FAULTS:
        if "shuffled" in fault.calls:
            with faults.planted(fault):
                changed = sum(stored.printed_now("chartask", given, number) != text for given, text, number in kept)
                leaning = sum(faults.leans(*given) for given, _, _ in kept)
            yield f"{fault.name}: {changed} of {len(kept)} texts change, {leaning} plans lean on order"


def report(what):
    """The lines of one command."""
    if what == "faults":
        yield from plant_faults()
    if what == "order":
        yield from count_of_order()
    if what in ("checks", "all"):
        yield write_checks()
    for call in stored.SHARED:
        if what in (call, "all"):
            its_cases = cases(call)
            if call == "read_text":
                texts = dict.fromkeys(case.given[0] for case in its_cases)
                yield check_texts.compare("typed", check_texts.TYPED, texts)
            yield stored.write(stored.FILE_OF[call], its_cases)


def main(arguments):
    """The exit status: 2 for a word that is no command, 1 where a fault is not caught or the readers differ."""
    what = arguments[0] if arguments else "checks"
    if what not in ("checks", "all", "faults", "order", *stored.SHARED):
        print(__doc__)
        return 2
    well = True
    try:
        for text in report(what):
            well = well and not text.startswith("NOT CAUGHT")
            print(text, flush=True)
    except check.Wrong as wrong:
        print(f"WRONG: {wrong}")
        return 1
    return 0 if well else 1


if __name__ == "__main__":
    sys.exit(main(sys.argv[1:]))
