"""Planting a fault: one small part of the model replaced, and the cases that tell.

A fault names the calls whose cases must tell of it. `agreement` stands for chartask's cases,
where it is not enough that a place or a plan's byte has changed: the engines must disagree,
and chartask print `same no`. `shuffled` stands for the same cases, where chartask's text must
stay and only a run whose rows somebody moves may end otherwise.
"""

import struct
from contextlib import contextmanager
from typing import NamedTuple

import chartask
import generate
import shuffling
from cells import Refused
from rooms import plan_of

SEEDS = (1, 2)

FAULTS = []


class Fault(NamedTuple):
    """What is wrong, whose cases must tell, and what stands instead of which part."""
    name: str
    calls: tuple
    where: object
    part: object
    instead: object


def wrong(name, calls, where, part, instead):
    """Notes a fault and its replacement, a value."""
    FAULTS.append(Fault(name, tuple(calls.split()), where, part, instead))


def fault(name, calls, where, part):
    """Notes a fault and its replacement, the function below."""
    def note(instead):
        wrong(name, calls, where, part, instead)
        return instead
    return note


def replace(where, part, new):
    """Puts the new part in place, a rule of a dict or a name of a module or class; gives the one before."""
    if isinstance(where, dict):
        before, where[part] = where[part], new
    else:
        before = getattr(where, part)
        setattr(where, part, new)
    return before


@contextmanager
def planted(fault):
    """The model with the fault in it."""
    before = replace(fault.where, fault.part, fault.instead)
    try:
        yield
    finally:
        replace(fault.where, fault.part, before)


def answer_now(case):
    """What the model answers now, or the error that it ends in."""
    try:
        return generate.CALLS[case.call](*case.given)
    except (IndexError, KeyError, TypeError, ValueError, struct.error) as error:
        return type(error).__name__


def leans(doc, query_bytes):
    """Whether the query's plan leans on the order of rows: shuffled, its run over this catalogue ends otherwise."""
    plan_bytes = plan_of(query_bytes[:chartask.QUERY_BYTES])
    try:
        work = plan_bytes and shuffling.work(plan_bytes, doc[:chartask.DOC_BYTES], chartask.WORK_CELLS)
    except Refused:
        return False
    return bool(work) and shuffling.leaning(work, SEEDS, turning=False)[0] is not None


def tells(call, case):
    """Whether the case shows that the model is at fault."""
    if call == "agreement":
        return answer_now(case).endswith("same no\n")
    if call == "shuffled":
        return leans(*case.given)
    return answer_now(case) != case.answer


def first_to_tell(fault, cases):
    """The first case that tells: its call, its number and its name; or None."""
    with planted(fault):
        for call in fault.calls:
            for number, case in enumerate(cases[call]):
                if tells(call, case):
                    return call, number, case.name
    return None


def told_in_a_plain_run(fault, cases):
    """Whether chartask's text of some case is another with the fault planted, nobody moving rows."""
    return first_to_tell(fault._replace(calls=("chartask",)), cases) is not None


def report(drawn, seed):
    """A line for each fault, and whether it was caught; last, how many were."""
    cases = {call: list(generate.cases(call, drawn, seed)) for call in generate.CALLS}
    total = sum(map(len, cases.values()))
    cases["agreement"] = cases["shuffled"] = cases["chartask"]
    caught = 0
    for fault in FAULTS:
        found = first_to_tell(fault, cases)
        if found is None:
            yield f"NOT CAUGHT: {fault.name}", False
            continue
        caught += 1
        call, number, name = found
        yield f"caught by {call} case {number}: {fault.name} ({name})", True
        if call == "shuffled":
            alone = not told_in_a_plain_run(fault, cases)
            yield f"    {'and by no' if alone else 'BUT ALSO BY A'} plain run of {len(cases['chartask'])}", alone
    yield f"{caught} of {len(FAULTS)} faults caught by {total} cases", caught == len(FAULTS)
