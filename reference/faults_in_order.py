"""Faults of order: a numbering that leaves a key out and takes rows as they stand.

Document 01: 'Translation', and 'Where students slip'. Each fault keeps as many keys as the rule has, so that the plan
is as long as before. The first makes the engines disagree. The others give the right items in every plain run, because
there the rows happen to stand well; only a run whose rows somebody moves tells (shuffling.py).
"""

import translator
from faults import fault
from plan import NO_COLUMN


@fault("the end of a for numbered as its rows stand", "agreement shuffled", translator, "body_by_inner_iteration")
def results_as_they_stand(to, body, to_map):
    return to.project(to.number(to.join(body, 0, to_map, 1), 3, 3, 3), 3, 5, 2)


@fault("each turn's results of a for numbered as their rows stand", "shuffled", translator, "body_by_inner_iteration")
def turns_results_as_they_stand(to, body, to_map):
    return to.project(to.number(to.join(body, 0, to_map, 1), 3, 0, 0), 3, 5, 2)


@fault("the turns of a for numbered as the rows stand", "shuffled", translator, "turns_in_order")
def turns_as_they_stand(to, a):
    return to.number(a, NO_COLUMN, 0, 0)


@fault("a union numbered as its rows stand", "shuffled", translator, "united_by_side")
def union_as_it_stands(to, united):
    return to.number(united, 0, 0, 0)


@fault("each side of a union numbered as its rows stand", "shuffled", translator, "united_by_side")
def sides_as_they_stand(to, united):
    return to.number(united, 0, 3, 3)


@fault("the nodes of a step numbered as the rows stand", "shuffled", translator, "nodes_by_rank")
def nodes_as_they_stand(to, reached):
    return to.number(reached, 0, 0)


@fault("the last numbering by the rows as they stand", "shuffled", translator, "items_by_place")
def items_as_they_stand(to, result):
    return to.number(result, 0, 0)
