"""The printing program: what it prints for the bytes of its two files.

Document 01: 'Marked examples', from 'Program `chartask`' on.
"""

import evaluator
import runner
import translator
from cells import TRUE, is_integer, is_node, rank

DOC_BYTES = 20490
QUERY_BYTES = 1024
PLAN_BYTES = 6144
WORK_CELLS = 8192


def item_line(cell):
    """'each as `int`, `bool` (0 or 1) or `node` (rank)'"""
    if is_integer(cell):
        return f"int {cell}"
    if is_node(cell):
        return f"node {rank(cell)}"
    return f"bool {1 if cell == TRUE else 0}"


def same(ran, evaluated):
    """'whether the engines agree (`yes`, `no`, or `room` if either gave 6)'"""
    if ran.refusal == 6 or evaluated.refusal == 6:
        return "room"
    if ran.refusal or evaluated.refusal:
        return "yes" if ran.refusal == evaluated.refusal else "no"
    return "yes" if runner.items(ran) == evaluated.lent[:evaluated.items] else "no"


def first_lines(ran):
    """'number of items; each'; or '`refused n at p` and no item follows'."""
    if ran.refusal:
        return [f"refused {ran.refusal} at {ran.place}"]
    return [f"items {ran.rows}"] + [item_line(cell) for cell in runner.items(ran)]


def lines(doc, query):
    """All lines; 'after a translator's there is no `same` line'."""
    translated = translator.translate(query, PLAN_BYTES)
    if translated.refusal:
        return [f"refused {translated.refusal} at {translated.place}"]
    ran = runner.run(translated.lent[:translated.plan_bytes], doc, WORK_CELLS)
    # after a runner's 6 the text is decided, and evaluating could take for ever
    evaluated = None if ran.refusal == 6 else evaluator.evaluate(query, doc, WORK_CELLS)
    return first_lines(ran) + [f"same {same(ran, evaluated)}"]


def printed(doc, query):
    """The text: of the files' first 20,490 and 1,024 bytes, a missing file being empty."""
    return "".join(line + "\n" for line in lines(doc[:DOC_BYTES], query[:QUERY_BYTES]))
