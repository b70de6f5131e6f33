"""Drawn queries with their catalogues, run on two other engines, Saxon-HE and BaseX, and compared with the model.

    python3 reference/against-engines.py [pairs] [seed]

Each query is written as XQuery 1.0, its catalogue as element constructors. Where document 01 is narrower than
XQuery 1.0 the query is not compared, and is counted under the narrowing's name. The jars are those of the Debian
packages libsaxonhe-java and basex, or those that SAXON_JAR and BASEX_JAR name.
"""

import os
import pathlib
import subprocess
import sys
import tempfile
from collections import Counter

sys.dont_write_bytecode = True

import at_bounds
import bytes as tool
import catalogue
import chartask
import evaluator
import generate
import meaning
import query
import xquery
from cells import FALSE, MOST_CELLS, TRUE, Refused, is_boolean, is_node, node

HERE = pathlib.Path(__file__).resolve().parent
ENGINES = {"Saxon-HE": ("engines/Saxon.java", "SAXON_JAR", "libsaxonhe-java"),
           "BaseX": ("engines/BaseX.java", "BASEX_JAR", "basex")}
OTHER = {"Saxon-HE": "BaseX", "BaseX": "Saxon-HE"}
PAIRS = 20000
SEED = 11

# A fragment is a tree of its own, without a document node above it. `root(k)` and the value of a text are not
# XQuery's, so they are functions here; all else is XQuery's own.
PROLOG = """xquery version "1.0";
declare variable $roots := ({roots});
declare function local:root($k as xs:integer) {{ if ($k le count($roots)) then $roots[$k] else error() }};
declare function local:value($x) {{
  if ($x instance of text()) then xs:integer(data($x)) else if ($x instance of node()) then error() else $x }};
declare function local:rank($n, $k) {{
  if (root($n) is $roots[$k]) then count($n/ancestor::node()) + count($n/preceding::node())
  else count($roots[$k]/descendant-or-self::node()) + local:rank($n, $k + 1) }};
declare function local:told($x) {{
  if ($x instance of node()) then concat("node ", local:rank($x, 1))
  else if ($x instance of xs:boolean) then concat("bool ", if ($x) then 1 else 0) else concat("int ", $x) }};
string-join(for $x in ({query}) return local:told($x), ", ")"""

TEXTS = xquery.Texts(lambda k: f"local:root({k})", lambda a: f"(for $x in {a} return local:value($x))")


def xquery_text(expression, rows):
    """The whole query, in one line."""
    roots = ", ".join(xquery.xml(rows.rows[fragment.start:fragment.stop]) for fragment in rows.fragments)
    return PROLOG.format(roots=roots, query=TEXTS.text(expression)).replace("\n", " ")


# What the model answers.

def why(refused):
    """Why it failed: the rule in which the failure arose, and what was given to it."""
    frame = refused.__context__.__traceback__
    while frame.tb_next:
        frame = frame.tb_next
    rule, given = frame.tb_frame.f_code.co_name, frame.tb_frame.f_locals
    if rule == "operate":
        return "several items beside an empty side" if not (given["xs"] and given["ys"]) else "an operand of several items"
    if rule != "arith":
        return REASONS[rule]
    if is_node(given["a"]) or is_node(given["b"]):
        return "a node as an operand"
    both = is_boolean(given["a"]) and is_boolean(given["b"])
    return "booleans compared" if both and given["f"] in (5, 6) else "an operand of another kind"


REASONS = {"root": "no such fragment", "quotient": "a zero divisor", "in_range": "a result outside 32 bits",
           "value": "the value of an element", "truth": "a condition without truth", "all_nodes": "a step from no node"}

# In these document 01 fails, and XQuery 1.0 goes on or may go on.
NARROWER = ("a result outside 32 bits", "the value of an element", "a node as an operand", "booleans compared",
            "several items beside an empty side")


def model(query_bytes, doc):
    """The items as the engines tell them, or None and why it fails."""
    try:
        items, _ = evaluator.evaluated(query_bytes, doc, MOST_CELLS)
    except Refused as refused:
        return None, "room" if refused.number == 6 else why(refused)
    return ", ".join(map(told, items)), None


def told(cell):
    """The item as the engines tell it; a number below all integers has its own text."""
    return f"int {cell}" if cell < 0 else chartask.item_line(cell)


# The engines.

def jar(variable, package):
    """The engine's jar: named, or that of its Debian package."""
    if variable in os.environ:
        return os.environ[variable]
    listed = subprocess.run(["dpkg", "-L", package], capture_output=True, text=True, check=True).stdout.split()
    return next(path for path in listed if path.endswith(".jar"))


def answers(name, texts, *words):
    """The engine's answer to each query, all in one process."""
    source, variable, package = ENGINES[name]
    with tempfile.TemporaryDirectory() as folder:
        command = ["java", "-Xss64m", f"-Dorg.basex.path={folder}", "-cp", jar(variable, package), HERE / source, *words]
        done = subprocess.run(command, input="\n".join(texts) + "\n", stdout=subprocess.PIPE,
                              stderr=subprocess.DEVNULL, text=True, check=True)
    lines = done.stdout.split("\n")[:-1]
    assert len(lines) == len(texts), f"{name} answered {len(lines)} of {len(texts)}"
    return lines


# The comparison.

# An operand, a step and a condition of the wrong type.
TYPE_ERRORS = ("XPTY0004", "XPTY0019", "FORG0006")
LEFT_OUT = "failing work left out"


class Pair:
    """A query with its catalogue, and the name under which it is left out, if any."""

    def __init__(self, query_bytes, doc):
        rows = catalogue.read(doc)
        self.given = query_bytes, doc
        self.text = xquery_text(query.read(query_bytes), rows)
        self.shown = xquery.Texts(lambda k: f"root({k})").text(query.read(query_bytes))
        self.items, self.reason = model(query_bytes, doc)
        self.left_out = self.reason if self.reason in (*NARROWER, "room") else None
        if xquery.texts_side_by_side(rows.rows):
            self.left_out = "texts side by side"


def lenient(items):
    """The model's rule for a record, with these items for whatever fails; a failing condition takes the first branch."""
    def work_out(expression, variables, left, rows):
        try:
            return evaluator.RULES[expression.mark](expression, variables, left, rows)
        except Refused:
            if expression.mark == b"QI":
                return evaluator.work_out(expression.operands[1], variables, left, rows)
            return items, len(items)
    return work_out


def goes_on_to(pair, answer):
    """Whether the answer is the model's with some items for all that fails: the failing work was left out."""
    strict = evaluator.work_out, meaning.in_range
    try:
        meaning.in_range = lambda number: number
        for items in ([], [0], [1], [FALSE], [TRUE], [node(0)], [1, 2]):
            evaluator.work_out = lenient(items)
            if model(*pair.given)[0] == answer:
                return True
    finally:
        evaluator.work_out, meaning.in_range = strict
    return False


def verdict(pair, answer):
    """How the engine's answer stands to the model's."""
    word, _, code = answer.partition(" ")
    if word == "broken":
        return f"the engine breaks off, {code}" + (", where the model fails" if pair.reason else "")
    if word in ("error", "early") and pair.reason:
        return "both fail"
    if word == "early" and code in TYPE_ERRORS:
        return "a type error reported before the work, in what is never worked out"
    if word in ("error", "early"):
        return f"ONLY THE ENGINE FAILS, {code}"
    if pair.reason:
        return LEFT_OUT if goes_on_to(pair, answer) else f"ONLY THE MODEL FAILS, {pair.reason}"
    return "same items" if answer == pair.items else "OTHER ITEMS"


def shortest(what, compared, told, verdicts):
    """The shortest query of a verdict, or all that should not be."""
    shown = sorted((len(pair.shown), pair.shown, answer, pair.items if pair.reason is None else f"fails, {pair.reason}")
                   for pair, answer, its in zip(compared, told, verdicts) if its == what)
    for _, text, answer, items in shown[:None if what.split()[0].isupper() else 1]:
        yield f"    such as {text}: the engine {answer!r}, the model {items!r}"


def second_opinions(engine, compared, verdicts):
    """An odd verdict with what the other engine says, and what this one says when it does not optimize."""
    others, own = verdicts[OTHER[engine]], list(verdicts[engine])
    odd = [number for number, its in enumerate(own) if its.split()[0].isupper() or its.startswith("the engine breaks")]
    for number in odd:
        agrees = others[number] in ("same items", "both fail")
        own[number] += f"; {OTHER[engine]} {'sides with the model' if agrees else others[number]}"
    if odd and engine == "Saxon-HE":
        for number, answer in zip(odd, answers(engine, [compared[number].text for number in odd], "plain")):
            own[number] += f"; {engine} without optimizing: {verdict(compared[number], answer)}"
    return own


def report_left_out(verdicts):
    """Where an engine left failing work out, whether the other one fails there as the model does."""
    ways = [sorted(pair) for pair in zip(*verdicts.values()) if LEFT_OUT in pair]
    both = sum(way == [LEFT_OUT, LEFT_OUT] for way in ways)
    confirmed = sum("both fail" in way for way in ways)
    yield (f"failing work left out by an engine in {len(ways)} queries: the other fails in {confirmed}, both leave it out "
           f"in {both}, the other breaks off in {len(ways) - confirmed - both}")


def at_bounds_given():
    """The evaluator's sound cases at a bound: every function, side, condition, value, axis and test."""
    for query_bytes, doc in dict.fromkeys((given[0], given[1]) for _, given in at_bounds.evaluations()):
        if not (query.check_query(query_bytes).refusal or catalogue.check_catalogue(doc).refusal):
            yield query_bytes, doc


# The examples, as a class would run them: query.xq over catalogue.xml, as bytes.py prints them for other engines.

def example_text(folder):
    roots = tool.fragments_of((folder / "catalogue.xml").read_bytes())
    query_text = tool.in_xquery((folder / "query.xq").read_bytes())
    program = PROLOG.format(roots=", ".join(roots), query=query_text)
    return program.replace("declare variable", f"{tool.DATA}\ndeclare variable", 1).replace("\n", " ")


def report_examples():
    """How many of the examples that give items give the same ones from each engine."""
    giving = [file.parent for file in sorted((HERE.parent / "examples").glob("*/expected"))
              if file.read_text().startswith("items")]
    expected = [", ".join((folder / "expected").read_text().split("\n")[1:-2]) for folder in giving]
    for engine in ENGINES:
        told = answers(engine, list(map(example_text, giving)))
        same = sum(map(str.__eq__, told, expected))
        yield f"{engine}: {same} of the {len(giving)} examples that give items give the same"


def report(n, seed):
    """What was compared and left out, and each engine's tally."""
    at_bounds_pairs = [Pair(*given) for given in at_bounds_given()]
    pairs = at_bounds_pairs + [Pair(*given) for given in generate.pairs(n, seed)]
    compared = [pair for pair in pairs if not pair.left_out]
    yield f"{len(at_bounds_pairs)} queries at a bound and {n} drawn ones, each with a catalogue: {len(compared)} compared"
    for name, times in Counter(pair.left_out for pair in pairs if pair.left_out).most_common():
        yield f"not compared: {name} {times}"
    told = {engine: answers(engine, [pair.text for pair in compared]) for engine in ENGINES}
    verdicts = {engine: list(map(verdict, compared, told[engine])) for engine in ENGINES}
    for engine in ENGINES:
        opinions = second_opinions(engine, compared, verdicts)
        for what, times in Counter(opinions).most_common():
            yield f"{engine}: {what} {times}"
            if what not in ("same items", "both fail"):
                yield from shortest(what, compared, told[engine], opinions)
    yield from report_left_out(verdicts)
    yield from report_examples()


def main(arguments):
    n, seed = (int(word) for word in (arguments + [PAIRS, SEED][len(arguments):]))
    for line in report(n, seed):
        print(line, flush=True)


if __name__ == "__main__":
    main(sys.argv[1:])
