"""How the proofs hang together: what is believed, what is proved of it, the code proved against it, what is promised.

Which group stands on which comes from crates.txt: an arrow for each dependency between two groups, but for those that
follow from others. What a group shows comes from the table below; each name in it must be declared where it says.
"""

import pathlib
import re
from typing import NamedTuple

import svg

ROOT = pathlib.Path(__file__).resolve().parent.parent

# Of each kind: the box, and the lines and letters in it.
KINDS = {"ground": ("#f1f3f5", "#4a5560"), "definitions": ("#e3f0fc", "#1560b0"), "theorems": ("#f2e6f5", "#7b1fa2"),
         "code": ("#e6f4e7", "#2b7a2f"), "promises": ("#fdf8d8", "#7d6400"), "programs": ("#fff1de", "#b85c00")}


class Group(NamedTuple):
    """Crates that are drawn as one box. `shows` are names of definitions or theorems, and what each says."""
    name: str
    kind: str
    crates: str
    folders: str
    shows: tuple


GROUPS = [
    Group("laws, cells, codes", "ground", "laws cells codes", "specs",
          (("sort", "lists, sorting, joins, rows: nothing of queries"), ("held", "items and the cells that hold them"))),
    Group("the definitions: what a reader believes", "definitions", "meaning", "specs",
          (("query_read catalogue_read plan_read", "bytes to a query, a catalogue, a plan; the refusals"),
           ("eval", "what a query means"), ("plan", "a query to a plan, rule by rule"),
           ("make run", "what an operator makes, what a plan makes"),
           ("evaluate running", "the same with room and places"),
           ("catalogue_call query_call translate_call run_call evaluate_call", "what each public call answers and leaves"))),
    Group("theorems on the definitions", "theorems", "theorems", "proofs",
          (("query_plan_back", "a written plan reads back"),
           ("plan_bound", "at most 37 operators a record, plus 3"),
           ("evaluate_done running_done", "room changes no answer but 6"),
           ("counts", "items never exceed the count, nor it the room"),
           ("marked", "the marked examples"))),
    Group("a run agrees with what the query means", "theorems", "agreement order", "proofs",
          (("agreement", "every turn's rows hold what the query means"),
           ("simulates", "operators by number do what the rules say"),
           ("same_run_read", "a plan's run and the query's meaning agree"),
           ("order_free_lem", "rows may stand in any order"))),
    Group("the checks", "code",
          "doc_rows sound_rows catalogue query_records query_walks queries plan_records plan_widths plans", "specs",
          (("answered", "their contracts: catalogue_call, query_call"),)),
    Group("items, steps, the stack", "code",
          "items nodesets step_parts forward_axes reverse_axes axes lent stack stack_records", "specs", ()),
    Group("the operators", "code",
          "tables rows rowwise whole searching joining row_order sorting numbering members counting judging stepping "
          "gathering groups", "specs",
          (("Owes", "one promise for each operator"),)),
    Group("the translator", "code",
          "pen writing adding leaf_rules rules lifting scopes carrying translating translator", "specs",
          (("answered", "its contract: translate_call"),)),
    Group("the evaluator", "code", "working_parts working evaluator", "specs",
          (("answered", "its contract: evaluate_call"),)),
    Group("the runner", "code", "directory arms operators laying running runner", "specs",
          (("answered", "its contract: run_call"),)),
    Group("typed queries: the grammar", "definitions", "grammar", "specs",
          (("Typed Outside", "which texts are queries, and where others are none"),
           ("TypedCall write_call", "what the two calls answer and leave"))),
    Group("typed queries: the reader as a definition", "theorems", "parsing", "proofs",
          (("only_reading nine_exactly one_place", "one reading; 9 for exactly the other texts, at one place"),)),
    Group("typed queries: the calls", "code",
          "numerals recording spelling next_words step_words operands paths openings beginnings typing reader levels phrases "
          "wording", "specs",
          (("answered", "their contracts: TypedCall, write_call"),)),
    Group("the printed text", "programs",
          "verdicts lines answers printing chartask typed_printing charttext cases shown_tables shown_records shown_rows "
          "showing", "specs",
          (("printed", "the lines of chartask, proved"),)),
    Group("stored cases: run and compared, not proved", "programs",
          "stored", "", ()),
]

# The marked examples stand beside the definitions, in the same crate. The page of promises stands on everything: one arrow says so.
PROMISES = Group("what is promised, on one page", "promises", "promises", "specs",
                 (("Demand1", "which refusals there are; each leaves zeros"), ("Demand2", "answers are what the definitions say"),
                  ("Demand3", "run and evaluation agree, or both fail"),
                  ("Demand3InHand", "the same, for whoever calls the code"),
                  ("RoomSentence", "6 exactly where the room is too small"),
                  ("OrderFree", "no plan leans on how rows stand"), ("NeverNo", "chartask never prints `same no`"),
                  ("OneReading", "a typed text is read in one way, if any"),
                  ("RoundTrip", "a query written as text reads back"),
                  ("Contracts", "what each call's own text tells a caller"),
                  ("Decides", "a contract leaves no choice"), ("ShutOut", "engines that keep no contract")))

ALSO = [(GROUPS[1].name, GROUPS[2].name), (GROUPS[2].name, GROUPS[3].name), (GROUPS[3].name, PROMISES.name)]

LETTERS, SMALL, LINE, MARGIN, GUTTER, ROW = 12, 10, 14, 12, 26, 30
WIDTH = 860
LEFT, RIGHT = 372, WIDTH - 2 * MARGIN - GUTTER - 372
THIRD = (RIGHT - 2 * 14) / 3


class Unknown(Exception):
    """crates.txt and the table above do not fit together."""


# What crates.txt says.

def dependencies():
    """Of each crate of this repository, the crates that it stands on."""
    lines = [line for line in (ROOT / "crates.txt").read_text().splitlines() if ":" in line and not line.startswith("#")]
    return {name: rest.split() for name, rest in (line.split(":", 1) for line in lines)}


def group_of():
    """The group of each crate."""
    return {crate: group for group in GROUPS for crate in group.crates.split()}


def arrows(below):
    """(lower, upper) for each group that stands on another, but for those that follow from others."""
    groups = group_of()
    below = {crate: its for crate, its in below.items() if crate not in PROMISES.crates.split()}
    for crate in below:
        if crate not in groups:
            raise Unknown(f"crates.txt lists {crate}, and no group of reference/proofs_drawing.py has it")
    stands = {(groups[on].name, groups[crate].name) for crate, its in below.items() for on in its
              if on in groups and groups[on] is not groups[crate]} | set(ALSO)
    return sorted(pair for pair in stands if not follows(pair, stands))


def follows(pair, stands):
    """Whether the upper group stands on the lower one by way of others.

    Code is proved against the definitions, also where it uses theorems on them: that arrow stays.
    """
    theorems = {group.name for group in GROUPS if group.kind == "theorems"}
    reached, ahead = set(), [upper for lower, upper in stands if lower == pair[0] and (lower, upper) != pair]
    while ahead:
        here = ahead.pop()
        if here not in reached:
            reached.add(here)
            if here not in theorems or pair[0] in theorems or pair[1] in theorems:
                ahead += [upper for lower, upper in stands if lower == here]
    return pair[1] in reached


def check_names(group, listed):
    """Each name that is shown is declared in one of the group's crates; a theorem on the definitions also beside them."""
    crates = [crate for crate in group.crates.split() if crate in listed] + (["meaning"] if group is GROUPS[2] else [])
    files = [path for crate in crates for path in sorted((ROOT / "crates" / crate / group.folders).rglob("*.antt"))]
    text = "\n".join(path.read_text() for path in files)
    for name in " ".join(names for names, _ in group.shows).split():
        if not re.search(rf"^\s*(unfoldable |abbrev )?(pub )?((record|data) )?{re.escape(name)}[ :]", text, re.M):
            raise Unknown(f"reference/proofs_drawing.py shows {name}, and no crate of '{group.name}' declares it")


# Boxes.

class Box:
    """A group's box: its lines of text, and where it stands."""

    def __init__(self, group, x, width, listed):
        self.group, self.x, self.width, self.y = group, x, width, 0
        self.title = svg.wrapped(group.name, width - 16, LETTERS)
        self.crates = svg.wrapped(self.crates_text(listed), width - 16, SMALL)
        self.shows = [(names, n, line) for names, says in group.shows for n, line in enumerate(self.shown(names, says))]
        self.height = 12 + 16 * len(self.title) + LINE * (len(self.crates) + len(self.shows))

    def crates_text(self, listed):
        """Its crates, in the order of crates.txt."""
        crates = [crate for crate in listed if crate in self.group.crates.split()]
        its = " ".join(crates + ["meaning"] if self.group is GROUPS[2] else crates)
        return {"promises": "promises: specs/Promises.antt", "definitions": f"{its}: specs/",
                "theorems": f"{its}: proofs/"}.get(self.group.kind, its)

    def shown(self, names, says):
        """The names, and what they say: in one line where that fits. A contract's own name is the same everywhere."""
        words = says if names == "answered" else f"{names}: {says}"
        return svg.wrapped(words, self.width - 16, SMALL)

    def draw(self, picture):
        """The box."""
        fill, stroke = KINDS[self.group.kind]
        picture.box(self.x, self.y, self.width, self.height, fill, stroke, 5)
        y = self.y + 4
        for line in self.title:
            y += 16
            picture.words(self.x + 8, y - 2, line, LETTERS, stroke, bold=True, font=svg.PLAIN)
        for line in self.crates:
            y += LINE
            picture.words(self.x + 8, y - 1, line, SMALL, stroke)
        for names, n, line in self.shows:
            y += LINE
            bold = names if n == 0 and line.startswith(names) else ""
            picture.words(self.x + 8, y - 1, bold, SMALL, bold=True)
            picture.words(self.x + 8, y - 1, " " * len(bold) + line[len(bold):], SMALL)


def place(boxes):
    """Two columns over the definitions: theorems and promises at the left, code at the right. Returns the height."""
    (ground, definitions, theorems, agreement, checks, items, operators, translator, evaluator, runner, grammar, parsing,
     typed, printed, stored, promises) = boxes
    y = MARGIN
    for box in (stored, printed, typed):
        box.y = y
        y += box.height + ROW
    engines = y
    runner.y, operators.y = y, y + runner.height + ROW
    items.y = operators.y + operators.height + ROW
    checks.y = items.y + items.height + ROW
    translator.y = engines + (operators.y + operators.height - engines - translator.height) / 2
    evaluator.y = engines + (operators.y + operators.height - engines - evaluator.height) / 2
    promises.y = MARGIN
    parsing.y = checks.y + checks.height - parsing.height
    theorems.y = parsing.y - ROW - theorems.height
    agreement.y = (promises.height + MARGIN + theorems.y - agreement.height) / 2
    grammar.y = checks.y + checks.height + ROW
    definitions.y = grammar.y + grammar.height + ROW
    ground.y = definitions.y + definitions.height + ROW
    return ground.y + ground.height


def path(lower, upper):
    """Straight up where one stands over the other; else out at the right, up the gutter, and in at the left."""
    low, high = max(lower.x, upper.x), min(lower.x + lower.width, upper.x + upper.width)
    if low < high:
        x = (low + high) / 2
        return [(x, lower.y), (x, upper.y + upper.height)]
    out, gutter = lower.y + 20, MARGIN + LEFT + GUTTER / 2
    return [(lower.x + lower.width, out), (gutter, out), (gutter, upper.y + 20), (upper.x, upper.y + 20)]


LEGEND = ("An arrow goes from what is believed or proved to what is proved over it, as crates.txt has it. Code is proved "
          "against the definitions; no engine is right because another one is.")


def drawing():
    """The picture."""
    below = dependencies()
    right = MARGIN + LEFT + GUTTER
    x_and_width = [(MARGIN, WIDTH - 2 * MARGIN), (MARGIN, WIDTH - 2 * MARGIN), (MARGIN, LEFT), (MARGIN, LEFT), (right, RIGHT),
                   (right + THIRD + 14, 2 * THIRD + 14), (right + 2 * THIRD + 28, THIRD), (right, THIRD),
                   (right + THIRD + 14, THIRD), (right + 2 * THIRD + 28, THIRD), (MARGIN, WIDTH - 2 * MARGIN),
                   (MARGIN, LEFT), (right, RIGHT), (right, RIGHT), (right, RIGHT), (MARGIN, LEFT)]
    for group in [*GROUPS, PROMISES]:
        check_names(group, below)
    boxes = [Box(group, x, width, below) for group, (x, width) in zip([*GROUPS, PROMISES], x_and_width)]
    height = place(boxes) + MARGIN
    named = {box.group.name: box for box in boxes}
    picture = svg.Picture("How the proofs hang together: definitions, theorems, code, promises")
    for lower, upper in arrows(below):
        picture.line(path(named[lower], named[upper]), KINDS[named[lower].group.kind][1], 1.6)
    for box in boxes:
        box.draw(picture)
    for line in svg.wrapped(LEGEND, WIDTH - 2 * MARGIN, SMALL):
        height += 13
        picture.words(MARGIN, height - 8, line, SMALL, svg.FAINT, font=svg.PLAIN)
    return picture.written(WIDTH, height + 4)
