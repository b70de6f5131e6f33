"""A plan as a graph: a card for each operator and its table, a box for each part of the query.

The parts stand below one another, in the order in which their operators are written. Lines go from a table to the
operators that read it: straight on in a row, below the row to the next one, and through a lane at the left of the
smallest box that holds both ends where more rows lie between.
"""

from typing import NamedTuple

import catalogue
import chartask
import plan
import query
import runner
import svg
import translator
import xquery
from cells import Refused
from plan import NO_COLUMN, VALUE

# Of each record's part: the box, and the lines and letters in it.
COLOURS = {b"QL": ("#f1f3f5", "#4a5560"), b"QB": ("#f1f3f5", "#4a5560"), b"QE": ("#f1f3f5", "#4a5560"),
           b"QR": ("#f3ece6", "#6d4c41"), b"QX": ("#fff1de", "#b85c00"), b"QS": ("#e6f4e7", "#2b7a2f"),
           b"QT": ("#e8eaf6", "#34439b"), b"QF": ("#e3f0fc", "#1560b0"), b"QI": ("#f2e6f5", "#7b1fa2"),
           b"QO": ("#fdf8d8", "#7d6400"), b"QC": ("#fde6ee", "#ad1457"), b"QD": ("#def2f0", "#00695c"),
           None: ("#fafbfc", "#4a5560")}
WRONG = "#c62828"

# How a part's own operators are broken into rows; the last number is used for what is left.
ROWS = {b"QF": (3, 2, 4), b"QI": (4, 4), b"QO": (4, 2), b"QC": (4, 3)}
IN_A_ROW = (5,)
MOST_SHOWN = 5

LETTERS, SMALL, LINE = 11, 10, 12
PAD, GAP, TRACK, MARGIN = 9, 18, 7, 12
LEGEND = "A card is an operator and the table it makes: its number, its mark, and after @ the byte where its record begins."
OF_PARTS = " A box is a part of the query."


class Made(NamedTuple):
    """An operator, the rows of its table or None, and why there are none: 'fails', 'no room' or 'not reached'."""
    operator: plan.Operator
    rows: list
    width: int
    why: str


class Part:
    """A part of the query: its text, and in order rows of operators' numbers and parts within it."""

    def __init__(self, mark, title, within=None):
        self.mark, self.title, self.within = mark, title, within
        self.numbers, self.parts = [], []
        self.first = self.last = None     # the rows of the drawing that its box holds
        self.tracks = 0
        self.outer = within.outer + [within] if within else []

    def fill(self):
        return COLOURS[self.mark][0]

    def stroke(self):
        return COLOURS[self.mark][1]

    def first_number(self):
        """Its first operator's number; None where it writes no operator, as a variable."""
        numbers = self.numbers[:1] + [part.first_number() for part in self.parts]
        return min((number for number in numbers if number is not None), default=None)

    def flow(self):
        """Runs of its own numbers, and its parts, in the order in which operators are written."""
        things = [(number, None) for number in self.numbers]
        things += [(part.first_number(), part) for part in self.parts if part.first_number() is not None]
        runs = []
        for number, part in sorted(things, key=lambda thing: thing[0]):
            if part:
                runs.append(part)
            elif runs and isinstance(runs[-1], list):
                runs[-1].append(number)
            else:
                runs.append([number])
        return runs


# What is drawn.

def parts_of(query_bytes):
    """The operators, the part of the whole query, and the tables that hold a part's items."""
    tree = query.read(query_bytes)
    texts = xquery.Texts(lambda k: f"root({k})")
    whole = Part(None, f"the plan of {texts.text(tree)}")
    at_work, holds = [whole], set()

    class Noted(translator.Translation):
        """Notes which part of the query writes an operator."""

        def add(self, mark, *fields):
            at_work[-1].numbers.append(len(self.operators))
            return super().add(mark, *fields)

        def expression(self, expression, loop, tables):
            part = Part(expression.mark, texts.text(expression), at_work[-1])
            at_work[-1].parts.append(part)
            at_work.append(part)
            table = super().expression(expression, loop, tables)
            at_work.pop()
            holds.add(table)
            return table

    plain, translator.Translation = translator.Translation, Noted
    try:
        operators = translator.operators_of(tree)
    finally:
        translator.Translation = plain
    translator.check_plan(len(operators), len(plan.written(operators)), chartask.PLAN_BYTES)
    holds.add(len(operators) - 1)
    return plan.written(operators), whole, holds


def one_part(plan_bytes):
    """A plan of one's own: one part, and only the last table is known to hold items."""
    operators, _ = plan.read(plan_bytes)
    whole = Part(None, "a plan of one's own")
    whole.numbers = list(range(len(operators)))
    return whole, {len(operators) - 1}


def worked(plan_bytes, doc):
    """Each operator with its table, in the room that chartask lends."""
    operators, widths = plan.read(plan_bytes)
    rows, tables, left, why = catalogue.read(doc), [], chartask.WORK_CELLS, ""
    for operator, width in zip(operators, widths):
        if why:
            yield Made(operator, None, width, "not reached")
            continue
        try:
            tables.append(runner.laid(operator, runner.made(operator, tables, rows), width, left))
        except Refused as refused:
            why = {6: "no room", 7: "it fails"}[refused.number]
            yield Made(operator, None, width, why)
            continue
        left -= len(tables[-1]) * width
        yield Made(operator, tables[-1], width, "")


def inputs(operator):
    """The tables that it reads, each once."""
    match operator.mark, operator.fields:
        case b"RT", ():
            return []
        case (b"RU" | b"RD"), (t, u):
            return list(dict.fromkeys((t, u)))
        case b"RJ", (t, _, u, _):
            return list(dict.fromkeys((t, u)))
        case _, (t, *_):
            return [t]


def head(operator):
    """Mark and fields, but for the tables, which the lines tell."""
    match operator.mark, operator.fields:
        case b"RA", (_, cell):
            return f"RA attach {shown(cell)}"
        case b"RP", (_, columns):
            return f"RP columns {' '.join(map(str, columns))}"
        case b"RU", _:
            return "RU union"
        case b"RD", _:
            return "RD minus"
        case b"RS", (_, c):
            return f"RS where {c} is true"
        case b"RJ", (_, c, _, d):
            return f"RJ join {c} = {d}"
        case b"RN", (_, p, keys):
            within = "" if p == NO_COLUMN else f"in {p} "
            return f"RN {within}by {' '.join(map(str, keys))}"
        case b"RF", (_, f, columns):
            return f"RF {'value' if f == VALUE else xquery.OPERATIONS[f]} {' '.join(map(str, columns))}"
        case b"RC", (_, c):
            return f"RC count {c}"
        case b"RE", _:
            return "RE truth"
        case b"RK", (_, c):
            return f"RK once {c}"
        case b"RX", (_, *step):
            return f"RX {xquery.step(*step)}"
        case b"RO", (_, k):
            return f"RO root {k}"
    return "RT"


def shown(cell):
    """A cell as a reader sees it."""
    kind, number = chartask.item_line(cell).split()
    return {"int": number, "node": f"node {number}", "bool": "true" if number == "1" else "false"}[kind]


# Cards.

class Card:
    """An operator and its table: the lines of text, and where they stand."""

    def __init__(self, number, made, part, holds):
        self.number, self.made, self.part = number, made, part
        self.head = f"{number} {head(made.operator)}"
        self.at = f"@{made.operator.at}"
        self.lines = lines_of(made, number in holds)
        self.width = 12 + max(svg.wide(f"{self.head} {self.at}", LETTERS),
                              *(svg.wide(line, SMALL) for line in self.lines))
        self.height = 19 + LINE * len(self.lines) + 4
        self.row = self.x = self.y = 0

    def draw(self, picture):
        """The card."""
        bad, unreached = self.made.why in ("it fails", "no room"), self.made.why == "not reached"
        stroke = WRONG if bad else self.part.stroke()
        picture.box(self.x, self.y, self.width, self.height, svg.GROUND, stroke, dashed=unreached)
        picture.words(self.x + 6, self.y + 14, self.head, LETTERS, stroke, bold=True)
        picture.words(self.x + self.width - 5, self.y + 14, self.at, 9, svg.FAINT, anchor="end")
        for n, line in enumerate(self.lines):
            faint = n == 0 and self.made.rows or unreached
            picture.words(self.x + 6, self.y + 28 + LINE * n, line, SMALL, svg.FAINT if faint else WRONG if bad else svg.INK,
                          bold=bad)


def lines_of(made, holds):
    """The table: its columns' names, its first rows, and how many more there are."""
    if made.why:
        return [made.why]
    if not made.rows:
        return ["no rows"]
    names = ["iter", "pos", "item"] if holds else [str(c) for c in range(made.width)]
    few = MOST_SHOWN if len(made.rows) <= MOST_SHOWN else MOST_SHOWN - 1
    cells = [names] + [list(map(shown, row)) for row in made.rows[:few]]
    widths = [max(len(row[c]) for row in cells) for c in range(made.width)]
    lines = [" ".join(cell.rjust(width) for cell, width in zip(row, widths)) for row in cells]
    more = len(made.rows) - few
    return lines + ([f"and {more} more"] if more > 0 else [])


# Rows of the drawing.

def in_rows(part, run):
    """A run of a part's own operators, broken into rows."""
    lengths = list(ROWS.get(part.mark, IN_A_ROW))
    while run:
        length = lengths.pop(0) if len(lengths) > 1 else lengths[0]
        yield run[:length]
        run = run[length:]


def chains(numbers, made):
    """A plan of one's own: a row goes on while each operator reads the one before it."""
    rows = []
    for number in numbers:
        if rows and len(rows[-1]) < 5 and number - 1 in inputs(made[number].operator):
            rows[-1].append(number)
        else:
            rows.append([number])
    return rows


def is_small(thing):
    """A part of one row and no parts in it: such may share a row."""
    return isinstance(thing, Part) and not thing.parts and len(thing.numbers) <= 3


def lay_rows(part, rows):
    """The drawing's rows, each a list of (part, numbers), and in each part which of them it holds."""
    part.first = len(rows)
    before = None
    for thing in part.flow():
        if isinstance(thing, list):
            rows += [[(part, numbers)] for numbers in in_rows(part, thing)]
        elif is_small(thing) and is_small(before) and sum(len(numbers) for _, numbers in rows[-1]) + len(thing.numbers) <= 4:
            rows[-1].append((thing, thing.numbers))
            thing.first = thing.last = len(rows) - 1
        else:
            lay_rows(thing, rows)
        before = thing
    part.last = len(rows) - 1
    return rows


# Lines.

class Line(NamedTuple):
    """From a card to one that reads it; the box whose lane it takes, or None."""
    source: Card
    target: Card
    lane: Part


def smallest_with(a, b):
    """The smallest part that holds both."""
    mine = a.outer + [a]
    return next(part for part in reversed(mine) if part in b.outer + [b])


def lines_between(cards, rows):
    """Every line."""
    places = {number: place for row in rows for place, number in enumerate(n for _, numbers in row for n in numbers)}
    for target in cards:
        for t in inputs(target.made.operator):
            source = cards[t]
            far = target.row - source.row > 1
            lane = smallest_with(source.part, target.part) if far else None
            beside = target.row == source.row and places[target.number] == places[t] + 1
            yield Line(source, target, lane), beside


class Tracks:
    """Side by side what overlaps, unless it comes from the same card."""

    def __init__(self):
        self.taken = []      # for each track the stretches on it: (from, to, source)

    def put(self, low, high, source):
        """The track of a stretch."""
        for number, stretches in enumerate(self.taken):
            if all(source == other or high < a - 4 or b + 4 < low for a, b, other in stretches):
                stretches.append((low, high, source))
                return number
        self.taken.append([(low, high, source)])
        return len(self.taken) - 1

    def __len__(self):
        return len(self.taken)


class Drawing:
    """Cards, boxes and lines with their places."""

    def __init__(self, made, whole, holds, rows):
        self.whole, self.rows = whole, rows
        part_of = {number: part for row in rows for part, numbers in row for number in numbers}
        self.cards = [Card(number, one, part_of[number], holds) for number, one in enumerate(made)]
        for n, row in enumerate(rows):
            for _, numbers in row:
                for number in numbers:
                    self.cards[number].row = n
        found = list(lines_between(self.cards, rows))
        self.beside = [line for line, beside in found if beside]
        self.lines = [line for line, beside in found if not beside]
        self.lanes = self.lay_lanes()
        self.place_across()
        self.ports()
        self.lay_tracks()
        self.place_down()

    def lay_lanes(self):
        """Each far line's track in its lane."""
        lanes, tracks = {}, {}
        for line in self.lines:
            if line.lane:
                its = tracks.setdefault(line.lane, Tracks())
                lanes[line] = its.put(10 * line.source.row, 10 * line.target.row - 5, line.source.number)
        for part, its in tracks.items():
            part.tracks = len(its)
        return lanes

    def inner_left(self, part):
        """Where the cards of a part begin: right of its lane and those of the parts around it."""
        return MARGIN + sum(PAD + TRACK * one.tracks for one in part.outer + [part])

    def lane_x(self, line):
        """The lane's track; the first is the one nearest to the cards."""
        return self.inner_left(line.lane) - TRACK * (self.lanes[line] + 0.5)

    def place_across(self):
        """Cards from left to right, and how wide the boxes of a shared row are."""
        self.ends, right = {}, 0
        for row in self.rows:
            x = self.inner_left(row[0][0])
            for part, numbers in row:
                begins = x - PAD
                for number in numbers:
                    self.cards[number].x = x
                    x += self.cards[number].width + GAP
                x = max(x - GAP, begins + 2 * PAD + svg.wide(part.title, LETTERS) if len(row) > 1 else 0)
                if len(row) > 1:
                    self.ends[part] = (begins, x + PAD)
                right = max(right, x + PAD * (len(part.outer) + 1))
                x += 3 * PAD
        self.width = right + MARGIN

    def sides(self, part):
        """Left and right of its box."""
        if part in self.ends:
            return self.ends[part]
        return self.inner_left(part) - PAD - TRACK * part.tracks, self.width - MARGIN - PAD * len(part.outer)

    def title(self, part):
        """The lines of its title."""
        left, right = self.sides(part)
        return svg.wrapped(part.title, right - left - 2 * PAD, LETTERS)

    def ports(self):
        """Where lines come in: from above side by side, or from below where they skip a card of the row."""
        self.enters = {}
        for card in self.cards:
            above = [line for line in self.lines if line.target is card and line.source.row < card.row]
            for n, line in enumerate(above, 1):
                self.enters[line] = card.x + card.width * n / (len(above) + 1)
            for line in self.lines:
                if line.target is card and line.source.row == card.row:
                    self.enters[line] = card.x + card.width / 4

    def leaves(self, card):
        """Where lines go out, below."""
        return card.x + card.width / 2

    def lay_tracks(self):
        """Tracks right below each row, for lines that leave it, and right above, for those that come from a lane."""
        self.below, self.above = [Tracks() for _ in self.rows], [Tracks() for _ in self.rows]
        self.track_below, self.track_above = {}, {}
        for line in self.lines:
            source, x = line.source, self.leaves(line.source)
            to = self.lane_x(line) if line.lane else self.enters[line]
            self.track_below[line] = self.below[source.row].put(min(x, to), max(x, to), source.number)
        for line in self.lines:
            if line.lane:
                to = self.enters[line]
                self.track_above[line] = self.above[line.target.row].put(self.lane_x(line), to, line.source.number)

    def parts(self, part=None):
        """Every part with a box, outer ones first."""
        part = part or self.whole
        if part.first is not None:
            yield part
            for one in part.parts:
                yield from self.parts(one)

    def place_down(self):
        """Cards from top to bottom: room for tracks, and for the ends and titles of boxes."""
        boxes, self.tops, self.bottoms, y = list(self.parts()), {}, {}, MARGIN
        for n, row in enumerate(self.rows):
            shared = 0
            for part in (part for part in boxes if part.first == n):
                self.tops[part] = y
                tall = 6 + 13 * len(self.title(part))
                if part in self.ends:       # parts that share a row begin together
                    shared = max(shared, tall)
                else:
                    y += tall
            y += shared + 8 + TRACK * len(self.above[n]) + (4 if len(self.above[n]) else 0)
            numbers = [number for _, some in row for number in some]
            for number in numbers:
                self.cards[number].y = y
            y += max(self.cards[number].height for number in numbers) + 7 + TRACK * len(self.below[n])
            closing = [part for part in reversed(boxes) if part.last == n]
            for part in closing:
                self.bottoms[part] = y
                # parts that share a row end together
                y += 0 if part in self.ends and part is not row[0][0] else 6
            y += 5
        self.height = y + 2 * MARGIN

    def bottom_of_row(self, n):
        """Below the tallest card of a row."""
        return max(card.y + card.height for card in self.cards if card.row == n)

    def top_of_row(self, n):
        """The top of a row's cards."""
        return min(card.y for card in self.cards if card.row == n)

    def points(self, line):
        """The bends of a line."""
        source, target, x = line.source, line.target, self.leaves(line.source)
        low = self.bottom_of_row(source.row) + 6 + TRACK * self.track_below[line]
        start, enters = (x, source.y + source.height), self.enters[line]
        if target.row == source.row:
            return [start, (x, low), (enters, low), (enters, target.y + target.height)]
        if not line.lane:
            return [start, (x, low), (enters, low), (enters, target.y)]
        lane, high = self.lane_x(line), self.top_of_row(target.row) - 10 - TRACK * self.track_above[line]
        return [start, (x, low), (lane, low), (lane, high), (enters, high), (enters, target.y)]

    def legend(self):
        """How to read it."""
        return svg.wrapped(LEGEND + (OF_PARTS if self.whole.parts else ""), self.width - 2 * MARGIN, SMALL)

    def draw(self):
        """The picture: boxes, lines, titles, cards."""
        picture = svg.Picture(self.whole.title)
        boxes = list(self.parts())
        for part in boxes:
            left, right = self.sides(part)
            picture.box(left, self.tops[part], right - left, self.bottoms[part] - self.tops[part], part.fill(), part.stroke())
        for line in self.lines:
            picture.line(self.points(line), line.source.part.stroke())
        for line in self.beside:
            source, target = line.source, line.target
            picture.line([(source.x + source.width, source.y + 10), (target.x, source.y + 10)], source.part.stroke())
        for part in boxes:
            self.draw_title(picture, part)
        for card in self.cards:
            card.draw(picture)
        for n, line in enumerate(self.legend()):
            picture.words(MARGIN, self.height - MARGIN + 13 * n, line, SMALL, svg.FAINT, font=svg.PLAIN)
        self.height += 13 * n
        return picture.written(self.width, self.height)

    def draw_title(self, picture, part):
        """The part's text, over the lines that pass below it."""
        left, _ = self.sides(part)
        lines = self.title(part)
        tall, wide = 13 * len(lines), max(svg.wide(line, LETTERS) for line in lines)
        picture.shapes.append(f'<rect x="{svg.number(left + 4)}" y="{svg.number(self.tops[part] + 3)}" '
                              f'width="{svg.number(wide + 6)}" height="{svg.number(tall + 1)}" fill="{part.fill()}"/>')
        for n, line in enumerate(lines):
            picture.words(left + 7, self.tops[part] + 14 + 13 * n, line, LETTERS, part.stroke(), bold=part.mark is None)


def of_query(query_bytes, doc):
    """The drawing of the query's plan over a catalogue; or the refusal of query or catalogue."""
    plan_bytes, whole, holds = parts_of(query_bytes)
    made = list(worked(plan_bytes, doc))
    return Drawing(made, whole, holds, lay_rows(whole, [])).draw()


def of_plan(plan_bytes, doc):
    """The drawing of a plan of one's own; or the refusal of plan or catalogue."""
    whole, holds = one_part(plan_bytes)
    made = list(worked(plan_bytes, doc))
    rows = [[(whole, numbers)] for numbers in chains(whole.numbers, made)]
    whole.first, whole.last = 0, len(rows) - 1
    return Drawing(made, whole, holds, rows).draw()
