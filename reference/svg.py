"""Pictures as SVG text: boxes, lines and words, over a light ground that is drawn, so that a dark page shows it too.

Words are set in generic fonts. How wide they come out differs a little from font to font, so `wide` leaves some room.
"""

from xml.sax.saxutils import escape

GROUND, INK, FAINT = "#ffffff", "#1f2933", "#6b7783"
MONOSPACE, PLAIN = "monospace", "sans-serif"


def wide(words, size):
    """How wide the words come out, at most."""
    return len(words) * size * 0.61


def number(value):
    """A length: no more than one decimal."""
    text = f"{value:.1f}"
    return text[:-2] if text.endswith(".0") else text


def wrapped(words, width, size):
    """Lines of at most that width, broken at spaces; a longer word stands alone."""
    lines = []
    for word in words.split(" "):
        if lines and wide(f"{lines[-1]} {word}", size) <= width:
            lines[-1] += f" {word}"
        else:
            lines.append(word)
    return lines


class Picture:
    """Shapes in the order in which they are laid over one another."""

    def __init__(self, about):
        self.about = about
        self.shapes = []

    def box(self, x, y, width, height, fill, stroke, round_by=4, dashed=False):
        """A rectangle."""
        dash = ' stroke-dasharray="4 3"' if dashed else ""
        self.shapes.append(f'<rect x="{number(x)}" y="{number(y)}" width="{number(width)}" height="{number(height)}" '
                           f'rx="{number(round_by)}" fill="{fill}" stroke="{stroke}"{dash}/>')

    def words(self, x, y, text, size=11, fill=INK, bold=False, font=MONOSPACE, anchor="start"):
        """A line of text; y is its base line."""
        if not text:
            return
        weight = ' font-weight="bold"' if bold else ""
        place = "" if anchor == "start" else f' text-anchor="{anchor}"'
        self.shapes.append(f'<text x="{number(x)}" y="{number(y)}" font-family="{font}" font-size="{number(size)}" '
                           f'fill="{fill}"{weight}{place} xml:space="preserve">{escape(text)}</text>')

    def line(self, points, stroke, width=1.2, arrow=True, dashed=False):
        """A line through the points with rounded bends, and a head at its end."""
        dash = ' stroke-dasharray="4 3"' if dashed else ""
        self.shapes.append(f'<path d="{bent(points)}" fill="none" stroke="{stroke}" stroke-width="{number(width)}"{dash}/>')
        if arrow:
            self.head(points[-2], points[-1], stroke)

    def head(self, before, end, fill):
        """The head of an arrow that comes from `before`."""
        (x, y), along = end, direction(before, end)
        back = (x - 6 * along[0], y - 6 * along[1])
        across = (-3 * along[1], 3 * along[0])
        corners = [end, (back[0] + across[0], back[1] + across[1]), (back[0] - across[0], back[1] - across[1])]
        text = " ".join(f"{number(a)},{number(b)}" for a, b in corners)
        self.shapes.append(f'<polygon points="{text}" fill="{fill}"/>')

    def written(self, width, height):
        """The whole text."""
        return "\n".join([f'<svg xmlns="http://www.w3.org/2000/svg" width="{number(width)}" height="{number(height)}" '
                          f'viewBox="0 0 {number(width)} {number(height)}" role="img">',
                          f"<title>{escape(self.about)}</title>",
                          f'<rect width="{number(width)}" height="{number(height)}" fill="{GROUND}"/>',
                          *self.shapes, "</svg>", ""])


def direction(a, b):
    """From a to b along one axis: right, left, down or up; else straight."""
    dx, dy = b[0] - a[0], b[1] - a[1]
    length = max((dx * dx + dy * dy) ** 0.5, 0.001)
    return dx / length, dy / length


def bent(points):
    """The path, each bend cut by a small curve."""
    kept = [p for n, p in enumerate(points) if n == 0 or p != points[n - 1]]
    path = f"M{number(kept[0][0])} {number(kept[0][1])}"
    for before, here, after in zip(kept, kept[1:], kept[2:]):
        into, out = direction(before, here), direction(here, after)
        by = min(5, *(max(abs(a[0] - b[0]), abs(a[1] - b[1])) / 2 for a, b in ((before, here), (here, after))))
        path += f" L{number(here[0] - by * into[0])} {number(here[1] - by * into[1])}"
        path += (f" Q{number(here[0])} {number(here[1])}"
                 f" {number(here[0] + by * out[0])} {number(here[1] + by * out[1])}")
    return path + f" L{number(kept[-1][0])} {number(kept[-1][1])}"
