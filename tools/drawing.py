"""Drawings of boxes, lines and words as SVG, for picture.py. Needs Python 3.8."""
from xml.sax.saxutils import escape, quoteattr

# of each paint what it is in light and in dark; the first is written at each shape, the second in the style
PAINTS = {
    "paper": ("#ffffff", "#14171c"),
    "ink": ("#1d2430", "#e6e9ee"),
    "faint": ("#5b6675", "#9aa5b4"),
    "edge": ("#8a94a3", "#6d7886"),
    "plain": ("#f1f3f6", "#222831"),
    "blue": ("#dcebfb", "#1d3650"),
    "green": ("#def3e2", "#1e3f29"),
    "amber": ("#fbeccb", "#4a3a16"),
    "violet": ("#ece3f8", "#3a2b52"),
    "feed": ("#2f6fb3", "#7ab2ec"),
    "peer": ("#7a4bb3", "#bd98ec"),
    "agent": ("#2b8a48", "#74cb8d"),
    "warn": ("#b3541e", "#eb9a68"),
}
ASCENT = 13
LINE = 16
LETTER = 7.4  # the width of a letter of 12 units of a font of one width, and a little more
PAD = 8


def width_of(text):
    return LETTER * len(text)


def number(x):
    text = "%.1f" % x
    return text[:-2] if text.endswith(".0") else text


class Box:
    """A box of lines of words. The first is its title."""

    def __init__(self, lines, paint="plain", least=0):
        self.lines = lines
        self.paint = paint
        self.width = max([least] + [width_of(line) + 2 * PAD for line in lines])
        self.height = LINE * len(lines) + 2 * PAD - 2
        self.x = self.y = 0

    def at(self, x, y):
        self.x, self.y = x, y
        return self

    def left(self):
        return self.x, self.y + self.height / 2

    def right(self):
        return self.x + self.width, self.y + self.height / 2

    def row(self, i):
        """The right end of one of its lines."""
        return self.x + self.width, self.y + PAD + LINE * i + LINE / 2 - 1


class Drawing:
    """Shapes in the order in which they are painted: lines first, boxes and words over them."""

    def __init__(self, title):
        self.title = title
        self.lines = []
        self.boxes = []
        self.words = []
        self.wide = self.high = 0

    def reach(self, x, y):
        self.wide = max(self.wide, x)
        self.high = max(self.high, y)

    def text(self, x, y, text, paint="ink", bold=False, anchor="start"):
        weight = ' font-weight="bold"' if bold else ""
        place = ' text-anchor="middle"' if anchor == "middle" else ""
        self.words.append('<text class="f-%s" x="%s" y="%s" fill="%s"%s%s>%s</text>' % (
            paint, number(x), number(y), PAINTS[paint][0], weight, place, escape(text)))
        self.reach(x + width_of(text) / (2 if anchor == "middle" else 1), y + 4)

    def box(self, box):
        self.boxes.append(
            '<rect class="f-%s s-edge" x="%s" y="%s" width="%s" height="%s" rx="4" fill="%s" stroke="%s"/>' % (
                box.paint, number(box.x), number(box.y), number(box.width), number(box.height),
                PAINTS[box.paint][0], PAINTS["edge"][0]))
        for i, line in enumerate(box.lines):
            self.text(box.x + PAD, box.y + PAD + ASCENT - 2 + LINE * i, line, "ink" if i == 0 else "faint", i == 0)
        self.reach(box.x + box.width, box.y + box.height)

    def stroke(self, path, paint, dashed=False, arrow=False, thick=1.5, faint=False):
        self.lines.append('<path class="s-%s" d="%s" fill="none" stroke="%s" stroke-width="%s"%s%s%s/>' % (
            paint, path, PAINTS[paint][0], number(thick), ' stroke-dasharray="5 4"' if dashed else "",
            ' opacity="0.55"' if faint else "", ' marker-end="url(#head)"' if arrow else ""))

    def line(self, a, b, paint, dashed=False, arrow=False):
        self.stroke("M%s %s L%s %s" % (number(a[0]), number(a[1]), number(b[0]), number(b[1])), paint, dashed, arrow)
        self.reach(max(a[0], b[0]), max(a[1], b[1]))

    def bend(self, a, b, paint, dashed=False):
        """From one column to the next, level at both ends."""
        middle = (a[0] + b[0]) / 2
        self.stroke("M%s %s C%s %s %s %s %s %s" % tuple(map(number, (
            a[0], a[1], middle, a[1], middle, b[1], b[0], b[1]))), paint, dashed)

    def written(self):
        wide, high = number(self.wide + 20), number(self.high + 20)
        dark = "".join(".f-%s{fill:%s}.s-%s{stroke:%s}" % (name, paint[1], name, paint[1])
                       for name, paint in sorted(PAINTS.items()))
        head = [
            '<svg xmlns="http://www.w3.org/2000/svg" width="%s" height="%s" viewBox="0 0 %s %s" role="img" '
            'aria-label=%s>' % (wide, high, wide, high, quoteattr(self.title)),
            "<title>%s</title>" % escape(self.title),
            "<style>text{font-family:DejaVu Sans Mono,Menlo,Consolas,monospace;font-size:12px}"
            "@media (prefers-color-scheme:dark){%s}</style>" % dark,
            '<defs><marker id="head" viewBox="0 0 8 8" refX="7" refY="4" markerWidth="7" markerHeight="7" '
            'orient="auto"><path class="f-ink" d="M0 0 L8 4 L0 8 Z" fill="%s"/></marker></defs>' % PAINTS["ink"][0],
            '<rect class="f-paper" x="0" y="0" width="%s" height="%s" fill="%s"/>' % (wide, high, PAINTS["paper"][0]),
        ]
        return "\n".join(head + self.lines + self.boxes + self.words + ["</svg>"]) + "\n"
