"""Draws curves on axes by powers of ten, as an SVG picture of its own, in plain Python.

A page may be light or dark: the picture has a ground of its own, which follows what the reader's system says. Curves differ by colour, by
the form of their points and by the pattern of their lines, so they can be told apart without colours. The colours are those of Okabe and Ito.
"""
import collections
import math

# curves: for each a name and its points
Panel = collections.namedtuple("Panel", "title x curves")

WIDE, TALL = 176, 176  # of the field of a panel
LEFT, RIGHT, TOP, BOTTOM = 50, 14, 30, 46  # round it
LEGEND = 34
NAMES = 120  # of one name in the legend
SUPERSCRIPTS = str.maketrans("0123456789", "⁰¹²³⁴⁵⁶⁷⁸⁹")
SHAPES = [
    '<circle cx="%(x).1f" cy="%(y).1f" r="4"/>',
    '<path d="M%(x).1f %(y).1fm-4 -4h8v8h-8z"/>',
    '<path d="M%(x).1f %(y).1fm0 -5.5l5 9h-10z"/>',
    '<path d="M%(x).1f %(y).1fm0 -5.5l5 5.5l-5 5.5l-5 -5.5z"/>',
]
STYLE = """<style>
  .ground { fill: #ffffff } text { fill: #1d2733; font-size: 12.5px } .grid { stroke: #dfe3e8 } .frame { stroke: #7a8694; fill: none }
  .curve { fill: none; stroke-width: 2 } .title { font-weight: bold }
  .c0 { stroke: #0072b2 } .c1 { stroke: #d55e00; stroke-dasharray: 7 3 } .c2 { stroke: #009e73; stroke-dasharray: 2 3 }
  .c3 { stroke: #8f4a78; stroke-dasharray: 9 3 2 3 } .p0 { fill: #0072b2 } .p1 { fill: #d55e00 } .p2 { fill: #009e73 } .p3 { fill: #8f4a78 }
  @media (prefers-color-scheme: dark) {
    .ground { fill: #14181d } text { fill: #dde3ea } .grid { stroke: #2c343d } .frame { stroke: #8b97a5 }
    .c0 { stroke: #56b4e9 } .c1 { stroke: #f08030 } .c2 { stroke: #2fc79a } .c3 { stroke: #e0a0c8 }
    .p0 { fill: #56b4e9 } .p1 { fill: #f08030 } .p2 { fill: #2fc79a } .p3 { fill: #e0a0c8 }
  }
</style>"""


def ticks(low, high):
    """Numbers for an axis: as many of 1, 2 and 5 times powers of ten as have room."""
    powers = range(math.floor(math.log10(low)), math.ceil(math.log10(high)) + 1)
    for steps in ((1, 2, 5), (1, 3), (1,)):
        found = [number for number in (float("%de%d" % (step, power)) for power in powers for step in steps) if low <= number <= high]
        if len(found) <= 4:
            break
    return found


def label(value):
    if value >= 1e5 and math.log10(value) == round(math.log10(value)):
        return "10" + str(round(math.log10(value))).translate(SUPERSCRIPTS)
    return format(value, ",.0f") if value >= 1 else "%g" % value


def bounds(values):
    """A little less than the least and a little more than the most."""
    room = (max(values) / min(values)) ** 0.06
    return min(values) / room, max(values) * room


class Axis:
    """Where a number stands between two places of the picture."""

    def __init__(self, values, begin, end):
        self.low, self.high = bounds(values)
        self.begin, self.end = begin, end

    def place(self, value):
        part = math.log(value / self.low) / math.log(self.high / self.low)
        return self.begin + (self.end - self.begin) * part

    def ticks(self):
        return [(label(value), self.place(value)) for value in ticks(self.low, self.high)]


def draw_text(x, y, words, more=""):
    return '<text x="%.1f" y="%.1f" %s>%s</text>' % (x, y, more, words)


def draw_grid(across, up, panel):
    """The frame with its marks and names."""
    left, right, top, bottom = across.begin, across.end, up.end, up.begin
    out = []
    for words, x in across.ticks():
        out += ['<path class="grid" d="M%.1f %.1fV%.1f"/>' % (x, top, bottom), draw_text(x, bottom + 17, words, 'text-anchor="middle"')]
    for words, y in up.ticks():
        out += ['<path class="grid" d="M%.1f %.1fH%.1f"/>' % (left, y, right), draw_text(left - 6, y + 4, words, 'text-anchor="end"')]
    out += ['<rect class="frame" x="%.1f" y="%.1f" width="%.1f" height="%.1f"/>' % (left, top, right - left, bottom - top)]
    out += [draw_text((left + right) / 2, bottom + 36, panel.x, 'text-anchor="middle"')]
    return out + [draw_text(left, top - 10, panel.title, 'class="title"')]


def draw_curve(number, places):
    path = "M" + "L".join("%.1f %.1f" % place for place in places)
    points = [SHAPES[number] % {"x": x, "y": y} for x, y in places]
    return ['<path class="curve c%d" d="%s"/>' % (number, path), '<g class="p%d">%s</g>' % (number, "".join(points))]


def draw_panel(panel, left, top):
    points = [point for _, curve in panel.curves for point in curve]
    across, up = Axis([x for x, _ in points], left, left + WIDE), Axis([y for _, y in points], top + TALL, top)
    out = draw_grid(across, up, panel)
    for number, (_, curve) in enumerate(panel.curves):
        out += draw_curve(number, [(across.place(x), up.place(y)) for x, y in curve])
    return out


def draw_legend(names):
    out = []
    for number, name in enumerate(names):
        left = LEFT + number * NAMES
        out += draw_curve(number, [(left, 20), (left + 30, 20)]) + [draw_text(left + 38, 24, name)]
    return out


def draw(panels, columns):
    """The picture of these panels, row by row; all have the same names of curves."""
    rows = -(-len(panels) // columns)
    size = (columns * (LEFT + WIDE + RIGHT), LEGEND + rows * (TOP + TALL + BOTTOM))
    out = ['<svg xmlns="http://www.w3.org/2000/svg" viewBox="0 0 %d %d" font-family="Helvetica, Arial, sans-serif">' % size, STYLE]
    out += ['<rect class="ground" width="%d" height="%d"/>' % size] + draw_legend([name for name, _ in panels[0].curves])
    for number, panel in enumerate(panels):
        row, column = divmod(number, columns)
        out += draw_panel(panel, column * (LEFT + WIDE + RIGHT) + LEFT, LEGEND + row * (TOP + TALL + BOTTOM) + TOP)
    return "\n".join(out + ["</svg>", ""])
