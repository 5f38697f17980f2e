"""Plots as SVG text: bars in groups, and lines over axes that may be logarithmic.

The same figures give the same bytes on every machine. Python's standard library only.
"""

import math
from xml.sax.saxutils import escape

COLOURS = ["#1f5fa8", "#d9822b", "#3d8b4f", "#a23b72", "#6b6b6b", "#b8a000"]
WIDTH, LEFT, RIGHT, TOP = 860, 64, 16, 40
STYLE = "font-family:sans-serif;font-size:12px;fill:#222"


class Drawing:
    """An SVG picture that is written element by element."""

    def __init__(self, title, height):
        self.height = height
        self.parts = [
            f'<svg xmlns="http://www.w3.org/2000/svg" viewBox="0 0 {WIDTH} {height}" role="img" style="{STYLE}">',
            f"<title>{escape(title)}</title>",
            f'<rect width="{WIDTH}" height="{height}" fill="#ffffff"/>',
            f'<text x="{LEFT}" y="20" style="font-size:15px">{escape(title)}</text>',
        ]

    def line(self, x1, y1, x2, y2, colour="#dddddd"):
        self.parts.append(f'<line x1="{x1:.1f}" y1="{y1:.1f}" x2="{x2:.1f}" y2="{y2:.1f}" stroke="{colour}"/>')

    def text(self, x, y, text, anchor="start", turn=0):
        turned = f' transform="rotate({turn} {x:.1f} {y:.1f})"' if turn else ""
        self.parts.append(f'<text x="{x:.1f}" y="{y:.1f}" text-anchor="{anchor}"{turned}>{escape(str(text))}</text>')

    def bar(self, x, y, width, height, colour, title):
        self.parts.append(
            f'<rect x="{x:.1f}" y="{y:.1f}" width="{width:.1f}" height="{height:.1f}" fill="{colour}">'
            f"<title>{escape(title)}</title></rect>"
        )

    def curve(self, points, colour, dashed=False):
        along = " ".join(f"{x:.1f},{y:.1f}" for x, y in points)
        dash = ' stroke-dasharray="6 4"' if dashed else ""
        self.parts.append(f'<polyline points="{along}" fill="none" stroke="{colour}" stroke-width="2"{dash}/>')
        self.parts += [f'<circle cx="{x:.1f}" cy="{y:.1f}" r="2.5" fill="{colour}"/>' for x, y in points]

    def legend(self, names, y, x=LEFT):
        for number, name in enumerate(names):
            self.bar(x, y - 10, 12, 12, COLOURS[number % len(COLOURS)], name)
            self.text(x + 17, y, name)
            x += 34 + 7 * len(name)

    def whole(self):
        return "\n".join([*self.parts, "</svg>", ""])


def number_text(value):
    """A number in the short form of a label: 1,500, 20, 0.5, 10M."""
    if value >= 1e9:
        return f"{value / 1e9:g}G"
    if value >= 1e6:
        return f"{value / 1e6:g}M"
    return f"{value:,.0f}" if value >= 10 else f"{value:g}"


def steps(low, high, is_log):
    """The values of an axis that have a line. They begin at or below `low` and end at or above
    `high`."""
    if is_log:
        first, last = math.floor(math.log10(low) + 1e-9), math.ceil(math.log10(high) - 1e-9)
        return [10.0**power for power in range(first, max(last, first + 1) + 1)]
    raw = max(high - low, 1e-9) / 5
    unit = 10 ** math.floor(math.log10(raw))
    step = next(unit * it for it in (1, 2, 5, 10) if unit * it >= raw)
    count = math.ceil((high - low) / step - 1e-9)
    return [low + step * number for number in range(max(count, 1) + 1)]


class Axis:
    """An axis from a first to a last value, over so many pixels from an offset on. Its marks are
    those that are given, or round values."""

    def __init__(self, low, high, offset, length, is_log=False, marks=()):
        self.marks = sorted(marks) if len(marks) > 1 else steps(low, high, is_log)
        self.offset, self.length, self.is_log = offset, length, is_log

    def at(self, value):
        first, last = self.marks[0], self.marks[-1]
        if self.is_log:
            share = math.log(max(value, first) / first) / math.log(last / first)
        else:
            share = (value - first) / (last - first)
        return self.offset + self.length * share


def bars(title, unit, groups, names, rows, is_log=False):
    """Bars in groups. `rows` has for each group the values by name; None where there is none."""
    height, bottom = 360, 250
    drawing = Drawing(f"{title} ({unit})", height)
    values = [it for row in rows for it in row if it]
    low = min(values) if is_log else 0
    axis = Axis(low, max(values), bottom, TOP - bottom + 20, is_log)
    for mark in axis.marks:
        drawing.line(LEFT, axis.at(mark), WIDTH - RIGHT, axis.at(mark))
        drawing.text(LEFT - 6, axis.at(mark) + 4, number_text(mark), "end")
    room = (WIDTH - LEFT - RIGHT) / len(groups)
    width = room * 0.8 / len(names)
    for at, (group, row) in enumerate(zip(groups, rows)):
        begin = LEFT + at * room + room * 0.1
        for number, value in enumerate(row):
            if value:
                top = axis.at(value)
                said = f"{group}, {names[number]}: {value:.3g} {unit}"
                drawing.bar(begin + number * width, top, width * 0.92, bottom - top, COLOURS[number], said)
        drawing.text(begin + room * 0.4, bottom + 14, group.replace("`", ""), "end", -28)
    drawing.legend(names, height - 12)
    return drawing.whole()


def panel(drawing, place, title, lines, names, labels):
    """One set of axes. `place` is x, y, width, height; each of `lines` has the points of a name or
    None."""
    x, y, width, height = place
    points = [it for line in lines for it in line or []]
    values = {it[0] for it in points}
    across = Axis(min(values), max(values), x, width, True, values)
    up = Axis(min(it[1] for it in points), max(it[1] for it in points), y + height, -height, True)
    for mark in up.marks:
        drawing.line(x, up.at(mark), x + width, up.at(mark))
        drawing.text(x - 5, up.at(mark) + 4, number_text(mark), "end")
    for mark in across.marks:
        drawing.line(across.at(mark), y, across.at(mark), y + height)
        drawing.text(across.at(mark), y + height + 15, number_text(mark), "middle")
    drawing.text(x, y - 7, title)
    drawing.text(x + width, y + height + 30, labels, "end")
    for number, line in enumerate(lines):
        if line:
            drawing.curve([(across.at(a), up.at(b)) for a, b in line], COLOURS[number % len(COLOURS)])
    return names


def lines(title, label, names, series):
    """Lines over one pair of logarithmic axes."""
    drawing = Drawing(title, 420)
    panel(drawing, (LEFT, TOP + 24, WIDTH - LEFT - RIGHT, 270), "", series, names, label)
    drawing.legend(names, 408)
    return drawing.whole()


def panels(title, names, each):
    """Small pictures with the same lines, two in a row. `each` has title, label and lines."""
    rows = (len(each) + 1) // 2
    drawing = Drawing(title, 70 + 230 * rows)
    wide = (WIDTH - RIGHT) / 2
    for number, (name, label, series) in enumerate(each):
        place = (LEFT + number % 2 * wide, 60 + number // 2 * 230, wide - LEFT - 10, 150)
        panel(drawing, place, name, series, names, label)
    drawing.legend(names, drawing.height - 14)
    return drawing.whole()
