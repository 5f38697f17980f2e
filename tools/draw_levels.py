#!/usr/bin/env python3
"""Draws the crates of crates.txt by level, as docs/levels.svg.

    tools/draw_levels.py            writes the drawing
    tools/draw_levels.py --check    status 1 if the drawing is not that of crates.txt

A line leads from a crate down to each that it uses, unless another crate between them uses that
too. The last group, the programs that only test, has no lines.
Python's standard library only.
"""

import argparse
import re
import sys
from pathlib import Path
from xml.sax.saxutils import escape

from gate_times import crates_in

TOP = Path(__file__).resolve().parent.parent
DRAWING = TOP / "docs" / "levels.svg"
WIDTH, MARGIN, TITLE = 1280, 16, 20
BOX_HEIGHT, ROW, GAP, LETTER = 26, 40, 12, 7.4
COLOURS = ("#e8f0fe", "#e6f4ea", "#fef7e0", "#fce8e6", "#f3e8fd", "#e4f7fb")


def groups_in(text):
    """The groups of crates.txt, lowest first: each its heading and its crates."""
    groups = []
    for line in text.splitlines():
        if line.startswith("#"):
            groups.append((line.lstrip("# "), []))
        elif (found := re.match(r"(\w+):", line)) and groups:
            groups[-1][1].append(found[1])
    return [it for it in groups if it[1]]


def reached(crates):
    """All crates that each one uses, by others too."""
    found = {}
    for name in crates:
        found[name] = set(crates[name]).union(*(found[it] for it in crates[name] if it in found))
    return found


def lines_between(crates):
    """The pairs of a crate and one that it uses and that no other crate between them uses."""
    below = reached(crates)
    return [
        (name, used) for name in crates for used in crates[name]
        if not any(used in below[other] for other in crates[name] if other != used)
    ]


def rows_of(names):
    """The crates of a group in rows that fit the width."""
    rows, left = [[]], WIDTH - 2 * MARGIN
    for name in names:
        width = len(name) * LETTER + 18
        if left < width:
            rows.append([])
            left = WIDTH - 2 * MARGIN
        rows[-1].append((name, width))
        left -= width + GAP
    return rows


class Drawing:
    """The bands of the groups, the highest at the top, with the boxes of their crates."""

    def __init__(self, groups):
        self.bands, self.boxes, self.height = [], {}, MARGIN
        self.tests = set(groups[-1][1])
        for heading, names in reversed(groups):
            top = self.height
            for row in rows_of(names):
                self._add_row(row)
            self.bands.append((heading, top, self.height + TITLE - top))
            self.height += TITLE + GAP

    def _add_row(self, row):
        spare = WIDTH - 2 * MARGIN - sum(width for _, width in row)
        step, left = spare / (len(row) + 1), MARGIN
        for name, width in row:
            left += step
            self.boxes[name] = (left, self.height + TITLE, width)
            left += width
        self.height += ROW

    def shapes(self, crates):
        for at, (heading, top, height) in enumerate(self.bands):
            colour = COLOURS[at % len(COLOURS)]
            yield f'<rect x="4" y="{top}" width="{WIDTH - 8}" height="{height}" rx="6" fill="{colour}"/>'
            yield f'<text x="12" y="{top + 14}" class="band">{escape(heading)}</text>'
        for name, used in lines_between(crates):
            if name not in self.tests:
                yield self.line(name, used)
        for name, (left, top, width) in self.boxes.items():
            yield (f'<rect x="{left:.0f}" y="{top}" width="{width:.0f}" height="{BOX_HEIGHT}" rx="4" '
                   'fill="white" stroke="#444"/>')
            yield f'<text x="{left + width / 2:.0f}" y="{top + 17}" text-anchor="middle">{name}</text>'

    def line(self, name, used):
        """A curve from the lower edge of a box to the upper edge of the other."""
        left, top, width = self.boxes[name]
        to_left, to_top, to_width = self.boxes[used]
        x, y, to_x, to_y = left + width / 2, top + BOX_HEIGHT, to_left + to_width / 2, to_top
        bend = max(20, abs(to_y - y) / 2)
        return (f'<path d="M {x:.0f} {y} C {x:.0f} {y + bend:.0f}, {to_x:.0f} {to_y - bend:.0f}, '
                f'{to_x:.0f} {to_y}" fill="none" stroke="#888" stroke-opacity="0.45"/>')


def drawing_of(text):
    """The drawing of a crates.txt, as SVG."""
    crates = crates_in(text)
    drawing = Drawing(groups_in(text))
    lines = [
        f'<svg xmlns="http://www.w3.org/2000/svg" viewBox="0 0 {WIDTH} {drawing.height}" '
        'font-family="sans-serif" font-size="13">',
        "<title>The crates of tzdistd by level</title>",
        "<style>.band { font-size: 12px; font-weight: bold; fill: #555; }</style>",
        '<rect width="100%" height="100%" fill="white"/>',
        *drawing.shapes(crates),
        "</svg>",
    ]
    return "\n".join(lines) + "\n"


def main():
    flags = argparse.ArgumentParser(
        description="Draws the crates of crates.txt by level.", epilog="example: tools/draw_levels.py --check"
    )
    flags.add_argument("--check", action="store_true", help="compare the drawing, and write nothing")
    given = flags.parse_args()
    made = drawing_of((TOP / "crates.txt").read_text())
    if not given.check:
        DRAWING.write_text(made)
        return 0
    if not DRAWING.is_file() or DRAWING.read_text() != made:
        print("docs/levels.svg is not the drawing of crates.txt: run tools/draw_levels.py", file=sys.stderr)
        return 1
    return 0


if __name__ == "__main__":
    sys.exit(main())
