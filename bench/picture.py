#!/usr/bin/env python3
"""The first table of docs/PERFORMANCE.md as a picture.

    bench/picture.py --write    draws it into docs/speed.svg
    bench/picture.py --check    fails unless docs/speed.svg is drawn from that table as it is
"""

import os
import sys
from xml.sax.saxutils import escape

sys.path.append(os.path.join(os.path.dirname(os.path.dirname(os.path.abspath(__file__))), "build"))
from repository import TOP, text_of  # noqa: E402

PICTURE = os.path.join(TOP, "docs", "speed.svg")
HEAD = """| Work | `ti`, ms | ncurses, ms | Ratio | Ratio of instructions |
|---|---:|---:|---:|---:|"""
TIMES = ("`ti`, ms", "ncurses, ms")
BARS = (("#73d216", "ti"), ("#babdb6", "ncurses"))
# in pixels: where bars begin, how long that of ncurses is, and how high a bar is
LEFT, FULL, HIGH = 340, 400, 16


def cells(line):
    """The cells of a row of a table."""
    return [cell.strip() for cell in line.strip("|").split("|")]


def rows_at_a_glance():
    """The rows of the table: the name of the work, and the milliseconds of both."""
    section = text_of("docs", "PERFORMANCE.md").split("\n## At a glance\n")[1].split("\n## ")[0]
    head, _, *rows = [cells(line) for line in section.split("\n") if line.startswith("|")]
    at = [head.index(name) for name in TIMES]
    return [(row[0], *(float(row[column]) for column in at)) for row in rows]


def row(measure):
    """A row of the table."""
    took, their_time = (shown(1000 * seconds) for seconds in measure.seconds)
    ratios = (measure.ratio(measure.seconds), measure.ratio(measure.instructions))
    return f"| {measure.name} | {took} | {their_time} | " + " | ".join(f"{ratio:.2f}" for ratio in ratios) + " |"


def text(x, y, says, anchor="start"):
    return f'<text x="{x:.0f}" y="{y}" text-anchor="{anchor}">{escape(says)}</text>'


def shown(milliseconds):
    """Milliseconds as the table has them."""
    return f"{milliseconds:.{1 if milliseconds >= 10 else 2}f}"


def bar(y, part, milliseconds, color):
    """A bar, and its time after it."""
    size = f'width="{FULL * part:.0f}" height="{HIGH - 2}"'
    yield f'<rect x="{LEFT}" y="{y}" {size} fill="{color}"/>'
    yield text(LEFT + FULL * part + 6, y + HIGH - 4, f"{shown(milliseconds)} ms")


def drawn(rows):
    """The picture: for each work a bar of our time and one of ncurses's, which is of the same length for
    all."""
    y, lines = 16, []
    for work, *times in rows:
        lines.append(text(LEFT - 10, y + HIGH - 4, work.replace("`", ""), "end"))
        for taken, (color, _) in zip(times, BARS):
            lines += bar(y, taken / times[1], taken, color)
            y += HIGH
        y += 10
    for at, (color, says) in enumerate(BARS):
        lines.append(f'<rect x="{LEFT + 120 * at}" y="{y + 8}" width="12" height="12" fill="{color}"/>')
        lines.append(text(LEFT + 120 * at + 18, y + 19, says))
    width, height = LEFT + FULL + 80, y + 32
    size = f'width="{width}" height="{height}" viewBox="0 0 {width} {height}"'
    head = f'<svg xmlns="http://www.w3.org/2000/svg" {size} font-family="sans-serif" font-size="12">'
    paper = '<rect width="100%" height="100%" fill="white"/>'
    return "\n".join([head, paper, *lines, "</svg>"]) + "\n"


def draw(rows):
    """Writes the picture."""
    with open(PICTURE, "w", encoding="utf-8") as file:
        file.write(drawn(rows))


def main():
    if sys.argv[1:] not in (["--write"], ["--check"]):
        print(__doc__, file=sys.stderr)
        return 2
    if sys.argv[1] == "--check":
        if text_of("docs", "speed.svg") == drawn(rows_at_a_glance()):
            return 0
        print("docs/speed.svg is not drawn from the first table of docs/PERFORMANCE.md: run bench/picture.py --write")
        return 1
    draw(rows_at_a_glance())
    return 0


if __name__ == "__main__":
    sys.exit(main())
