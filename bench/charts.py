#!/usr/bin/env python3
"""Draws the charts of docs/PERFORMANCE.md as SVG, from the tables of bench/RESULTS.md.

    bench/charts.py

`bench/run charts` calls it, and tests/documents/ compares the charts with the tables.
"""
import math
from html import escape
from pathlib import Path

TOP = Path(__file__).resolve().parent.parent
RESULTS = TOP / "bench/RESULTS.md"
RATIOS, GROWTH = TOP / "docs/ratios.svg", TOP / "docs/growth.svg"
COLOURS = ["#1b6ca8", "#c8553d", "#2e8b57", "#7b4fa3", "#b8860b", "#444444", "#d1498b", "#5f9ea0"]
# The height of a bar with the gap below it, the room for names on the left, the width of the ratio 1, and the room to
# the right of it and of the longest bar: the line at 1 has a name, whose half is there.
BAR, LABELS, SCALE, END = 20, 250, 200, 90
# The sides of the plot of growth, and the room for its numbers and names.
WIDTH, HEIGHT = 640, 360
LEFT, RIGHT, UPPER, LOWER = 60, WIDTH - 190, 20, HEIGHT - 45


def rows_below(path, heading):
    """The rows of the first table below a heading of a page, each as its cells without backquotes."""
    part = path.read_text(encoding="utf-8").split(f"## {heading}\n")[1].split("\n## ")[0]
    table = part[part.index("\n|") + 1 :].split("\n\n")[0]
    rows = [line.replace("`", "").strip("| ").split(" | ") for line in table.splitlines()]
    return rows[0], rows[2:]


def text(x, y, words, anchor="start", size=12, colour=""):
    fill = f' fill="{colour}"' if colour else ""
    return f'<text x="{x:.0f}" y="{y:.0f}" font-size="{size}" text-anchor="{anchor}"{fill}>{escape(words)}</text>'


def line(x, y, to_x, to_y, colour="#999999"):
    return f'<line x1="{x:.0f}" y1="{y:.0f}" x2="{to_x:.0f}" y2="{to_y:.0f}" stroke="{colour}"/>'


def drawing(width, height, parts):
    """A chart of some width and height, with a white ground."""
    head = f'<svg xmlns="http://www.w3.org/2000/svg" viewBox="0 0 {width} {height}" font-family="sans-serif">'
    return "\n".join([head, f'<rect width="{width}" height="{height}" fill="white"/>', *parts, "</svg>", ""])


def bars():
    """A bar for the ratio of each call to the GNU C library, and a line at 1."""
    _, rows = rows_below(RESULTS, "Calls of the C library")
    calls = [(row[0], float(row[2])) for row in rows]
    height = BAR * len(calls) + 50
    parts = []
    for number, (call, ratio) in enumerate(calls):
        y = BAR * number + 30
        parts.append(text(LABELS - 8, y + 11, call, "end"))
        parts.append(f'<rect x="{LABELS}" y="{y}" width="{ratio * SCALE:.0f}" height="{BAR - 6}" fill="{COLOURS[0]}"/>')
        # The number is inside of the bar, so that the line at 1 isn't in front of it.
        parts.append(text(LABELS + ratio * SCALE - 5, y + 11, f"{ratio:.2f}", "end", 11, "white"))
    one = LABELS + SCALE
    parts += [line(one, 22, one, height - 18, COLOURS[1]), text(one, 16, "1: parse_printf_format", "middle")]
    longest = max(1, *(ratio for _, ratio in calls))
    return drawing(round(LABELS + longest * SCALE) + END, height, parts)


def growth():
    """The instructions of one call by the bytes of the text, both on logarithmic axes, with a line for each family."""
    head, rows = rows_below(RESULTS, "Growth")
    sizes = [int(size.replace(",", "")) for size in head[2:]]
    costs = {row[0]: [size * float(cell.replace(",", "")) for size, cell in zip(sizes, row[2:])] for row in rows}
    every = [cost for family in costs.values() for cost in family]
    low, high = math.floor(math.log10(min(every))), math.ceil(math.log10(max(every)))
    first, last = math.log10(sizes[0]), math.log10(sizes[-1])

    def point(size, cost):
        across = (math.log10(size) - first) / (last - first)
        up = (math.log10(cost) - low) / (high - low)
        return LEFT + across * (RIGHT - LEFT), LOWER - up * (LOWER - UPPER)

    parts = [line(LEFT, LOWER, RIGHT, LOWER), line(LEFT, UPPER, LEFT, LOWER)]
    parts += [text(point(size, 10**low)[0], LOWER + 18, f"{size:,}", "middle", 11) for size in sizes]
    parts += [text(LEFT - 6, point(sizes[0], 10**it)[1] + 4, f"10^{it}", "end", 11) for it in range(low, high + 1)]
    parts.append(text((LEFT + RIGHT) / 2, HEIGHT - 8, "bytes of the format", "middle"))
    parts.append(text(LEFT + 8, UPPER - 6, "instructions of one call"))
    for number, (family, cost) in enumerate(sorted(costs.items(), key=lambda it: -it[1][-1])):
        points = " ".join("{:.1f},{:.1f}".format(*point(*it)) for it in zip(sizes, cost))
        parts.append(f'<polyline points="{points}" fill="none" stroke="{COLOURS[number]}" stroke-width="2"/>')
        y = UPPER + 20 * number + 20
        parts += [line(RIGHT + 12, y - 4, RIGHT + 28, y - 4, COLOURS[number]), text(RIGHT + 34, y, family, size=11)]
    return drawing(WIDTH, HEIGHT, parts)


def charts():
    """Each chart, by its path."""
    return {RATIOS: bars(), GROWTH: growth()}


def write():
    for path, chart in charts().items():
        path.write_text(chart, encoding="utf-8")


if __name__ == "__main__":
    write()
