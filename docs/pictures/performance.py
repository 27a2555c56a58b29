"""Draws the picture of PERFORMANCE.md from performance.csv beside it, which `host/bench/instructions --sweep` prints.

A row of panels for each call: its cost against the places in use, and against the agents in use, with one scale.
"""

import csv
import sys

sys.dont_write_bytecode = True

from drawing import EDGE, HERE, INK, SOFT, WAY_EDGE, Svg

GRID = "#dddddd"
PANEL_W, PANEL_H, LEFT, TOP, BETWEEN, RIGHT, BELOW, BOTTOM = 330, 170, 92, 76, 150, 84, 64, 62
CALLS = [("step", "A step that changes nothing"), ("list", "A listing"), ("read", "The reading of that listing"),
         ("trail", "The check of a trail, four moves an agent")]
SERIES = [("places", "places in use, with 8 agents"), ("agents", "agents in use, with 12 places")]
LINES = [("keeper", WAY_EDGE), ("plain", EDGE), ("tuned", SOFT)]
APART = 17


def round_step(top):
    """The distance between grid lines: 1, 2 or 5 times a power of ten, for at most five lines below the top."""
    step = 1
    while True:
        for factor in (1, 2, 5):
            if top <= 5 * step * factor:
                return step * factor
        step *= 10


def spread(ends):
    """The heights of the names at the right end: those of the lines, moved apart where two are too near."""
    heights = list(ends)
    order = sorted(range(len(ends)), key=lambda i: ends[i])
    for _ in range(20):
        for above, below in zip(order, order[1:]):
            near = max(0, APART - (heights[below] - heights[above])) / 2
            heights[above] -= near
            heights[below] += near
    return heights


def panel(svg, rows, across, x, y, top, step):
    """One panel: grid and axes, then a line for each keeper with its name at the right end."""
    def at(row, column):
        return (x + PANEL_W * float(row[across]) / 64, y + PANEL_H * (1 - float(row[column]) / top))

    for value in range(0, int(top) + 1, step):
        height = y + PANEL_H * (1 - value / top)
        svg.path([(x, height), (x + PANEL_W, height)], GRID if value else INK, 1, head=False)
        svg.text(x - 8, height + 5, f"{value:,}", 13, SOFT, anchor="end")
    for value in range(0, 65, 16):
        svg.text(x + PANEL_W * value / 64, y + PANEL_H + 18, str(value), 13, SOFT, anchor="middle")
    names = spread([at(rows[-1], column)[1] for column, _ in LINES])
    for (column, colour), height in zip(LINES, names):
        points = [at(row, column) for row in rows]
        svg.path(points, colour, 2.4, head=False)
        svg.text(points[-1][0] + 8, height + 5, column, 14, colour, bold=True)


def call(svg, rows, title, y):
    """The two panels of a call."""
    highest = max(float(row[column]) for row in rows for column, _ in LINES)
    step = round_step(highest)
    top = -(-highest // step) * step
    svg.text(20, y - 16, title, 15, bold=True)
    for i, (series, _) in enumerate(SERIES):
        panel(svg, [row for row in rows if row["series"] == series], series, LEFT + i * (PANEL_W + BETWEEN), y, top, step)


def main():
    with open(HERE / "performance.csv", encoding="utf-8") as lines:
        rows = list(csv.DictReader(lines))
    bottom = TOP + len(CALLS) * (PANEL_H + BELOW) - BELOW
    svg = Svg(LEFT + 2 * PANEL_W + BETWEEN + RIGHT, bottom + BOTTOM, "The cost of four calls against the size of the cell",
              "Two panels each for a step, a listing, its reading and the check of a trail. Machine instructions a call, for the proved keeper, the "
              "plain and the tuned peer, against the places in use and against the agents in use.")
    svg.text(20, 30, "Machine instructions a call, agents with four actions each", 16, bold=True)
    for i, (name, title) in enumerate(CALLS):
        call(svg, [row for row in rows if row["call"] == name], title, TOP + i * (PANEL_H + BELOW))
    for i, (_, title) in enumerate(SERIES):
        svg.text(LEFT + i * (PANEL_W + BETWEEN) + PANEL_W / 2, bottom + 44, title, 14, anchor="middle")
    svg.write("performance.svg")


main()
