"""The picture of the ceiling: how many more calls could change the cell, after each call of the worked example."""

from drawing import EDGE, FILL, INK, SOFT, WAY_EDGE, Svg


def ceiling():
    """The worked example: after each call how many more could change the cell at most, and which calls changed it."""
    calls = "0 looked,1 looked,0 took,1 held,0 took,0 left,1 took,1 slept,0 took,0 took,0 came,0 done,1 looked".split(",")
    left = [54, 54, 54, 54, 54, 43, 43, 43, 43, 43, 32, 32, 32]
    start, wide, floor, scale = 190, 66, 250, 3
    svg = Svg(start + wide * 14 + 20, 366, "No order can churn forever: the worked example",
              "After the load at most 54 more calls can change the cell. After call 6, left, it is 43, and after call 11, came, 32. Eleven of "
              "the thirteen calls changed the cell; held and done did not.")
    svg.text(20, 30, "at most so many more calls", 14, SOFT)
    svg.text(20, 50, "can change the cell", 14, SOFT)
    for i, n in enumerate([54] + left):
        x = start + wide * i
        moved = i > 0 and n != ([54] + left)[i - 1]
        svg.rect(x + 8, floor - n * scale, wide - 16, n * scale, FILL, WAY_EDGE if moved else EDGE, round_by=2)
        svg.text(x + wide / 2, floor - n * scale - 8, str(n), 15, WAY_EDGE if moved else INK, bold=True, anchor="middle")
    for y, words in ((276, "call"), (298, "agent"), (320, "answer"), (346, "changed the cell")):
        svg.text(20, y, words, 14, SOFT)
    svg.text(start + wide / 2, 276, "load", 14, SOFT, anchor="middle")
    for i, call in enumerate(calls):
        middle = start + wide * (i + 1) + wide / 2
        who, word = call.split()
        svg.text(middle, 276, str(i + 1), 14, SOFT, anchor="middle")
        svg.text(middle, 298, who, 15, bold=True, anchor="middle")
        svg.text(middle, 320, word, 14, anchor="middle")
        svg.text(middle, 346, "no" if word in ("held", "done", "asleep") else "yes", 14, SOFT, anchor="middle")
    svg.write("ceiling.svg")
