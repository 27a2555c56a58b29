"""Draws the pictures of MEANING.md: `python3 docs/pictures/make.py` rewrites every SVG beside this file.

One function a picture. The same input gives the same bytes.
"""

import sys

sys.dont_write_bytecode = True

from drawing import (EDGE, FILL, INK, LINE, LOCK_0, LOCK_1, SOFT, WAY_EDGE, WAY_FILL, Svg, agent, panels, place, spent)
from ceiling import ceiling
from release import release, semaphore
from railroad import Again, Box, Either, Row, Skip, tracks
from timeline import asking
from trail import trail
from where import where
from window import flags, window


def cell():
    """A cell as nested boxes, with its listing."""
    box = place("floor", 0,
                place("20 bonder", 1, place("30 holder", 2, agent(0, "exit 20.enter 40"))),
                place("40 magazine", 3, place("50 tray", 4), place("50 tray", 5)))
    panels("cell.svg", "A cell as nested boxes",
           "The floor holds bonder 20, with holder 30 and agent 0 in it, and magazine 40 with two trays named 50.",
           [("A cell: places in places", box, "20[30[exit 20.enter 40]] | 40[50[] | 50[]]")])


def enter():
    """Before, on its way, and after an enter."""
    panels("enter.svg", "Enter 9", "Place 7 stands beside place 9, is then on its way into it, and at last is linked in it.", [
        ("Before", place("floor", 0, place("7", 1, agent(0, "enter 9")), place("9", 2)), "7[enter 9] | 9[]"),
        ("After left", place("floor", 0, place("9", 2, place("7", 1, spent(0), away=True))), "9[7[]]"),
        ("After came", place("floor", 0, place("9", 2, place("7", 1, spent(0)))), "9[7[]]")])


def exit_():
    """Before, on its way, and after an exit."""
    panels("exit.svg", "Exit 9", "Place 7 stands in place 9, is then on its way out of it, and at last stands beside it.", [
        ("Before", place("floor", 0, place("9", 1, place("7", 2, agent(0, "exit 9")))), "9[7[exit 9]]"),
        ("After left", place("floor", 0, place("7", 2, spent(0), away=True), place("9", 1)), "7[] | 9[]"),
        ("After came", place("floor", 0, place("7", 2, spent(0)), place("9", 1)), "7[] | 9[]")])


def open_():
    """Before and after an open."""
    panels("open.svg", "Open 7", "Place 7 in place 9 is dissolved: its agent and the place in it now stand in place 9.", [
        ("Before", place("9", 1, agent(0, "open 7"), place("7", 2, agent(1, "enter 5"), place("8", 3))),
         "9[open 7 | 7[enter 5 | 8[]]]"),
        ("After opened", place("9", 1, spent(0), agent(1, "enter 5"), place("8", 3)), "9[enter 5 | 8[]]")])


def example_trees():
    """The worked example: the cell at the start, after left and after came."""
    panels("example-trees.svg", "The worked example: three layouts",
           "At the start 7 and 9 stand on the floor; after call 6, 7 is on its way to 9; after call 11, 7 is linked in 9.", [
               ("Start", place("floor", 0, place("7", 1, agent(0, "enter 9")), place("9", 2, agent(1, "exit 7"))),
                "7[enter 9] | 9[exit 7]"),
               ("After call 6, left",
                place("floor", 0, place("9", 2, agent(1, "exit 7"), place("7", 1, spent(0), away=True))), "9[exit 7 | 7[]]"),
               ("After call 11, came, and at the end",
                place("floor", 0, place("9", 2, agent(1, "exit 7"), place("7", 1, spent(0)))), "9[exit 7 | 7[]]")])


def example_held():
    """The worked example: the two moments at which agent 0 holds two locks."""
    panels("example-held.svg", "The worked example: two locks held",
           "After call 5 agent 0 holds the floor and 7; after call 10 it holds 7 and 9.", [
               ("After call 5: ready to leave",
                place("floor", 0, place("7", 1, agent(0, "enter 9"), lock=0), place("9", 2, agent(1, "exit 7")), lock=0),
                "7[enter 9] | 9[exit 7]"),
               ("After call 10: ready to link",
                place("floor", 0, place("9", 2, agent(1, "exit 7"), place("7", 1, spent(0), away=True, lock=0), lock=0)),
                "9[exit 7 | 7[]]")])


def example_locks():
    """The worked example: after each call the stages of both agents and who holds which lock."""
    calls = "0 looked,1 looked,0 took,1 held,0 took,0 left,1 took,1 slept,0 took,0 took,0 came,0 done,1 looked".split(",")
    stages = {"agent 0: stage": "1122344456888", "agent 1: stage": "0111112777001"}
    locks = {"lock of the floor": "..000.1......", "lock of 7": "....0...00...", "lock of 9": ".........0..."}
    left, wide, row = 170, 66, 34
    svg = Svg(left + wide * 13 + 20, 84 + row * 5 + 20, "The worked example: stages and locks after each call",
              "A table of thirteen calls. Agent 0 holds the floor after calls 3 to 5, 7 after calls 5, 9 and 10, and 9 after "
              "call 10. Agent 1 holds the floor after call 7.")
    svg.text(20, 30, "call", 14, SOFT)
    svg.text(20, 52, "agent", 14, SOFT)
    svg.text(20, 74, "answer", 14, SOFT)
    for i, call in enumerate(calls):
        middle = left + wide * i + wide / 2
        who, word = call.split()
        svg.text(middle, 30, str(i + 1), 14, SOFT, anchor="middle")
        svg.text(middle, 52, who, 15, bold=True, anchor="middle")
        svg.text(middle, 74, word, 14, anchor="middle")
    y = 84
    for title, after in stages.items():
        svg.text(20, y + 23, title, 14)
        for i, s in enumerate(after):
            svg.rect(left + wide * i, y, wide, row, "#ffffff", "#b8b8b8", thick=1, round_by=0)
            svg.text(left + wide * i + wide / 2, y + 23, s, 15, anchor="middle")
        y += row
    for title, after in locks.items():
        svg.text(20, y + 23, title, 14)
        for i, s in enumerate(after):
            colour = {"0": LOCK_0, "1": LOCK_1, ".": "#ffffff"}[s]
            svg.rect(left + wide * i, y, wide, row, colour, "#b8b8b8", thick=1, round_by=0)
            svg.text(left + wide * i + wide / 2, y + 22, "free" if s == "." else f"agent {s}", 13,
                     SOFT if s == "." else "#ffffff", bold=s != ".", anchor="middle")
        y += row
    svg.write("example-locks.svg")


def touches():
    """A holder with its touch count goes into a bonder, is touched there, and a tray is opened whose count is pooled."""
    panels("touches.svg", "Touches travel with the holder",
           "Holder 30 has 1,200 touches on the floor and, after a touch call of 300, 1,500 in bonder 20. Tray 50 in the bonder has 40. After the "
           "tray is opened by an agent of the bonder, the bonder has 40.", [
               ("Start: 1,240 in all",
                place("floor", 0, place("20 bonder", 1, agent(0, "open 50"), place("50 tray", 2, touches=40), touches=0),
                      place("30 holder", 3, agent(1, "enter 20"), touches=1200), touches=0),
                "20[open 50 | 50[]] | 30[enter 20]"),
               ("After came and 300 added: 1,540 in all",
                place("floor", 0, place("20 bonder", 1, agent(0, "open 50"), place("30 holder", 3, spent(1), touches=1500),
                                        place("50 tray", 2, touches=40), touches=0), touches=0),
                "20[open 50 | 30[] | 50[]]"),
               ("After opened: 1,540 in all",
                place("floor", 0, place("20 bonder", 1, spent(0), place("30 holder", 3, spent(1), touches=1500), touches=40), touches=0),
                "20[30[]]")])


def served():
    """The tray that came first is taken first, whatever its number."""
    panels("served.svg", "First in, first served",
           "Two trays named 50 stand on the floor: place 4 has been there longest, place 3 came after it. Holder 30 goes into place 4.", [
               ("Start: place 4 stands before place 3 in the file",
                place("floor", 0, place("30", 1, agent(0, "enter 50")), place("50, 1st", 4), place("50, 2nd", 3)),
                "30[enter 50] | 50[] | 50[]"),
               ("After came", place("floor", 0, place("50, 1st", 4, place("30", 1, spent(0))), place("50, 2nd", 3)), "50[30[]] | 50[]")])


def layouts():
    """One layout as two hosts number it, and its one listing."""
    listing = "20[30[exit 20]] | 40[50[] | 51[]]"
    panels("layouts.svg", "One layout, one listing",
           "Two hosts number the same carriers: in the first, bonder 20 is place 1 and magazine 40 place 2; in the second, the magazine is "
           "place 1 and the bonder place 4. Under both stands the same listing.", [
               ("One host's numbers",
                place("floor", 0, place("20 bonder", 1, place("30 holder", 3, agent(0, "exit 20"))),
                      place("40 magazine", 2, place("50 tray", 4), place("51 tray", 5))), listing),
               ("Another host's numbers",
                place("floor", 0, place("40 magazine", 1, place("51 tray", 2), place("50 tray", 3)),
                      place("20 bonder", 4, place("30 holder", 5, agent(9, "exit 20")))), listing)], arrows=False)


def rights():
    """A supplier's magazine at a bonder that it may enter and leave and that nobody may open."""
    keys = (20, 20, 0)
    panels("rights.svg", "Three keys: who may enter, leave and open",
           "Bonder 20 has three doors: enter 20 and exit 20 are open, open is shut. Magazine 40 goes into the bonder and may leave it. "
           "Agent 1, on the floor, sleeps: its open 20 does not fire on the bonder.", [
               ("Start",
                place("floor", 0, agent(1, "open 20"), place("20 bonder", 1, keys=keys),
                      place("40 magazine", 2, agent(0, "enter 20.exit 20"))),
                "open 20 | 20/20/20/0[] | 40[enter 20.exit 20]"),
               ("After came; agent 1 sleeps",
                place("floor", 0, agent(1, "open 20"), place("20 bonder", 1, place("40 magazine", 2, agent(0, "exit 20")), keys=keys)),
                "open 20 | 20/20/20/0[40[exit 20]]")])


def slips():
    """Opening while something is on its way: the start, and the moment at which the opener must step back."""
    panels("slips.svg", "Opening a place that something is on its way to",
           "Agent 0 wants to open 1 while agent 1 moves 3 out of 2, into 1. Agent 0 holds the floor and 1; 3 is on its way.", [
               ("Start", place("floor", 0, agent(0, "open 1"),
                               place("1", 1, place("2", 2, place("3", 3, agent(1, "exit 2"))))), "open 1 | 1[2[3[exit 2]]]"),
               ("Agent 0 at stage 3, agent 1 has left",
                place("floor", 0, agent(0, "open 1"), place("1", 1, place("2", 2), place("3", 3, spent(1), away=True), lock=0),
                      lock=0),
                "open 1 | 1[2[] | 3[]]")])


def stages():
    """The nine stages, what is locked at each, and the words on the way from one to the next."""
    w, h = 200, 92
    col = [50, 330, 610, 890]
    above, upper, lower = 40, 236, 470
    boxes = {0: (col[0], upper, "0  looking", "no lock"), 1: (col[1], upper, "1  found", "no lock"),
             2: (col[2], upper, "2  holding p", "lock of p"), 3: (col[3], upper, "3  holding both", "lock of p and of the"),
             4: (col[3], lower, "4  on its way", "no lock"), 5: (col[2], lower, "5  on its way", "lock of its own place"),
             6: (col[1], lower, "6  on its way", "locks of its own place"), 7: (col[0], above, "7  asleep", "no lock"),
             8: (col[0], lower, "8  done", "no lock")}
    second = {3: "second place", 6: "and of the destination"}
    svg = Svg(1140, 708, "The nine stages of an agent",
              "Stages 0 to 3 lead to left or opened, stages 0 to 2 to put; stages 4 to 6 lead to came; 7 is asleep and 8 is done.")

    def label(x, y, word, anchor="middle", strong=False, small=False):
        svg.text(x, y, word, 13 if small else 15, WAY_EDGE if strong else SOFT if small else INK, bold=not small, anchor=anchor)

    for number, (x, y, title, locks) in boxes.items():
        moving, rest = number in (4, 5, 6), number in (7, 8)
        fill, edge = (WAY_FILL, WAY_EDGE) if moving else ("#f2f2f2", SOFT) if rest else (FILL, EDGE)
        svg.rect(x, y, w, h, fill, edge, dashed=moving)
        svg.text(x + w / 2, y + 32, title, 18, bold=True, anchor="middle")
        svg.text(x + w / 2, y + 57, locks, 13, SOFT, anchor="middle")
        if number in second:
            svg.text(x + w / 2, y + 75, second[number], 13, SOFT, anchor="middle")

    middle = upper + h / 2
    # the way to the second lock
    for a, word in ((0, "looked"), (1, "took"), (2, "took")):
        svg.path([(col[a] + w, middle), (col[a + 1], middle)])
        label((col[a] + w + col[a + 1]) / 2, middle - 10, word)
    # held: nothing changes
    for x in (col[1] + w / 2, col[2] + 146):
        svg.loop(x, upper, up=True)
        label(x, upper - 40, "held")
    for x in (col[2] + w / 2, col[3] + w / 2):
        svg.loop(x, lower + h, up=False)
        label(x, lower + h + 52, "held")
    # falling asleep and waking
    svg.path([(col[0] + 60, upper), (col[0] + 60, above + h)])
    label(col[0] + 52, 182, "slept", "end")
    svg.path([(col[2] + 60, upper), (col[2] + 60, above + h / 2), (col[0] + w, above + h / 2)])
    label(col[1] + w / 2, above + h / 2 - 10, "slept")
    svg.path([(col[0] + 140, above + h), (col[0] + 140, upper)], SOFT, dashed=True)
    label(col[0] + 150, 172, "woken by another", "start", small=True)
    label(col[0] + 150, 190, "agent's step", "start", small=True)
    svg.loop(col[0] + w / 2, above, up=True)
    label(col[0] + w / 2 + 36, above - 14, "asleep", "start")
    # back
    lane = upper + h + 34
    svg.path([(col[3] + 40, upper + h), (col[3] + 40, lane), (col[0] + 160, lane), (col[0] + 160, upper + h)])
    svg.path([(col[2] + w / 2, upper + h), (col[2] + w / 2, lane)], head=False)
    label(col[1] + w / 2, lane - 8, "back")
    # left: the layout changes
    svg.path([(col[3] + 160, upper + h), (col[3] + 160, lower)], WAY_EDGE, 3)
    label(col[3] + 170, (upper + h + lower) / 2 + 5, "left", "start", strong=True)
    # opened, put and came, and what follows them
    ask = lane + 48
    svg.path([(col[3] + 100, upper + h), (col[3] + 100, ask - 8), (col[0] + 166, ask - 8)], WAY_EDGE, 3)
    label(col[3] + 20, ask - 16, "opened", strong=True)
    svg.path([(col[2] + 150, upper + h), (col[2] + 150, ask - 8)], WAY_EDGE, 3, head=False)
    label(col[2] + 160, ask - 16, "put", "start", strong=True)
    svg.path([(col[1], lower + h / 2), (col[1] - 38, lower + h / 2), (col[1] - 38, ask + 12), (col[0] + 166, ask + 12)],
             WAY_EDGE, 3)
    label(col[1] - 28, lower - 14, "came", "start", strong=True)
    svg.rect(col[0] + 16, ask - 20, 150, 40, "#ffffff", LINE, round_by=20)
    svg.text(col[0] + 91, ask + 5, "an action left?", 14, anchor="middle")
    svg.path([(col[0] + 91, ask - 20), (col[0] + 91, upper + h)])
    label(col[0] + 82, ask - 36, "yes", "end", small=True)
    svg.path([(col[0] + 91, ask + 20), (col[0] + 91, lower)])
    label(col[0] + 82, ask + 38, "no", "end", small=True)
    # the way to the link
    for a, b in ((3, 2), (2, 1)):
        svg.path([(col[a], lower + h / 2), (col[b] + w, lower + h / 2)])
        label((col[a] + col[b] + w) / 2, lower + h / 2 - 10, "took")
    svg.loop(col[0] + w / 2, lower + h, up=False)
    label(col[0] + w / 2, lower + h + 52, "done")
    # the key
    svg.path([(50, 656), (92, 656)], WAY_EDGE, 3)
    svg.text(102, 661, "the layout, or what is linked, changes", 13, SOFT)
    svg.path([(400, 656), (442, 656)])
    svg.text(452, 661, "only the agent and locks change, or nothing", 13, SOFT)
    svg.path([(780, 656), (822, 656)], SOFT, dashed=True)
    svg.text(832, 661, "made by another agent's step", 13, SOFT)
    svg.text(50, 690, "Not drawn: another agent's opening may send an agent at stage 1 or 2 back to 0, as the text says.", 13,
             SOFT)
    svg.write("stages.svg")


def language():
    """What may be typed as a layout, as tracks."""
    number, key, parts = Box("number", typed=False), Box("key", typed=False), Box("parts", typed=False)
    keys = Row(*[p for _ in range(3) for p in (Box("/"), key)])
    tracks("language.svg", "The language of layouts",
           "A layout is 0 or parts. Parts are one part or more, a bar with a space on each side between two of them. A part is an agent or a "
           "place. A place is a number, three keys with a slash before each or none, and in brackets parts or nothing. An agent is one "
           "action or more with a full stop between two of them. An action is enter, exit, open or release, a space and a number. A key is 0 or a "
           "number. A number is a digit from 1 to 9 and any further digits.", [
               ("layout", "the whole text", Either(Box("0"), parts)),
               ("parts", "side by side", Again(Box("part", typed=False), Box("␣|␣"))),
               ("part", "", Either(Box("agent", typed=False), Box("place", typed=False))),
               ("place", "its name is a number", Row(number, Either(Skip(), keys), Box("["), Either(parts, Skip()), Box("]"))),
               ("agent", "its actions in turn", Again(Box("action", typed=False), Box("."))),
               ("action", "", Row(Either(Box("enter␣"), Box("exit␣"), Box("open␣"), Box("release␣")), number)),
               ("key", "0: nobody may", Either(number, Box("0"))),
               ("number", "1 to 65,535", Row(Box("1 .. 9"), Either(Skip(), Again(Box("0 .. 9"), Skip()))))],
           ["Yellow: typed as it stands; ␣ is one space, and 1 .. 9 one of these digits.",
            "Blue: go along the track of that name and come back."])


if __name__ == "__main__":
    for draw in (cell, stages, enter, exit_, open_, release, semaphore, touches, served, layouts, language, rights, example_trees, example_held, example_locks, slips,
                 asking, where, ceiling, trail, window, flags):
        draw()
