#!/usr/bin/env python3
"""Writes the files `cell`, `trail` and `final` of the examples with a trail (with their `order`) and of every test case of audit, from their
readable form below. The final listing is what the trail's maker says, right or wrong.

Run it from anywhere: python3 examples/make_trails.py
What audit must print for each stands beside them in `finding`, and what walk must print for the order in `expected`; neither is written here.
"""
import sys

sys.dont_write_bytecode = True
from make import CASES as WALK_CASES, END, ENTER, EXIT, LONGEST, OPEN, RELEASE, TOP, agent, calls, crowd, keyed, place, touches

NONE = 255


def moves(*pairs):
    """A trail: for each move the agent, and the place entered or opened, or 255 for exit and release."""
    return bytes(byte for pair in pairs for byte in pair)


# ---- examples: a shift of a bonder's line

# bonder 20 with a worn holder 30 and a tray 50 with a spool 60, magazine 40 with a fresh holder 31. The holders change places; an agent of the
# bonder empties the tray and puts out an empty carrier 9
LINE = (place(1, 0, 20) + place(2, 1, 30) + place(3, 0, 40) + place(4, 3, 31) + place(5, 1, 50) + place(6, 5, 60)
        + agent(0, 2, (EXIT, 20), (ENTER, 40)) + agent(1, 4, (EXIT, 40), (ENTER, 20)) + agent(2, 1, (OPEN, 50), (RELEASE, 9)) + END)
SHIFT = calls([0] * 7 + [1] * 7 + [0] * 7 + [2] * 4 + [1] * 7 + [2] * 3)
AFTER = b"20[31[] | 60[] | 9[]] | 40[30[]]"
OUT = [(0, NONE), (1, NONE)]
IN = [(0, 3), (2, 5), (1, 1), (2, NONE)]

EXAMPLES = {
    "trail-believed": (LINE, SHIFT, moves(*OUT, *IN), AFTER),
    # the third move has the worn holder, whose next action is enter 40, go back into the bonder
    "trail-denied": (LINE, SHIFT, moves(*OUT, (0, 1), *IN[1:]), AFTER),
}


# ---- test cases: the corners

# 7[enter 9] | 9[exit 7]: document 01's own, and its listing after the one move that it permits
WORKED = place(1, 0, 7) + place(2, 0, 9) + agent(0, 1, (ENTER, 9)) + agent(1, 2, (EXIT, 7)) + END
START = b"7[enter 9] | 9[exit 7]"
WORKED_END = b"9[exit 7 | 7[]]"
ENTERED = moves((0, 2))
BAD = place(1, 5, 7) + END

# 9[7[exit 9]], open 7 | 7[8[]] and 7[release 9]: one move each
LEAVES = place(1, 0, 9) + place(2, 1, 7) + agent(0, 2, (EXIT, 9)) + END
OPENS = place(1, 0, 7) + place(2, 1, 8) + agent(0, 0, (OPEN, 7)) + END
PUTS = place(1, 0, 7) + agent(0, 1, (RELEASE, 9)) + END

# two holders go into two trays, each in its own time
TWO = place(1, 0, 30) + place(2, 0, 31) + place(3, 0, 50) + place(4, 0, 51) + agent(0, 1, (ENTER, 50)) + agent(1, 2, (ENTER, 51)) + END
TWO_END = b"50[30[]] | 51[31[]]"

# places 1 and 3: what is put has the number 2, is entered by the agent in place 1, opened, and its number given again
AGAIN = (place(1, 0, 7) + place(3, 0, 7) + agent(0, 0, (RELEASE, 9), (OPEN, 9), (RELEASE, 8)) + agent(1, 1, (ENTER, 9)) + END)

# 64 places in use, the floor among them
FULL = crowd(1, 63) + agent(0, 0, (RELEASE, 9)) + agent(1, 0, (OPEN, 5)) + END

# 64 agents with sixteen actions each put out a carrier and open it: no trail has more moves
MOST = b"".join(agent(x, 0, *[(RELEASE, 9), (OPEN, 9)] * 8) for x in range(64)) + END
MOST_MOVES = moves(*[(x, byte) for x in range(64) for byte in (NONE, 1) * 8])

CASES = {
    # a bad file first, whatever the trail
    "refused-file": (BAD, ENTERED, WORKED_END),
    "refused-file-odd-trail": (BAD, bytes([0]), b""),
    "refused-file-long": (WALK_CASES["long-file"][0], b"", b"0"),
    "refused-after-the-longest-file": (LONGEST + keyed(63, 0, 65535, 65535, 65535, 10000) + END, b"", b""),
    # then an odd last byte, whatever stands before it
    "odd-byte-alone": (WORKED, bytes([0]), START),
    "odd-last-byte": (WORKED, ENTERED + bytes([1]), WORKED_END),
    "odd-last-byte-of-wrong-moves": (WORKED, bytes([9, 9, 0, 9, 9]), START),
    # a trail may stop anywhere
    "empty-trail": (WORKED, b"", START),
    "empty-trail-other-layout": (WORKED, b"", WORKED_END),
    "empty-files": (b"", b"", b"0"),
    "empty-files-and-no-listing": (b"", b"", b""),
    "bare-floor": (END, b"", b"0"),
    "one-move": (WORKED, ENTERED, WORKED_END),
    "stops-on-the-way": (LINE, moves(*OUT, *IN[:2]), b"20[release 9 | 60[]] | 31[enter 20] | 40[30[]]"),
    # 255 for exit and release and nothing else; a place for enter and open, and not 255
    "exit": (LEAVES, moves((0, NONE)), b"7[] | 9[]"),
    "release": (PUTS, moves((0, NONE)), b"7[9[]]"),
    "open": (OPENS, moves((0, 1)), b"8[]"),
    "place-for-exit": (LEAVES, moves((0, 1)), b"7[] | 9[]"),
    "floor-for-exit": (LEAVES, moves((0, 0)), b"7[] | 9[]"),
    "254-for-exit": (LEAVES, moves((0, 254)), b"7[] | 9[]"),
    "place-for-release": (PUTS, moves((0, 2)), b"7[9[]]"),
    "none-for-enter": (WORKED, moves((0, NONE)), WORKED_END),
    "none-for-open": (OPENS, moves((0, NONE)), b"8[]"),
    "unused-place-for-enter": (WORKED, moves((0, 3)), WORKED_END),
    "place-64-for-enter": (WORKED, moves((0, 64)), WORKED_END),
    "own-place-for-enter": (place(1, 0, 7) + agent(0, 1, (ENTER, 7)) + END, moves((0, 1)), b"7[7[]]"),
    "elsewhere-for-open": (OPENS, moves((0, 2)), b"7[]"),
    # an agent that is not given or has nothing left to do
    "agent-not-given": (WORKED, moves((2, 2)), WORKED_END),
    "agent-63": (WORKED, moves((63, 2)), WORKED_END),
    "agent-64": (WORKED, moves((64, 2)), WORKED_END),
    "agent-255": (WORKED, ENTERED + moves((255, 255)), WORKED_END),
    "no-action-left": (WORKED, ENTERED + moves((0, 2)), WORKED_END),
    "no-action-given": (agent(5, 0) + END, moves((5, NONE)), b"0"),
    # the first wrong move decides, and no listing mends it
    "two-wrong-moves": (WORKED, moves((1, NONE), (9, 9)), START),
    "wrong-move-after-a-right-one": (WORKED, ENTERED + moves((1, NONE)), WORKED_END),
    # the listing byte for byte
    "final-cut": (WORKED, ENTERED, WORKED_END[:-1]),
    "final-longer": (WORKED, ENTERED, WORKED_END + b"]"),
    "final-with-a-line-end": (WORKED, ENTERED, WORKED_END + b"\n"),
    "final-with-a-zero-byte": (WORKED, ENTERED, WORKED_END + b"\0"),
    "final-empty": (WORKED, ENTERED, b""),
    "final-of-the-start": (WORKED, ENTERED, START),
    "final-in-another-order": (TWO, moves((0, 3), (1, 4)), b"51[31[]] | 50[30[]]"),
    # two moves that need nothing of each other, and two that do
    "two-moves": (TWO, moves((0, 3), (1, 4)), TWO_END),
    "two-moves-swapped": (TWO, moves((1, 4), (0, 3)), TWO_END),
    "two-places-swapped": (TWO, moves((0, 4), (1, 3)), TWO_END),
    "swapped-and-not-permitted": (LINE, moves(OUT[0], IN[0], IN[2], OUT[1], IN[1], IN[3]), AFTER),
    # what is put, and its number
    "number-given-again": (AGAIN, moves((0, NONE), (1, 2), (0, 2), (0, NONE)), b"7[] | 7[] | 8[]"),
    "entered-before-it-is-put": (AGAIN, moves((1, 2), (0, NONE)), b"open 9.release 8 | 7[] | 9[7[]]"),
    "entered-after-it-is-opened": (AGAIN, moves((0, NONE), (0, 2), (1, 2)), b"release 8 | 7[] | 7[enter 9]"),
    "no-number-unused": (FULL, moves((0, NONE)), b""),
    "number-unused-after-an-opening": (FULL, moves((1, 41), (0, NONE)), b" | ".join([b"5[]"] * 62 + [b"9[]"])),
    # keys and touches
    "by-its-key": (keyed(1, 0, 9, 4, 5, 6) + place(2, 0, 1) + agent(0, 2, (ENTER, 4)) + END, moves((0, 1)), b"9/4/5/6[1[]]"),
    "by-its-name": (keyed(1, 0, 9, 4, 5, 6) + place(2, 0, 1) + agent(0, 2, (ENTER, 9)) + END, moves((0, 1)), b"9/4/5/6[1[]]"),
    "touches-play-no-part": (touches(0, 7) + place(1, 0, 7) + touches(1, 9) + agent(0, 0, (OPEN, 7)) + END, moves((0, 1)), b"0"),
    # as many moves as there can be, and one more
    "most-moves": (MOST, MOST_MOVES, b"0"),
    "most-moves-and-one": (MOST, MOST_MOVES + moves((0, NONE)), b"0"),
}


def write(folder, names, files):
    folder.mkdir(parents=True, exist_ok=True)
    for name, content in zip(names, files):
        (folder / name).write_bytes(content)


for label, files in EXAMPLES.items():
    write(TOP / "examples" / label, ("cell", "order", "trail", "final"), files)
for label, files in CASES.items():
    write(TOP / "tests" / "audit" / label, ("cell", "trail", "final"), files)
