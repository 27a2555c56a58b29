#!/usr/bin/env python3
"""Writes the files `cell` and `order` of every example and of every test case of walk, from their readable form below.

Run it from anywhere: python3 examples/make.py
What walk must print for each stands beside them in `expected` and is not written here.
"""
import pathlib

TOP = pathlib.Path(__file__).resolve().parent.parent
ENTER, EXIT, OPEN, RELEASE = 1, 2, 3, 4


# ---- the cell file, record by record

def place(number, parent, name):
    return bytes([1, number, parent, name % 256, name // 256])


def keyed(number, parent, name, *keys):
    """A place with its three keys, for entering, exiting and opening; 0: nobody may."""
    return bytes([6, number, parent]) + b"".join(n.to_bytes(2, "little") for n in (name, *keys))


def agent(number, home, *actions):
    """An agent and its row of actions, each a pair of kind and name."""
    row = b"".join(bytes([3, number, kind, name % 256, name // 256]) for kind, name in actions)
    return bytes([2, number, home]) + row


def touches(number, count):
    """The touch count of a place, in four bytes."""
    return bytes([5, number]) + count.to_bytes(4, "little")


END = bytes([4])


# ---- the order

def calls(agents, wish=255):
    """One call for each agent named, all with one wish; 255 is no wish."""
    return b"".join(bytes([x, wish]) for x in agents)


# ---- examples: what an engineer may want to see first

EXAMPLES = {
    # 7[enter 9] | 9[exit 7]: document 01's own
    "worked": (
        place(1, 0, 7) + place(2, 0, 9) + agent(0, 1, (ENTER, 9)) + agent(1, 2, (EXIT, 7)) + END,
        calls([0, 1, 0, 1, 0, 0, 1, 1, 0, 0, 0, 0, 1])),
    # 1[enter 2.exit 2] | 2[enter 1.exit 1]: source 002 section 3, moves in different places race
    "race-two-places": (
        place(1, 0, 1) + place(2, 0, 2) + agent(0, 1, (ENTER, 2), (EXIT, 2)) + agent(1, 2, (ENTER, 1), (EXIT, 1)) + END,
        calls([0, 1] * 12 + [0] * 16 + [1] * 16)),
    # 1[2[enter 3.exit 3 | exit 1.enter 1] | 3[]]: source 002 section 3, one place may go down or up
    "race-up-or-down": (
        place(1, 0, 1) + place(2, 1, 2) + place(3, 1, 3) + agent(0, 2, (ENTER, 3), (EXIT, 3)) + agent(1, 2, (EXIT, 1), (ENTER, 1)) + END,
        calls([0, 1] * 24 + [0] * 12 + [1] * 12)),
    # a bonder 20 with a worn holder 30, a magazine 40 with a fresh holder 31: the worn one goes out and the fresh one in
    "change-of-holder": (
        place(1, 0, 20) + place(2, 1, 30) + place(3, 0, 40) + place(4, 3, 31)
        + agent(0, 2, (EXIT, 20), (ENTER, 40)) + agent(1, 4, (EXIT, 40), (ENTER, 20)) + END,
        calls([0, 1, 1, 0, 0, 1, 1, 0] * 6)),
    # open 1 | 1[] | 2[enter 1]: an opener waits until what is on its way into its tray has come
    "open-waits": (
        place(1, 0, 1) + place(2, 0, 2) + agent(0, 0, (OPEN, 1)) + agent(1, 2, (ENTER, 1)) + END,
        calls([1, 1, 1, 1, 0, 0, 0, 1, 1, 1, 0, 0, 0, 0, 0])),
    # a bonder 20 with a tray 50 in it, a holder 30 beside it: the holder goes in, the tray is opened; touches of tray and holder
    "touches-travel": (
        place(1, 0, 20) + place(2, 1, 50) + touches(2, 40) + place(3, 0, 30) + touches(3, 1200)
        + agent(0, 1, (OPEN, 50)) + agent(1, 3, (ENTER, 20)) + END,
        calls([1] * 7 + [0] * 5)),
    # holders 30 and 31 want into a tray 50; tray 4 stands before tray 3 in the file, goes into bonder 20 in between and comes back
    "trays-in-turn": (
        place(1, 0, 30) + place(2, 0, 31) + place(4, 0, 50) + place(3, 0, 50) + place(5, 0, 20)
        + agent(0, 1, (ENTER, 50)) + agent(1, 2, (ENTER, 50)) + agent(2, 4, (ENTER, 20), (EXIT, 20)) + END,
        calls([0] * 8 + [2] * 15 + [1] * 8)),
    # our bonder 20, with holder 30 in it, may be entered and left with 20, and nobody may open it; a supplier's magazine 40 goes in and
    # out. Then the magazine is opened, so that its agent lives on the floor, and would open the bonder there
    "suppliers-magazine": (
        keyed(1, 0, 20, 20, 20, 0) + place(2, 1, 30) + place(3, 0, 40)
        + agent(0, 3, (ENTER, 20), (EXIT, 20), (OPEN, 20)) + agent(1, 0, (OPEN, 40)) + END,
        calls([0] * 17 + [1] * 4 + [0] * 4)),
    # open 50 | 20[30[exit 20.enter 40] | 31[]] | 40[50[] | 51[exit 40]]: two hosts number the same carriers and agents each in its own way
    "one-layout-first-host": (
        place(1, 0, 20) + place(2, 0, 40) + place(3, 1, 30) + place(4, 1, 31) + place(5, 2, 50) + place(6, 2, 51) + agent(1, 6, (EXIT, 40))
        + agent(0, 3, (EXIT, 20), (ENTER, 40)) + agent(2, 0, (OPEN, 50)) + END, calls([0] * 14 + [1] * 7 + [2] * 3)),
    "one-layout-second-host": (
        place(9, 0, 40) + place(3, 9, 51) + place(7, 9, 50) + place(8, 0, 20) + place(2, 8, 31) + place(1, 8, 30) + agent(9, 0, (OPEN, 50))
        + agent(5, 3, (EXIT, 40)) + agent(8, 1, (EXIT, 20), (ENTER, 40)) + END, calls([8] * 14 + [5] * 7 + [9] * 3)),
    # 20[9[] | 50[60[]] | 50[61[]] | open 9.open 50.release 9 | open 9.open 50.release 9]: source 000 section 4.1, the carrier 9 is a semaphore.
    # Two agents of a bonder acquire it by opening it, empty a tray, and release it by putting out an empty one
    "semaphore": (
        place(1, 0, 20) + place(2, 1, 9) + place(3, 1, 50) + place(4, 3, 60) + place(5, 1, 50) + place(6, 5, 61)
        + agent(0, 1, (OPEN, 9), (OPEN, 50), (RELEASE, 9)) + agent(1, 1, (OPEN, 9), (OPEN, 50), (RELEASE, 9)) + END,
        calls([0, 1, 0, 1, 0, 0, 1, 1, 1] + [0] * 4 + [1] * 3 + [0] * 4 + [1] * 12)),
    # a line on which nothing is defined yet: a file of length 0, and a dispatcher that calls agents that are not there
    "empty-line": (
        b"",
        calls([0, 1, 0])),
}


# ---- test cases: the corners

def full_cell():
    """63 places, 64 agents, sixteen actions each."""
    places = b"".join(place(q, (q - 1) // 2, 65535 - q % 3) for q in range(1, 64))
    agents = b"".join(agent(x, x % 64, *[(1 + (x + j) % 3, 65533 + (x * j) % 3) for j in range(16)]) for x in range(64))
    return places + agents + END


def full_floor():
    """63 places on the floor, with two names and numbers across the file's order, each with an agent that takes it into another and out."""
    places = b"".join(place(q * 37 % 64, 0, 1 + q % 2) for q in range(1, 64))
    row = [(ENTER, 1), (EXIT, 1), (ENTER, 2), (EXIT, 2)] * 2
    return places + agent(0, 0, *[(OPEN, 1 + j // 2 % 2) for j in range(16)]) + b"".join(agent(x, x, *row) for x in range(1, 64)) + END


def full_keys():
    """63 places with few names and keys, 0 among them, in five parents; an agent in each and on the floor, those of the parents open."""
    places = b"".join(keyed(q, q % 5 * (q > 5), 1 + q % 3, q % 4, 1 + q // 4 % 3, q // 3 % 4) for q in range(1, 64))
    rows = [[(OPEN if x < 5 else ENTER + j % 2, 1 + (x + j // 2) % 3) for j in range(16)] for x in range(64)]
    return places + b"".join(agent(x, x, *row) for x, row in enumerate(rows)) + END


def crowd(first, last, name=5):
    """Empty places on the floor, with these numbers."""
    return b"".join(place(q, 0, name) for q in range(first, last + 1))


def crowded_cell():
    """60 places in five bonders, so that three numbers are unused; ten agents in each bonder, most of which release and open carriers."""
    places = b"".join(place(q, q % 5 * (q > 5), 1 + (q > 5)) for q in range(1, 61))
    rows = [[(RELEASE, 2)] * 16, [(OPEN, 2), (RELEASE, 2)] * 8, [(RELEASE, 3), (OPEN, 3), (OPEN, 2)] * 5]
    return places + b"".join(agent(x, 1 + x % 5, *rows[x // 5 % 3]) for x in range(50)) + END


def deep_cell():
    """63 places, each in the one before, and an agent that walks the innermost one out."""
    places = b"".join(place(q, q - 1, q) for q in range(1, 64))
    return places + agent(9, 63, *[(EXIT, n) for n in range(62, 46, -1)]) + END


def mixed(seed, count):
    """A row of agent numbers that looks random and is always the same."""
    row, x = [], seed
    for _ in range(count):
        x = (x * 1103515245 + 12345) % 2 ** 31
        row.append(x // 65536 % 64)
    return row


# 63 places and 64 agents with sixteen releases each on the floor, names and keys of five digits, the touches of every place: without its
# end, the longest cell file and listing
LONGEST = (b"".join(keyed(q, 0, 65535, 65535, 65535, 10000) for q in range(1, 64))
           + b"".join(agent(x, 0, *[(RELEASE, 65535)] * 16) for x in range(64))
           + b"".join(touches(q, 0xFFFFFFFF) for q in range(64)))
TWO = place(1, 0, 7) + place(2, 0, 7) + agent(0, 1, (ENTER, 7)) + END
NONE = b""
ABSENT = None

CASES = {
    "empty-file": (NONE, NONE),
    "empty-file-full-order": (NONE, calls(list(range(256)) * 64)),
    "absent-cell": (ABSENT, calls([0, 1, 63, 64, 255])),
    "absent-files": (ABSENT, ABSENT),
    "first-byte-alone": (bytes([1]), calls([0])),
    "bare-floor": (END, NONE),
    "no-end": (place(1, 0, 7), NONE),
    "cut-body": (place(1, 0, 7) + bytes([1, 0x40]), NONE),
    "unknown-kind": (place(1, 0, 7) + bytes([9]), NONE),
    "number-too-large": (place(0x40, 0, 7) + END, NONE),
    "place-zero": (place(0, 0, 7) + END, NONE),
    # which number was too large: of those in a record the first one out of range decides
    "place-zero-parent-too-large": (place(0, 0x40, 7) + END, NONE),
    "parent-too-large": (place(1, 0, 7) + place(2, 0x40, 7) + END, calls([0])),
    "parent-too-large-given-twice": (place(1, 0, 7) + place(1, 0x40, 7) + END, NONE),
    "home-too-large": (agent(0, 0xFF) + END, NONE),
    "agent-too-large": (agent(0, 0) + agent(0x40, 0) + END, calls([0])),
    "agent-and-home-too-large": (agent(0x40, 0x40) + END, NONE),
    "action-of-an-agent-too-large": (agent(0, 0) + bytes([3, 0x40, 9, 0, 0]) + END, NONE),
    # touches: given anywhere after their place, the floor's too; walk shows none of them
    "touches-given": (
        touches(0, 7) + place(1, 0, 1) + agent(0, 0, (OPEN, 1), (OPEN, 2)) + touches(1, 0x01020304) + place(2, 1, 2) + place(3, 2, 3)
        + touches(3, 0xFFFFFFFF) + agent(1, 3, (EXIT, 2)) + touches(2, 0) + END,
        calls([1] * 7 + [0] * 10)),
    "touches-of-a-place-too-large": (touches(0, 1) + touches(0x40, 1) + END, NONE),
    "touches-given-twice": (place(1, 0, 7) + touches(1, 0) + touches(0, 1) + touches(1, 5) + END, NONE),
    "touches-before-their-place": (touches(1, 1) + place(1, 0, 7) + END, NONE),
    "touches-cut": (place(1, 0, 7) + touches(0x40, 1)[:5], NONE),
    "touches-and-no-end": (touches(0, 1), NONE),
    # a place with keys is checked as one without; 6 is for its name alone
    "keys-of-a-place-too-large": (keyed(0x40, 0x40, 0, 0, 0, 0) + END, NONE),
    "keys-of-a-parent-too-large": (place(1, 0, 7) + keyed(1, 0x40, 0, 7, 7, 7) + END, NONE),
    "keys-given-twice": (keyed(1, 0, 7, 1, 2, 3) + keyed(1, 5, 0, 1, 2, 3) + END, NONE),
    "keys-before-their-parent": (keyed(1, 2, 0, 1, 2, 3) + place(2, 0, 7) + END, NONE),
    "keys-and-name-zero": (keyed(1, 0, 7, 0, 0, 0) + keyed(2, 1, 0, 7, 7, 7) + END, NONE),
    "keys-cut": (place(1, 0, 7) + keyed(0x40, 0, 7, 7, 7, 7)[:10], NONE),
    "keys-and-no-end": (keyed(1, 0, 7, 7, 7, 7), NONE),
    # listed with its keys where one of them is not the name
    "keys-listed": (
        keyed(1, 0, 7, 7, 7, 7) + keyed(2, 0, 7, 8, 7, 7) + keyed(3, 0, 7, 7, 8, 7) + keyed(4, 0, 7, 7, 7, 8)
        + keyed(5, 4, 65535, 300, 256, 0) + keyed(6, 5, 1, 0, 0, 0) + place(7, 6, 65535) + agent(0, 6, (OPEN, 65535)) + END,
        calls([0] * 5)),
    # place 1, named 9, is entered with 5, left with 6 and opened with 8: agents 4 and 7 have these numbers, the others those for another
    # kind or the name
    "keys-by-kind": (
        keyed(1, 0, 9, 5, 6, 8) + place(2, 0, 7)
        + agent(0, 2, (ENTER, 6)) + agent(1, 2, (ENTER, 9)) + agent(2, 0, (OPEN, 5)) + agent(3, 0, (OPEN, 9))
        + agent(4, 2, (ENTER, 5), (EXIT, 6)) + agent(5, 2, (EXIT, 5)) + agent(6, 2, (EXIT, 9)) + agent(7, 0, (OPEN, 8)) + END,
        calls([x for y in (0, 1, 2, 3) for x in [y] * 3] + [4] * 7 + [5] * 3 + [6] * 3 + [4] * 7 + [7] * 4
              + [x for y in (0, 1, 2, 3, 5, 6) for x in [y] * 4])),
    # place 4 is named 7 and nobody may enter it; places 2 and 1 have other names and are entered with 7: first the one that stands first in
    # the file, then the other one, by a wish
    "keys-first-served": (
        keyed(4, 0, 7, 0, 0, 0) + keyed(2, 0, 9, 7, 9, 9) + keyed(1, 0, 8, 7, 8, 8) + place(3, 0, 6)
        + agent(0, 3, (ENTER, 7), (EXIT, 9), (ENTER, 7)) + END,
        calls([0] * 14) + calls([0] * 7, 1)),
    "full-keys": (full_keys(), calls([x for y in mixed(11, 180) for x in [y] * 14 + [y % 5] * 4])),
    # one layout, one listing: agents before places, each group in byte order of its texts, here numbered across it and in another way
    "listed-by-text": (
        place(1, 0, 7) + place(2, 0, 70) + keyed(3, 0, 7, 1, 1, 1) + place(4, 0, 7) + place(5, 4, 9) + place(6, 4, 10) + place(7, 0, 7)
        + agent(0, 0, (OPEN, 12)) + agent(1, 0, (OPEN, 1), (EXIT, 2)) + agent(2, 0, (OPEN, 1)) + agent(3, 0, (ENTER, 9))
        + agent(4, 7, (ENTER, 7)) + agent(5, 6, (EXIT, 7)) + agent(6, 6, (ENTER, 9)) + END, calls([5] * 7)),
    "listed-by-text-renumbered": (
        place(60, 0, 7) + place(9, 60, 10) + place(8, 60, 9) + place(63, 0, 70) + place(1, 0, 7) + place(2, 0, 7) + keyed(40, 0, 7, 1, 1, 1)
        + agent(63, 9, (EXIT, 7)) + agent(2, 9, (ENTER, 9)) + agent(62, 2, (ENTER, 7)) + agent(9, 0, (ENTER, 9)) + agent(8, 0, (OPEN, 1))
        + agent(7, 0, (OPEN, 1), (EXIT, 2)) + agent(6, 0, (OPEN, 12)) + END, calls([63] * 7)),
    # 63 places of one name, whose agents differ in the last of sixteen actions, the highest number first
    "late-differing-siblings": (
        b"".join(place(q, 0, 65535) for q in range(1, 64))
        + b"".join(agent(x, x, *[(ENTER, 65535)] * 15, (EXIT, 65535 - x)) for x in range(64)) + END,
        calls([x for x in (63, 1, 30) for _ in range(7)])),
    # a chain of places with even numbers, each beside an empty one with a lower number; all agents live in the innermost place
    "caterpillar": (
        b"".join(place(q, (q - 1) // 2 * 2, 7) for q in range(1, 64)) + agent(63, 63, (EXIT, 7), (EXIT, 7))
        + b"".join(agent(x, 63, *[(EXIT, 65535 - x % 5)] * (1 + x % 3)) for x in range(63)) + END, calls([63] * 14)),
    # two places in each, all of one name, and agents that are alike but for the one in the last place
    "tree-of-equals": (
        b"".join(place(q, (q - 1) // 2, 7) for q in range(1, 63)) + place(63, 62, 7) + agent(0, 63, (ENTER, 7))
        + b"".join(agent(x, x, (EXIT, 7)) for x in range(31, 63)) + END,
        calls([x for x in (62, 31, 40, 0) for _ in range(7)])),
    "given-twice": (place(1, 0, 7) + place(1, 0, 8) + END, NONE),
    "not-yet-given": (place(5, 5, 7) + END, NONE),
    "name-zero": (place(1, 0, 0) + END, NONE),
    "action-kind-five": (agent(0, 0, (5, 7)) + END, NONE),
    "action-kind-five-name-zero": (agent(0, 0, (RELEASE, 7)) + bytes([3, 0, 5, 0, 0]) + END, NONE),
    "release-name-zero": (agent(0, 0, (RELEASE, 7), (RELEASE, 0)) + END, NONE),
    "seventeenth-action": (agent(0, 0, *[(ENTER, 7)] * 17) + END, NONE),
    "sixteen-actions": (agent(0, 0, *[(ENTER, 7)] * 16) + END, calls([0, 0])),
    "bytes-after-the-end": (END + END, NONE),
    "long-file": (place(63, 0, 65535) + END + bytes(20000), NONE),
    "long-order-of-a-refused-file": (bytes([9]), calls([0] * 100)),
    "no-order": (TWO, NONE),
    "odd-order": (TWO, calls([0, 0]) + bytes([0])),
    "no-such-agent": (TWO, calls([0, 1, 63, 64, 255, 0])),
    "wishes": (place(1, 0, 7) + place(2, 0, 9) + place(3, 0, 9) + place(4, 3, 6) + agent(0, 1, (ENTER, 9)) + END,
               calls([0, 0], 3) + calls([0], 3) + calls([0, 0, 0, 0], 64)),
    # first in, first served: file order and not number order; a wish for the younger one; a tray that left and came back; freed children
    "first-in-first-served": (
        place(9, 0, 8) + place(1, 0, 7) + place(4, 0, 9) + place(5, 9, 9) + place(3, 0, 9) + place(2, 0, 9)
        + place(6, 4, 1) + place(7, 3, 2) + agent(0, 1, (ENTER, 9)) + agent(1, 0, (OPEN, 9), (OPEN, 9)) + END,
        calls([0] * 7 + [1] * 9)),
    "wish-for-the-younger": (
        place(1, 0, 7) + place(4, 0, 9) + place(3, 0, 9) + place(2, 0, 8) + place(5, 3, 6)
        + agent(0, 1, (ENTER, 9), (EXIT, 9), (ENTER, 9)) + END,
        calls([0] * 14, 3) + calls([0] * 7, 2)),
    "came-back-is-latest": (
        place(4, 0, 20) + place(2, 0, 50) + place(3, 0, 50) + place(5, 3, 60)
        + agent(0, 0, (OPEN, 50), (OPEN, 50)) + agent(1, 2, (ENTER, 20), (EXIT, 20)) + END,
        calls([1] * 14 + [0] * 4)),
    # a tray on its way is not taken, and whoever sleeps for want of another is woken when it comes
    "on-its-way-not-taken": (
        place(4, 0, 20) + place(2, 0, 50) + place(3, 0, 50) + agent(0, 0, (OPEN, 50), (OPEN, 50))
        + agent(1, 2, (ENTER, 20), (EXIT, 20)) + END,
        calls([1] * 4 + [0] * 7 + [1] * 10 + [0] * 5)),
    # box 5 has trays 3 and 2; opened, they come after tray 4, and 3 before 2
    "freed-children": (
        place(5, 0, 8) + place(3, 5, 9) + place(2, 5, 9) + place(4, 0, 9) + place(1, 3, 1) + place(6, 2, 6)
        + agent(0, 0, (OPEN, 8), (OPEN, 9), (OPEN, 9)) + END,
        calls([0] * 13)),
    "full-floor": (full_floor(), calls([x for y in mixed(3, 170) for x in [y] * 14 + [0] * 2])),
    "own-sibling": (place(1, 0, 7) + agent(0, 1, (ENTER, 7)) + END, calls([0] * 4)),
    "opened-with-agents": (
        place(1, 0, 1) + place(2, 1, 2) + agent(0, 0, (OPEN, 1), (OPEN, 2)) + agent(1, 1, (ENTER, 2)) + agent(2, 2, (EXIT, 1)) + END,
        calls([1, 2, 1, 2, 1, 2, 0, 0, 0, 0, 1, 1, 1, 2, 2, 2, 0, 0, 0, 0, 0, 1, 2, 0])),
    # an agent that holds a lock at stage 2 lives in the place that is opened: the lock is released
    "lock-lost-by-opening": (
        place(1, 0, 2) + place(2, 1, 1) + agent(0, 0, (OPEN, 1)) + agent(1, 2, (EXIT, 2)) + agent(2, 2, (ENTER, 2)) + END,
        calls([2, 1, 1, 1, 1, 1, 1, 1, 2, 0, 0, 0, 0, 2, 2, 0])),
    "full-cell": (full_cell(), calls(mixed(7, 3000))),
    "deep-cell": (deep_cell(), calls([9] * 113)),
    "nested-moves": (
        place(1, 0, 1) + place(2, 0, 2) + place(3, 1, 3) + place(4, 3, 4)
        + agent(0, 4, (EXIT, 3), (EXIT, 1), (ENTER, 2)) + agent(1, 1, (ENTER, 2)) + agent(2, 3, (EXIT, 1)) + agent(3, 0, (OPEN, 2)) + END,
        calls([0, 1, 2, 3, 0, 0, 1, 2, 1, 3, 2, 2] * 14)),
    # release: what is put, in the agent's own place; then it is entered, left and opened by its name
    "put": (
        place(1, 0, 7) + place(2, 1, 8) + agent(0, 1, (RELEASE, 300), (RELEASE, 9), (OPEN, 9)) + agent(1, 2, (ENTER, 9), (EXIT, 9)) + END,
        calls([0] * 6 + [1] * 14 + [0] * 5)),
    # source 000 section 4.1, its own example: acquire n.release m | release n.acquire m
    "semaphores-of-the-source": (
        agent(0, 0, (OPEN, 1), (RELEASE, 2)) + agent(1, 0, (RELEASE, 1), (OPEN, 2)) + END,
        calls([0] * 4 + [1] * 6 + [0] * 9 + [1] * 5)),
    # the smallest unused number: 3, 5 and 8 between those of the file, and 5 and 3 again after openings freed them; a wish for the number opens
    # what was put there, and not one that has been there longer
    "put-numbers": (
        place(4, 0, 9) + place(1, 0, 5) + place(2, 0, 9) + place(6, 4, 8) + place(7, 2, 6)
        + agent(0, 0, (RELEASE, 9), (RELEASE, 9), (OPEN, 9), (RELEASE, 9), (OPEN, 9), (OPEN, 9), (RELEASE, 3), (RELEASE, 4), (RELEASE, 4), (OPEN, 4))
        + END,
        calls([0] * 6) + calls([0] * 4, 5) + calls([0] * 3) + calls([0] * 4, 5) + calls([0] * 4, 3) + calls([0] * 9) + calls([0] * 5, 8)),
    # a put wakes those who sleep on its own place, an opener there and one whose place stands there, and not one on the floor
    "put-wakes": (
        place(1, 0, 7) + place(2, 1, 8) + agent(0, 1, (RELEASE, 9), (RELEASE, 9)) + agent(1, 1, (OPEN, 9)) + agent(2, 2, (ENTER, 9))
        + agent(3, 0, (OPEN, 9)) + END,
        calls([1, 1, 1, 2, 2, 2, 3, 3, 3] + [0] * 3 + [2] * 7 + [3, 1] + [0] * 3 + [1] * 6)),
    # the lock of its own place: held by an opener there; an opener outside waits for it, and what it moves looks again
    "put-and-openers": (
        place(1, 0, 7) + place(2, 1, 9) + agent(0, 0, (OPEN, 7)) + agent(1, 1, (RELEASE, 8), (RELEASE, 6)) + agent(2, 1, (OPEN, 9)) + END,
        calls([1, 2, 2, 1, 2, 2, 0, 0, 1, 1, 0, 1, 0, 1, 0, 0, 1, 1, 1, 1])),
    # in a place on its way, which the agent that moves it locks first
    "put-on-its-way": (
        place(1, 0, 7) + place(2, 0, 8) + agent(0, 1, (ENTER, 8)) + agent(1, 1, (RELEASE, 9), (RELEASE, 9)) + END,
        calls([0] * 4 + [1] * 3 + [0, 1, 1, 0, 0, 1, 1, 1])),
    # 63 places in use, the floor too: the last number is put, then the agent sleeps on no place; with nobody to open, all rest
    "put-the-last-number": (
        crowd(1, 40) + crowd(42, 63) + agent(0, 0, (RELEASE, 9), (RELEASE, 9), (RELEASE, 9)) + END, calls([0] * 7)),
    # 64 places in use: three agents sleep on no place, one of them in the place that is opened elsewhere; that wakes all three, one of them
    # gets its number, and the others sleep again, as does the opener's neighbour, who sleeps on a place and is not woken
    "put-with-no-number": (
        place(1, 0, 7) + place(2, 1, 6) + place(3, 0, 8) + crowd(4, 63) + agent(0, 1, (OPEN, 6)) + agent(1, 2, (RELEASE, 9))
        + agent(2, 3, (RELEASE, 9)) + agent(3, 3, (RELEASE, 10)) + agent(4, 3, (OPEN, 1)) + END,
        calls([1] * 3 + [2] * 3 + [3] * 3 + [4] * 3 + [1, 2] + [0] * 4 + [4] + [3] * 4 + [1] * 3 + [2] * 3 + [4] * 4)),
    # who sleeps on no place is not woken by a move of its own place, nor by what comes in or goes out
    "no-place-and-moves": (
        place(1, 0, 7) + place(2, 0, 8) + place(3, 0, 6) + crowd(4, 63) + agent(0, 1, (RELEASE, 9)) + agent(1, 1, (ENTER, 8))
        + agent(2, 3, (ENTER, 7), (EXIT, 7)) + agent(3, 2, (OPEN, 7)) + END,
        calls([0] * 3 + [2] * 14 + [1] * 7 + [0] + [3] * 4 + [0] * 4)),
    "crowded": (crowded_cell(), calls([x % 50 for y in mixed(5, 700) for x in [y] * 4])),
    "past-the-limit": (TWO, calls([0] * 16383 + [1, 2])),
    "one-record-more": (LONGEST + place(63, 0, 65535) + END, NONE),
    "one-touch-record-more": (LONGEST + touches(63, 0xFFFFFFFF) + END, NONE),
    "one-record-with-keys-more": (LONGEST + keyed(63, 0, 65535, 65535, 65535, 10000) + END, NONE),
    "longest-report": (LONGEST + END, calls([255] * 16383 + [254])),
}


def write(folder, files):
    folder.mkdir(parents=True, exist_ok=True)
    for name, content in zip(("cell", "order"), files):
        if content is ABSENT:
            (folder / name).unlink(missing_ok=True)
        else:
            (folder / name).write_bytes(content)


if __name__ == "__main__":
    for name, files in EXAMPLES.items():
        write(TOP / "examples" / name, files)
    for name, files in CASES.items():
        write(TOP / "tests" / "walk" / name, files)
