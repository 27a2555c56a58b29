#!/usr/bin/env python3
"""Writes the files `cell.txt` and `order` of every example and of every test case of walk with a typed layout, from the form below: the
bytes of the text, and the order, as the agents called or as the name of an example that has the same (written by make.py).

Run it from anywhere: python3 examples/make_typed.py
What walk must print for each stands beside them in `expected` and is not written here.
"""
import pathlib

TOP = pathlib.Path(__file__).resolve().parent.parent

EXAMPLES = {
    # the cell of change-of-holder, typed: places and agents are numbered as they appear, so they have the same numbers
    "typed-layout": (b"20[30[exit 20.enter 40]] | 40[31[exit 40.enter 20]]\n", "change-of-holder"),
}

# 72 bytes, and wrong at 51
AS_LONG_AS_A_LINE = b"1[2[3[4[5[6[7[8[9[10[11[12[13[14[15[16[17[18[19[20[ ]]]]]]]]]]]]]]]]]]]]"

CASES = {
    # the end of the line: none, a byte 10, a byte 13 and a byte 10; and no more than one
    "typed-no-line-end": (b"7[enter 9] | 9[exit 7]", "worked"),
    "typed-line-feed": (b"7[enter 9] | 9[exit 7]\n", "worked"),
    "typed-carriage-return": (b"7[enter 9] | 9[exit 7]\r\n", "worked"),
    "typed-two-line-ends": (b"7[]\n\n", []),
    "typed-return-alone": (b"7[]\r", []),
    "typed-line-end-alone": (b"\r\n", []),
    # keys, and an agent on the floor after the places
    "typed-keys": (b"20/20/20/0[30[]] | 40[enter 20.exit 20.open 20] | open 40\n", "suppliers-magazine"),
    "typed-bare-floor": (b"0\n", [0]),
    # a semaphore, and an agent that waits for what another puts
    "typed-release": (b"9[] | open 9.release 9 | 7[release 300 | open 300] | open 9.release 9\n",
                      [0] * 4 + [3] * 3 + [0] * 3 + [3] * 7 + [2] * 3 + [1] * 3 + [2] * 4),
    "typed-release-misspelt": (b"7[release 9] | relaese 9\n", []),
    # refused, with the caret under the byte
    "typed-empty": (b"", []),
    "typed-wrong-at-the-start": (b"x7[]\n", [0]),
    "typed-wrong-in-the-middle": (b"7[0]\n", []),
    "typed-stops-early": (b"7[enter 7\n", []),
    "typed-does-not-print": (b"7[\t\xc3\xa9\x7f~ ]\n", []),
    "typed-as-long-as-a-line": (AS_LONG_AS_A_LINE + b"\n", []),
    "typed-longer-than-a-line": (AS_LONG_AS_A_LINE + b"]\n", []),
    "typed-wrong-early-in-a-long-text": (b"7[0] | " + b"enter 7 | " * 9 + b"enter 7\n", []),
    "typed-wrong-in-a-long-text": (b"enter 7 | " * 20 + b"enter 07 | " + b"enter 7 | " * 20 + b"enter 7\n", []),
    "typed-long-and-stops-early": (b"7[] | " * 30, []),
    # 17, at the text's length; 16 comes before it
    "typed-too-many-places": (b"1[" * 64 + b"]" * 64 + b"\n", []),
    "typed-too-many-actions": (b"exit 1." * 16 + b"exit 1\n", []),
    "typed-too-many-and-wrong": (b"1[" * 64 + b"]" * 65 + b"\n", []),
    # the longest file that is read
    "typed-longest-file": (b"1[" * 32767 + b"1", []),
}


def order_of(order):
    """The bytes of an order; 255 is no wish."""
    if isinstance(order, str):
        return (TOP / "examples" / order / "order").read_bytes()
    return b"".join(bytes([agent, 255]) for agent in order)


for group, layouts in (("examples", EXAMPLES), ("tests/walk", CASES)):
    for name, (text, order) in layouts.items():
        folder = TOP / group / name
        folder.mkdir(parents=True, exist_ok=True)
        (folder / "cell.txt").write_bytes(text)
        (folder / "order").write_bytes(order_of(order))
