"""The pictures of the register window: its eight bytes, and the flags and the line over a few commands."""

from drawing import AGENT_EDGE, AGENT_FILL, EDGE, FILL, INK, SOFT, WAY_EDGE, WAY_FILL, Svg

CARD, KEEPER = (AGENT_FILL, AGENT_EDGE), (FILL, EDGE)


def window():
    """The eight bytes, and who writes each."""
    names = "command agent wish answer woken flags mask line".split()
    wide, left = 106, 20
    svg = Svg(left * 2 + wide * 8, 176, "The register window: eight bytes",
              "Bytes 0 to 7 are command, agent, wish, answer, woken, flags, mask and line. The card writes command, agent, wish and mask; the keeper "
              "writes answer, woken, flags and line.")
    for i, name in enumerate(names):
        x = left + wide * i
        svg.text(x + wide / 2, 26, str(i), 14, SOFT, anchor="middle")
        svg.rect(x + 3, 36, wide - 6, 48, *(CARD if name in ("command", "agent", "wish", "mask") else KEEPER), round_by=4)
        svg.text(x + wide / 2, 66, name, 16, INK, bold=True, anchor="middle")
    svg.text(left, 112, "Yellow: written by the card. Blue: written by the keeper, in a command; by a clear flags and line alone.", 14, SOFT)
    svg.text(left, 136, "flags:  bit 0  a step woke someone     bit 1  all agents are asleep or done     bit 2  a step was refused", 14)
    svg.text(left, 160, "line:  1 exactly if flags and mask share a bit", 14)
    svg.write("window.svg")


def flags():
    """Eight acts of a card on the worked example, from its call 11 on: what is answered, the flags, the mask and the line."""
    acts = [("step of 0", "6 came", "1"), ("clear 1", "", ""), ("step of 9", "139", "0"), ("mask 3,", "", ""), ("step of 1", "0 looked", "0"),
            ("step of 1", "1 took", "0"), ("step of 1", "4 slept", "0"), ("clear 6", "", "")]
    rows = [("bit 0, woke", "01000000" + "0"), ("bit 1, all at rest", "00000001" + "0"), ("bit 2, refused", "00011111" + "0")]
    line = "010100010"
    masks = ["111"] * 4 + ["011"] * 5
    start, wide, high = 170, 98, 22
    svg = Svg(start + wide * 9 + 20, 372, "Flags and line over eight acts of a card",
              "A step wakes someone: bit 0 and the line go to 1. A clear of bit 0 takes both back. A refused step sets bit 2, and the line is 1. The mask "
              "is changed to bits 0 and 1 and an unknown command renews the line: it is 0, while bit 2 stays. The third step of agent 1 leaves all asleep "
              "or done: bit 1 is set, and the line is 1. A clear of bits 1 and 2 takes all back.")
    for y, words in ((30, "the card"), (76, "answer"), (100, "woken"), (130, "mask, bits 2 1 0")):
        svg.text(20, y, words, 14, SOFT)
    for i, (act, answer, woken) in enumerate(acts):
        middle = start + wide * (i + 1)
        svg.text(middle, 30, act, 14, INK, bold=True, anchor="middle")
        if i == 3:
            svg.text(middle, 48, "command 0", 14, INK, bold=True, anchor="middle")
        svg.text(middle, 76, answer, 14, anchor="middle")
        svg.text(middle, 100, woken, 14, anchor="middle")
        svg.curve(f"M {middle:g} 142 L {middle:g} 350", "#c8c8c8")
    for i, mask in enumerate(masks):
        svg.text(start + wide * i + wide / 2, 130, mask, 14, SOFT, anchor="middle", mono=True)
    for k, (label, levels) in enumerate(rows + [("line", line)]):
        y = 160 + 50 * k
        svg.text(20, y + 17, label, 14, INK, bold=label == "line")
        for i, level in enumerate(levels):
            x = start + wide * i
            if level == "1":
                svg.rect(x, y, wide, high, *((WAY_FILL, WAY_EDGE) if label == "line" else (FILL, EDGE)), round_by=0)
            else:
                svg.curve(f"M {x:g} {y + high:g} L {x + wide:g} {y + high:g}", WAY_EDGE if label == "line" else EDGE)
    svg.write("flags.svg")
