"""Time lines: the calls of a host from left to right, and under them what stands how long."""

from drawing import AGENT_EDGE, AGENT_FILL, EDGE, FILL, INK, SHUT_EDGE, SHUT_FILL, SOFT, TOUCH_EDGE, TOUCH_FILL, WAY_EDGE, WAY_FILL, Svg

# what a call or a bar is drawn in: an ask and whatever changes nothing, a step that changes something, a refusal, and what the gripper does
QUIET, MADE, REFUSED = (AGENT_FILL, AGENT_EDGE), (WAY_FILL, WAY_EDGE), (SHUT_FILL, SHUT_EDGE)
STANDS, BUSY, PARKED = (FILL, EDGE), ("#ffffff", TOUCH_EDGE), (TOUCH_FILL, TOUCH_EDGE)

LEFT, WIDE, CALL, BAR, STEP = 120, 1120, 50, 32, 10


def call(svg, x, y, w, who, answer, colours):
    """A call: who is called, and what is answered."""
    svg.rect(x, y, w, CALL, *colours, round_by=6)
    svg.text(x + w / 2, y + 20, who, 13, SOFT, anchor="middle")
    svg.text(x + w / 2, y + 40, answer, 14, INK, bold=True, anchor="middle")


def bar(svg, x, y, to, words, colours, dashed=False):
    """What lasts from x to another point of time."""
    svg.rect(x, y, to - x, BAR, *colours, dashed=dashed, round_by=4)
    svg.text(x + 10, y + 21, words, 13)


def line(svg, y, heading, calls, bars):
    """One time line: its heading, its calls, and a row of bars for each thing that lasts. Answers where the next may begin."""
    svg.text(20, y + 18, heading, 15, bold=True)
    y += 34
    svg.text(20, y + 30, "calls", 14, SOFT)
    svg.path([(LEFT, y + CALL / 2), (WIDE - 16, y + CALL / 2)], SOFT)
    for x, w, who, answer, colours in calls:
        call(svg, x, y, w, who, answer, colours)
    y += CALL + STEP
    for label, row in bars:
        svg.text(20, y + 21, label, 14, SOFT)
        for x, to, words, colours, *dashed in row:
            bar(svg, x, y, to, words, colours, *dashed)
        y += BAR + STEP
    return y


def asking():
    """A gripper is parked between an ask and its commit: once the answer is still the same, once it is not."""
    end = WIDE - 30
    svg = Svg(WIDE, 392, "Ask, then commit: a gripper is parked between the two",
              "Two time lines. In the first an ask tells left and place 2, the gripper is parked while another agent is answered held, and the commit "
              "answers left: place 1 is on its way to place 2. In the second an ask tells opened and place 1, another agent leaves for place 1 while the "
              "gripper is parked, and the commit is refused with 18; a second ask tells back.")
    y = line(svg, 12, "Still so: the commit is the step", [
        (150, 190, "ask for agent 0", "left, 0, place 2", QUIET),
        (470, 130, "step of agent 1", "held 0", QUIET),
        (760, 150, "commit for agent 0", "left 0", MADE)], [
            ("gripper", [(LEFT, 350, "over place 1", STANDS), (350, 750, "on its way to where it parks", BUSY, True), (750, end, "parked", PARKED)]),
            ("place 1", [(LEFT, 835, "stands on the floor", STANDS), (835, end, "on its way to place 2", MADE, True)])])
    line(svg, y + 16, "No longer so: the commit is refused with 18, and nothing is changed", [
        (150, 190, "ask for agent 0", "opened, 0, place 1", QUIET),
        (470, 130, "step of agent 1", "left 0", MADE),
        (760, 150, "commit for agent 0", "refused 18", REFUSED),
        (936, 150, "ask for agent 0", "back, 0, none", QUIET)], [
            ("gripper", [(LEFT, 350, "over place 1", STANDS), (350, 750, "on its way to where it parks", BUSY, True), (750, end, "parked", PARKED)]),
            ("place 3", [(LEFT, 535, "stands in place 2", STANDS), (535, end, "on its way to place 1, which must not be opened now", MADE, True)])])
    svg.write("asking.svg")
