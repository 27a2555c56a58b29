"""How the pictures are drawn: text, lines and arrows, and places as boxes in boxes.

Agents are yellow labels, a held lock is a dark label, a touch count is a green one, a place on its way has a dashed edge. The keys of a
place are three doors: open where somebody may, shut where nobody may.
"""

from html import escape
from pathlib import Path

HERE = Path(__file__).parent
SANS = "Helvetica, Arial, 'DejaVu Sans', sans-serif"
MONO = "Menlo, Consolas, 'DejaVu Sans Mono', monospace"

INK, SOFT = "#1c1c1c", "#4a4a4a"
EDGE, FILL = "#2f5d8a", "#eef4fa"
WAY_EDGE, WAY_FILL = "#b0461a", "#fdf1ea"
AGENT_EDGE, AGENT_FILL = "#8a6d00", "#fff3c4"
LOCK_0, LOCK_1 = "#1b3a57", "#7a2e0e"
TOUCH_EDGE, TOUCH_FILL = "#2f6b3a", "#e2f3e4"
KEY_EDGE, KEY_FILL = "#5b3a8a", "#f1ebfa"
SHUT_EDGE, SHUT_FILL = "#8f1d1d", "#f8e4e4"
LINE = "#333333"


# ---- drawing

class Svg:
    """A drawing of a given size; parts are kept in the order they are added."""

    def __init__(self, width, height, title, description):
        self.width, self.height, self.title, self.description = width, height, title, description
        self.parts = []

    def rect(self, x, y, w, h, fill, edge, dashed=False, thick=1.6, round_by=8):
        dash = ' stroke-dasharray="7 5"' if dashed else ""
        self.parts.append(f'<rect x="{x:g}" y="{y:g}" width="{w:g}" height="{h:g}" rx="{round_by}" fill="{fill}" '
                          f'stroke="{edge}" stroke-width="{thick:g}"{dash}/>')

    def text(self, x, y, words, size=15, colour=INK, bold=False, anchor="start", mono=False):
        weight = ' font-weight="bold"' if bold else ""
        family = MONO if mono else SANS
        self.parts.append(f'<text x="{x:g}" y="{y:g}" font-family="{family}" font-size="{size:g}" fill="{colour}" '
                          f'text-anchor="{anchor}" xml:space="preserve"{weight}>{escape(words)}</text>')

    def path(self, points, colour=LINE, thick=1.8, dashed=False, head=True):
        """A line through the points, with an arrow head at the last one."""
        d = "M " + " L ".join(f"{x:g} {y:g}" for x, y in points)
        self._stroke(d, colour, thick, dashed, head)

    def loop(self, x, y, up=True, colour=LINE):
        """A small loop on the upper or lower edge of a box, from x - 16 back to x + 16."""
        s = -1 if up else 1
        self._stroke(f"M {x - 16:g} {y:g} C {x - 30:g} {y + s * 44:g} {x + 30:g} {y + s * 44:g} {x + 16:g} {y + s * 2:g}",
                     colour, 1.8, False, True)

    def curve(self, d, colour=LINE):
        """A line by its own path, without a head."""
        self._stroke(d, colour, 1.8, False, False)

    def dot(self, x, y):
        self.parts.append(f'<circle cx="{x:g}" cy="{y:g}" r="5" fill="{LINE}"/>')

    def _stroke(self, d, colour, thick, dashed, head):
        dash = ' stroke-dasharray="6 5"' if dashed else ""
        mark = f' marker-end="url(#head-{colour[1:]})"' if head else ""
        self.parts.append(f'<path d="{d}" fill="none" stroke="{colour}" stroke-width="{thick:g}" '
                          f'stroke-linejoin="round"{dash}{mark}/>')

    def write(self, name):
        heads = "".join(
            f'<marker id="head-{c[1:]}" markerWidth="11" markerHeight="9" refX="10" refY="4.5" orient="auto" '
            f'markerUnits="userSpaceOnUse"><path d="M 0 0 L 11 4.5 L 0 9 z" fill="{c}"/></marker>'
            for c in (LINE, WAY_EDGE, SOFT))
        lines = [f'<svg xmlns="http://www.w3.org/2000/svg" width="{self.width:g}" height="{self.height:g}" '
                 f'viewBox="0 0 {self.width:g} {self.height:g}" role="img">',
                 f"<title>{escape(self.title)}</title>", f"<desc>{escape(self.description)}</desc>",
                 f"<defs>{heads}</defs>",
                 f'<rect width="{self.width:g}" height="{self.height:g}" fill="#ffffff"/>', *self.parts, "</svg>", ""]
        (HERE / name).write_text("\n".join(lines), encoding="utf-8")


def width_of(words, size, bold=False):
    """A width that the words stay within in any usual typeface."""
    return len(words) * size * (0.69 if bold else 0.62)


# ---- places in places

PAD, GAP, TITLE, NOTE, CHIP, STEP = 12, 12, 18, 14, 26, 8


def place(title, number, *contents, away=False, lock=None, touches=None, keys=None):
    """A place: its title, its number, and in it agents and places; lock is the number of the agent that holds its lock, touches its touch
    count, keys its three keys, where they are shown."""
    return {"title": title, "number": f"place {number}", "agents": [c for c in contents if "label" in c],
            "places": [c for c in contents if "title" in c], "away": away, "lock": lock, "touches": touches, "keys": keys}


def agent(number, row):
    """An agent with its number and its unused actions."""
    return {"label": f"agent {number}: {row}"}


def spent(number):
    """An agent that has used up its actions; a listing does not show it."""
    return agent(number, "none left")


def lock_words(box):
    return "" if box["lock"] is None else f"locked by agent {box['lock']}"


def touch_words(box):
    return f"{box['touches']:,} touches"


def doors(box):
    """The words on the three doors, each with whether it is shut."""
    return [(f"{kind} {key}" if key else f"{kind}: nobody", key == 0) for kind, key in zip(("enter", "exit", "open"), box["keys"])]


def door_width(words):
    return width_of(words, 13, True) + 34


def head_width(box):
    return width_of(box["title"], 16, True) + 14 + width_of(box["number"], 12)


def size_of(box):
    """Width and height of a box with all that is in it."""
    labels = [a["label"] for a in box["agents"]]
    inner = [size_of(p) for p in box["places"]]
    widths = [head_width(box)] + [width_of(t, 14) + 16 for t in labels]
    heights = [TITLE] + [CHIP] * len(labels)
    if box["away"]:
        heights.append(NOTE)
    if box["lock"] is not None:
        widths.append(width_of(lock_words(box), 13, True) + 16)
        heights.append(CHIP)
    if box["touches"] is not None:
        widths.append(width_of(touch_words(box), 13, True) + 16)
        heights.append(CHIP)
    if box["keys"] is not None:
        widths.append(sum(door_width(words) for words, _ in doors(box)) + 2 * STEP)
        heights.append(CHIP)
    if inner:
        widths.append(sum(w for w, _ in inner) + GAP * (len(inner) - 1))
        heights.append(max(h for _, h in inner))
    return max(widths) + 2 * PAD, sum(heights) + STEP * (len(heights) - 1) + 2 * PAD


def draw_door(svg, x, y, words, shut):
    """A label with a door: its frame, and the leaf ajar or closed."""
    edge, fill = (SHUT_EDGE, SHUT_FILL) if shut else (KEY_EDGE, KEY_FILL)
    svg.rect(x, y, door_width(words), CHIP, fill, edge, round_by=4)
    svg.rect(x + 8, y + 5, 11, 16, edge if shut else "#ffffff", edge, round_by=0)
    if not shut:
        svg.path([(x + 8, y + 5), (x + 14, y + 9), (x + 14, y + 23), (x + 8, y + 21)], edge, head=False)
    svg.text(x + 26, y + 18, words, 13, edge, bold=True)


def draw_box(svg, box, x, y, h=0):
    """Draws a box at x, y, at least as high as it needs to be."""
    w, need = size_of(box)
    fill = WAY_FILL if box["away"] else "#ffffff" if box["number"] == "place 0" else FILL
    svg.rect(x, y, w, max(h, need), fill, WAY_EDGE if box["away"] else EDGE, dashed=box["away"])
    svg.text(x + PAD, y + PAD + 14, box["title"], 16, bold=True)
    svg.text(x + w - PAD, y + PAD + 14, box["number"], 12, SOFT, anchor="end")
    at = y + PAD + TITLE + STEP
    if box["away"]:
        svg.text(x + PAD, at + 11, "on its way", 13, WAY_EDGE)
        at += NOTE + STEP
    if box["lock"] is not None:
        words = lock_words(box)
        svg.rect(x + PAD, at, width_of(words, 13, True) + 16, CHIP, LOCK_1 if box["lock"] == 1 else LOCK_0, "none", round_by=4)
        svg.text(x + PAD + 8, at + 18, words, 13, "#ffffff", bold=True)
        at += CHIP + STEP
    if box["touches"] is not None:
        words = touch_words(box)
        svg.rect(x + PAD, at, width_of(words, 13, True) + 16, CHIP, TOUCH_FILL, TOUCH_EDGE, round_by=4)
        svg.text(x + PAD + 8, at + 18, words, 13, TOUCH_EDGE, bold=True)
        at += CHIP + STEP
    if box["keys"] is not None:
        across = x + PAD
        for words, shut in doors(box):
            draw_door(svg, across, at, words, shut)
            across += door_width(words) + STEP
        at += CHIP + STEP
    for a in box["agents"]:
        svg.rect(x + PAD, at, width_of(a["label"], 14) + 16, CHIP, AGENT_FILL, AGENT_EDGE, round_by=12)
        svg.text(x + PAD + 8, at + 18, a["label"], 14)
        at += CHIP + STEP
    across = x + PAD
    for p in box["places"]:
        draw_box(svg, p, across, at)
        across += size_of(p)[0] + GAP


def panels(name, title, description, rows, arrows=True):
    """A picture of boxes side by side, each under a heading and over a listing, with questions and their answers under that where there are any,
    and with arrows between them where one comes from the other."""
    margin, between, top, line = 20, 56, 44, 24
    sizes = [size_of(box) for _, box, *_ in rows]
    widths = [max(w, width_of(head, 15, True), width_of(listing, 13), *(width_of(asked + told, 14, True) for asked, told in questions))
              for (w, _), (head, _, listing, *questions) in zip(sizes, rows)]
    tall = max(h for _, h in sizes)
    under = 48 + line * max(len(questions) for _, _, _, *questions in rows)
    svg = Svg(2 * margin + sum(widths) + between * (len(rows) - 1), top + tall + under, title, description)
    x = margin
    for i, (head, box, listing, *questions) in enumerate(rows):
        svg.text(x, 28, head, 15, bold=True)
        draw_box(svg, box, x, top, h=tall)
        svg.text(x, top + tall + 28, listing, 13, mono=True)
        for j, (asked, told) in enumerate(questions):
            svg.text(x, top + tall + 28 + line * (j + 1), asked, 14, SOFT)
            svg.text(x + max(width_of(other, 14) for other, _ in questions), top + tall + 28 + line * (j + 1), told, 14, bold=True)
        if arrows and i + 1 < len(rows):
            svg.path([(x + max(widths[i], sizes[i][0]) + 10, top + tall / 2), (x + widths[i] + between - 10, top + tall / 2)],
                     thick=2.4)
        x += widths[i] + between
    svg.write(name)
