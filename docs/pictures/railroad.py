"""How the railroad picture of the listing's language is drawn: a track from left to right for each word of the grammar.

What is typed stands in yellow labels, what has a track of its own in blue boxes. A track that branches may be gone either way, and a loop
may be gone any number of times.
"""

from drawing import AGENT_EDGE, AGENT_FILL, EDGE, FILL, LINE, SOFT, Svg, width_of

TALL, STEP, TURN = 30, 16, 10


def line(svg, x, y, to, head=False):
    svg.path([(x, y), (to, y)], head=head)


class Box:
    """A label to be typed, or the name of another track."""

    def __init__(self, words, typed=True):
        self.words, self.typed = words, typed
        self.wide, self.above, self.below = width_of(words, 15) + 24, TALL / 2, TALL / 2

    def draw(self, svg, x, y):
        fill, edge, corner = (AGENT_FILL, AGENT_EDGE, 15) if self.typed else (FILL, EDGE, 3)
        svg.rect(x, y - TALL / 2, self.wide, TALL, fill, edge, round_by=corner)
        svg.text(x + self.wide / 2, y + 5, self.words, 15, anchor="middle", mono=self.typed)


class Skip:
    """Nothing: the track goes straight on."""

    wide, above, below = 0, 6, 6

    def draw(self, svg, x, y):
        pass


class Row:
    """One after the other."""

    def __init__(self, *parts):
        self.parts = parts
        self.wide = sum(p.wide for p in parts) + STEP * (len(parts) - 1)
        self.above, self.below = max(p.above for p in parts), max(p.below for p in parts)

    def draw(self, svg, x, y):
        for i, part in enumerate(self.parts):
            if i:
                line(svg, x - STEP, y, x)
            part.draw(svg, x, y)
            x += part.wide + STEP


class Either:
    """One of several, the first straight on and the others below it."""

    def __init__(self, *ways):
        self.ways = ways
        self.inner = max(w.wide for w in ways)
        self.wide = self.inner + 4 * TURN
        self.above = ways[0].above
        self.below = ways[0].below + sum(w.above + w.below + STEP for w in ways[1:])

    def draw(self, svg, x, y):
        left, right, deep = x + 2 * TURN, x + 2 * TURN + self.inner, y
        for i, way in enumerate(self.ways):
            if i:
                deep += self.ways[i - 1].below + STEP + way.above
                svg.curve(f"M {x:g} {y:g} q {TURN} 0 {TURN} {TURN} V {deep - TURN:g} q 0 {TURN} {TURN} {TURN}")
                svg.curve(f"M {right:g} {deep:g} q {TURN} 0 {TURN} {-TURN} V {y + TURN:g} q 0 {-TURN} {TURN} {-TURN}")
            else:
                line(svg, x, y, left)
                line(svg, right, y, x + self.wide)
            line(svg, left + way.wide, deep, right)
            way.draw(svg, left, deep)


class Again:
    """Once or more; between two of them stands what is on the way back, below."""

    def __init__(self, part, between):
        self.part, self.between = part, between
        self.inner = max(part.wide, between.wide + 24)
        self.wide = self.inner + 4 * TURN
        self.above, self.below = part.above, part.below + STEP + between.above + between.below

    def draw(self, svg, x, y):
        left, right = x + 2 * TURN, x + 2 * TURN + self.inner
        deep = y + self.part.below + STEP + self.between.above
        middle = left + (self.inner - self.part.wide) / 2
        line(svg, x, y, middle)
        line(svg, middle + self.part.wide, y, x + self.wide)
        self.part.draw(svg, middle, y)
        back = left + (self.inner - self.between.wide) / 2
        svg.curve(f"M {right:g} {y:g} q {TURN} 0 {TURN} {TURN} V {deep - TURN:g} q 0 {TURN} {-TURN} {TURN}")
        svg.path([(right, deep), (back + self.between.wide, deep)])
        self.between.draw(svg, back, deep)
        line(svg, left, deep, back)
        svg.curve(f"M {left:g} {deep:g} q {-TURN} 0 {-TURN} {-TURN} V {y + TURN:g} q 0 {-TURN} {TURN} {-TURN}")


def tracks(name, title, description, rules, notes):
    """A picture of tracks, one below the other, each with its name at the left and a note under the name; notes stand at the end."""
    margin, names, between = 20, 170, 26
    wide = margin + names + max(track.wide for _, _, track in rules) + 70 + margin
    high = margin + sum(track.above + track.below + between for _, _, track in rules) + 22 * len(notes) + margin
    svg = Svg(max(wide, margin + max(width_of(n, 14) for n in notes)), high, title, description)
    y = margin
    for word, note, track in rules:
        y += track.above
        svg.text(margin, y + 5, word, 16, bold=True)
        svg.text(margin, y + 23, note, 12, SOFT)
        x = margin + names
        svg.dot(x, y)
        line(svg, x, y, x + 24)
        track.draw(svg, x + 24, y)
        line(svg, x + 24 + track.wide, y, x + 62 + track.wide, head=True)
        y += track.below + between
    for i, words in enumerate(notes):
        svg.text(margin, y + 14 + 22 * i, words, 14, SOFT)
    svg.write(name)
