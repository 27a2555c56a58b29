"""Where a holder is: two layouts of its way from one bonder into another, and what is answered in each."""

from drawing import agent, panels, place, spent


def where():
    """Holder 30 goes from one bonder into another: which bonder its capillary is in, and what holds it and holder 31."""
    def holder(row, away=False):
        return place("30 holder", 2, row, place("60 capillary", 3), away=away)

    def layout(heading, one, two, listing, bonder, both):
        box = place("floor", 0, place("20 bonder", 1, *one), place("20 bonder", 4, *two, place("31 holder", 5)))
        return heading, box, listing, ("Which 20 is place 3 in? ", bonder), ("What holds places 3 and 5? ", both)

    panels("where.svg", "Which bonder is it in",
           "Holder 30 with capillary 60 stands in the bonder that is place 1; holder 31 stands in the one that is place 4. Then holder 30 is on its "
           "way into place 4. The capillary is in place 1 at first and in place 4 while it is on its way; what holds the capillary and holder 31 is the "
           "floor at first, then place 4.", [
               layout("Start", [holder(agent(0, "exit 20.enter 20"))], [], "20[30[exit 20.enter 20 | 60[]]] | 20[31[]]", "place 1", "place 0, the floor"),
               layout("After the second left: on its way into place 4", [], [holder(spent(0), away=True)], "20[30[60[]] | 31[]] | 20[]",
                      "place 4", "place 4")])
