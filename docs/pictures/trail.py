"""The picture of a trail: its bytes, and the layouts that its moves lead to."""

from drawing import agent, panels, place, spent


def trail():
    """The first picture's cell, and a trail of two moves: the holder goes out of the bonder and into the magazine."""
    trays = (place("50 tray", 4), place("50 tray", 5))

    def holder(row):
        return place("30 holder", 2, row)

    panels("trail.svg", "A trail of two moves",
           "From the loaded layout the bytes 0 and 255 say that agent 0 makes its exit: holder 30 stands on the floor. The bytes 0 and 3 say that it "
           "enters place 3: the holder stands in magazine 40. That layout is compared with the final listing.", [
               ("The cell file", place("floor", 0, place("20 bonder", 1, holder(agent(0, "exit 20.enter 40"))), place("40 magazine", 3, *trays)),
                "20[30[exit 20.enter 40]] | 40[50[] | 50[]]"),
               ("0, 255: agent 0 makes its exit", place("floor", 0, place("20 bonder", 1), holder(agent(0, "enter 40")), place("40 magazine", 3, *trays)),
                "20[] | 30[enter 40] | 40[50[] | 50[]]"),
               ("0, 3: agent 0 enters place 3", place("floor", 0, place("20 bonder", 1), place("40 magazine", 3, holder(spent(0)), *trays)),
                "20[] | 40[30[] | 50[] | 50[]]")])
