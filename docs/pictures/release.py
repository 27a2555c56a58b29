"""The pictures of release: one place put out, and a carrier that is taken and put back in turn."""

from drawing import agent, panels, place, spent


def release():
    """Before and after a release."""
    panels("release.svg", "Release 5", "An agent of place 9 puts out a new place named 5: it stands in place 9, with nothing in it.", [
        ("Before", place("floor", 0, place("9", 1, agent(0, "release 5")), place("8", 3)), "8[] | 9[release 5]"),
        ("After put: number 2 was the smallest unused",
         place("floor", 0, place("9", 1, spent(0), place("5", 2)), place("8", 3)), "8[] | 9[5[]]")])


def semaphore():
    """A permit of a bonder that two agents take by opening and put back by releasing."""
    panels("semaphore.svg", "A carrier as a permit",
           "Place 5 stands on the floor as the permit. Agent 0 opens it and has it: place 5 is gone, and agent 1, which wants to open it too, "
           "sleeps. When agent 0 puts out a new place 5, agent 1 is woken and opens that.", [
               ("The permit is there", place("floor", 0, agent(0, "open 5.release 5"), agent(1, "open 5.release 5"), place("5", 1)),
                "open 5.release 5 | open 5.release 5 | 5[]"),
               ("Agent 0 has it; agent 1 sleeps", place("floor", 0, agent(0, "release 5"), agent(1, "open 5.release 5")),
                "open 5.release 5 | release 5"),
               ("After put: agent 1 is woken", place("floor", 0, spent(0), agent(1, "open 5.release 5"), place("5", 1)),
                "open 5.release 5 | 5[]")])
