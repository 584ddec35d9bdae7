"""What one event costs, by the difference of two runs that differ in events alone.

So what a program does to begin and to end is not counted.
"""

import cases
from counting import instructions
from some_events import characters, gap

TIMES = 1000
# A frame holds 264 bytes from the start on; both lengths are below that.
SHORTER, LONGER = 60, 260


class Costs:
    """Of one program."""

    def __init__(self, path, folder):
        self.path = path
        self.folder = folder
        self.of_character = self.character()

    def run(self, rack, given):
        return instructions(self.path, self.folder, b"".join(rack), given)

    def character(self):
        """Of transmissions of two lengths, and as many silent gaps."""
        rack = cases.rack(cases.MOST_CHANNELS)
        shorter, longer = (
            self.run(rack, (characters(cases.unended(length)) + gap()) * TIMES)
            for length in (SHORTER, LONGER))
        return (longer - shorter) / (TIMES * (LONGER - SHORTER))

    def gap(self, case):
        """Of the gap alone: its characters are taken off at the cost of one."""
        once, twice = (self.run(case.rack, cases.events(case, times))
                       for times in (TIMES, 2 * TIMES))
        return (twice - once) / TIMES - len(case.heard) * self.of_character

    def worst(self):
        """The most expensive gap at 15 channels, and which it is."""
        return max((self.gap(case), case.name) for case in cases.worst())

    def growth(self, given, rack):
        """How many times as many instructions twice and four times the events are."""
        none, once, twice, four = (self.run(rack, given * times) for times in (0, 1, 2, 4))
        return (twice - none) / (once - none), (four - none) / (once - none)
