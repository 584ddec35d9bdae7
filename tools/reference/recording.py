"""A recording: the program that plays it, its supply, a record file, events."""

from collections import namedtuple

import linerun
import supplyrun

# The supply counts for supplyrun alone; linerun has its own.
Recording = namedtuple("Recording", "program supply file events")


def expected(recording):
    """All that the program prints of it."""
    if recording.program == "linerun":
        return linerun.output(recording.file, recording.events)
    return supplyrun.output(recording.supply, recording.file, recording.events)
