"""Events of supplyrun: those of linerun, and three kinds of its own."""

import events
import records
from events import LENGTH, number, unused
from refusal import Refused

GAP_OF = 5
LOOK = 6
SET_UP = 7


def line_of(panel, event):
    """The line an event prints, without its line feed; None for none."""
    try:
        return work(panel, event)
    except Refused as refused:
        return events.refusal_line(refused)


def work(panel, event):
    # What is cut off is refused as such, whatever its kind would have been.
    if len(event) < LENGTH or event[0] not in OWN:
        return events.work(panel, event)
    return OWN[event[0]](panel, event)


def gap_of(panel, event):
    """A gap with a buffer of any length of one byte."""
    unused(event[2:])
    return events.gap_line(panel, event[1])


def look(panel, event):
    unused(event[2:])
    buffer = bytearray(records.LENGTH)
    panel.look(event[1], buffer)
    return buffer.hex().upper()


def set_up(panel, event):
    """Again, under another supply: refused, the old one stays."""
    unused(event[1:4] + event[8:])
    panel.set_up(number(event[4:8]))
    return "set up"


OWN = {GAP_OF: gap_of, LOOK: look, SET_UP: set_up}
