"""Events of 12 bytes: what each does with a panel, and the line it prints."""

from answers import LEAST_BUFFER
from refusal import Refused, number_of_records, out_of_form

LENGTH = 12
CHARACTER = 1
GAP = 2
SAMPLE = 3
KEY = 4


def line_of(panel, event):
    """The line an event prints, without its line feed; None for none."""
    try:
        return work(panel, event)
    except Refused as refused:
        return refusal_line(refused)


def refusal_line(refused):
    return f"refused {refused.code}"


def work(panel, event):
    # Only the last event of an input can be cut off.
    if len(event) < LENGTH:
        raise number_of_records()
    kind, first, second = event[:3]
    if kind == CHARACTER:
        unused(event[3:])
        panel.character(first, second)
        return None
    if kind == GAP:
        unused(event[1:])
        return gap_line(panel)
    if kind == SAMPLE:
        unused(event[2:4])
        panel.sample(first, number(event[4:8]), number(event[8:12]))
        return None
    if kind == KEY:
        unused(event[3:])
        if second > 1:
            raise out_of_form()
        panel.key(first, second)
        return None
    raise out_of_form()


def unused(some):
    if any(some):
        raise out_of_form()


def number(some):
    return int.from_bytes(some, "big")


def gap_line(panel, room=LEAST_BUFFER):
    buffer = bytearray(room)
    found = panel.gap(buffer)
    if found is None:
        return "silent"
    channel, length = found
    return f"{channel} {buffer[:length].hex().upper()}"
