"""The text of a recording, from which the same bytes are made again."""

from hall import binary32
from hall.events import (Character, Gap, GapOf, Key, Look, OutOfForm, Rest, Sample, SetUp, cut,
                         event_of)
from hall.making import MARKS
from hall.requests import readable

BYTES_IN_A_LINE = 24


def lines_of(recording, as_bytes=False):
    """Line by line; characters as requests where they are one, unless as bytes."""
    unmarked = bytearray()
    for event in map(event_of, cut(recording)):
        if isinstance(event, Character) and event.marks == 0:
            unmarked.append(event.byte)
            continue
        yield from sends(bytes(unmarked), as_bytes)
        unmarked.clear()
        yield line_of(event)
    yield from sends(bytes(unmarked), as_bytes)


def sends(some, as_bytes):
    """The lines of characters in a row without marks."""
    request = None if as_bytes else readable(some)
    if request:
        yield f"send {request}"
        return
    for at in range(0, len(some), BYTES_IN_A_LINE):
        yield "send " + hexadecimal(some[at:at + BYTES_IN_A_LINE])


def hexadecimal(some):
    return some.hex(" ").upper()


def marks_text(marks):
    names = [name for name, mark in MARKS.items() if marks & mark]
    return " ".join(names) if 0 < marks <= sum(MARKS.values()) else str(marks)


def line_of(event):
    return SHOWN[type(event)](event)


SHOWN = {
    Character: lambda event: f"mark {marks_text(event.marks)} {event.byte:02X}",
    Gap: lambda event: "gap",
    GapOf: lambda event: f"gap {event.room}",
    Sample: lambda event: f"sample {event.channel} {binary32.text_of(event.flow)}"
                          f" {binary32.text_of(event.temperature)}",
    Key: lambda event: f"key {event.channel} {'open' if event.is_open else 'shut'}",
    Look: lambda event: f"look {event.channel}",
    SetUp: lambda event: f"supply {event.supply}",
    OutOfForm: lambda event: f"event {hexadecimal(event.bytes)}",
    Rest: lambda event: f"rest {hexadecimal(event.bytes)}",
}
