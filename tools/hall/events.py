"""Events of 12 bytes as values, and back; both ways exact for any bytes."""

from collections import namedtuple

from hall.binary32 import is_finite

LENGTH = 12
MOST_MARKS = 7
LEAST_ROOM = 64
MOST_SUPPLY = 15_000_000

Character = namedtuple("Character", "byte marks")
Gap = namedtuple("Gap", "")
GapOf = namedtuple("GapOf", "room")
Sample = namedtuple("Sample", "channel flow temperature")
Key = namedtuple("Key", "channel is_open")
Look = namedtuple("Look", "channel")
SetUp = namedtuple("SetUp", "supply")
OutOfForm = namedtuple("OutOfForm", "bytes")
# What is left over where a recording ends within an event.
Rest = namedtuple("Rest", "bytes")

# Kinds that linerun takes for out of form.
OF_SUPPLYRUN = (GapOf, Look, SetUp)


def cut(recording):
    return (recording[at:at + LENGTH] for at in range(0, len(recording), LENGTH))


def event_of(some):
    """The event that 12 bytes are, or what fewer of them are."""
    if len(some) < LENGTH:
        return Rest(bytes(some))
    take = TAKEN.get(some[0])
    event = take(some) if take else None
    # What makes other bytes has a byte where its kind uses none.
    if event is None or bytes_of(event) != some:
        return OutOfForm(bytes(some))
    return event


def number(some):
    return int.from_bytes(some, "big")


TAKEN = {
    1: lambda some: Character(some[1], some[2]),
    2: lambda some: Gap(),
    3: lambda some: Sample(some[1], number(some[4:8]), number(some[8:12])),
    4: lambda some: Key(some[1], some[2] == 1),
    5: lambda some: GapOf(some[1]),
    6: lambda some: Look(some[1]),
    7: lambda some: SetUp(number(some[4:8])),
}


def bytes_of(event):
    return MADE[type(event)](event)


def made(kind, first=0, second=0, words=(0, 0)):
    return bytes([kind, first, second, 0]) + b"".join(word.to_bytes(4, "big") for word in words)


MADE = {
    Character: lambda event: made(1, event.byte, event.marks),
    Gap: lambda event: made(2),
    Sample: lambda event: made(3, event.channel, 0, (event.flow, event.temperature)),
    Key: lambda event: made(4, event.channel, event.is_open),
    GapOf: lambda event: made(5, event.room),
    Look: lambda event: made(6, event.channel),
    SetUp: lambda event: made(7, 0, 0, (event.supply, 0)),
    OutOfForm: lambda event: event.bytes,
    Rest: lambda event: event.bytes,
}


def is_finite_sample(event):
    return is_finite(event.flow) and is_finite(event.temperature)


def is_gap(event):
    return isinstance(event, (Gap, GapOf))
