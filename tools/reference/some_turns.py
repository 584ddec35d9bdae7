"""What comes next in a recording: a transmission, an operation, an event out of form."""

import some_supplies
from events import LENGTH
from receiver import LONGEST_SPAN
from rows_make import some_data
from rows_read import request
from some_channels import long
from some_damage import one_byte, other_length, some_marks
from some_events import character, gap, key, sample
from some_forms import out_of_form
from some_moved import some_moved
from some_records import finite
from some_requests import edge_request, some_request
from some_supply_events import gap_of, look, set_up

ROOMS = (0, 63, 64, 80, 255)
NOT_FINITE = ((0x7F800000, "infinite"), (0xFF800000, "infinite"),
              (0x7FC00000, "not a number"), (0xFF800001, "not a number"),
              (0x7FA00000, "not a number"))


def some_turn(chance, making):
    turn = chance.below(20)
    if turn < 14:
        some_transmission(chance, making)
    elif turn < 17:
        making.put(some_operation(chance, making))
    elif turn < 18:
        making.put(out_of_form(chance, making.is_supplyrun, making.note))
    elif turn < 19:
        making.note("empty gap")
        making.put(some_gap(chance, making))
    else:
        # Noise, that may spoil what comes behind it.
        making.note("noise")
        making.put(character(chance.below(256), chance.below(10)))


def some_transmission(chance, making):
    some, marks = some_characters(chance, making)
    # Between its characters other things happen, in some.
    often = chance.one_of((0, 0, 0, 0, 6, 20))
    for byte, mark in zip(some, marks):
        if often and chance.below(often) == 0:
            making.put(some_between(chance, making))
        making.put(character(byte, mark))
    if chance.below(20) > 0:
        making.put(some_gap(chance, making))


def some_characters(chance, making):
    """The bytes of a transmission, and their marks."""
    note = making.note
    turn = chance.below(24)
    if turn == 0 and chance.below(3) == 0:
        return overlong(chance, making)
    if turn == 1:
        some = some_moved(chance, making.panel.rack, note)
        return some, bytes(len(some))
    if turn == 2 and chance.below(2) == 0:
        note("forty preambles")
        some = some_request(chance, making.panel, note, 40)
    elif turn in (11, 12):
        some = edge_request(chance, making.panel, note) or b""
    else:
        some = some_request(chance, making.panel, note)
    if turn in (3, 4, 5):
        some = one_byte(chance, some, note)
        return some, marks_beside(chance, some)
    if turn in (6, 7, 8):
        return some, some_marks(chance, some, note)
    if turn in (9, 10):
        some = other_length(chance, some, note)
    return some, bytes(len(some))


def marks_beside(chance, some):
    """Mostly none; else any character of what was received."""
    if chance.below(4) > 0:
        return bytes(len(some))
    place = chance.below(len(some))
    return bytes(place) + bytes([1 + chance.below(7)]) + bytes(len(some) - place - 1)


def overlong(chance, making):
    """As long as a frame can be, and longer."""
    address = long(chance.one_of(making.panel.rack))
    some = request(address, chance.one_of((16, 0, 236)), some_data(255))
    more = chance.one_of((0, 0, 1, 2, 30))
    making.note("frame of 264 bytes" if more == 0 else "more than 264 bytes")
    some += bytes(more)
    if len(some) != 2 + LONGEST_SPAN + more:
        raise ValueError(f"{len(some)} bytes")
    return some, bytes(len(some))


def some_between(chance, making):
    """What does not end a transmission, or ends it too early."""
    turn = chance.below(6)
    if turn == 0:
        making.note("event out of form within")
        return out_of_form(chance, making.is_supplyrun, making.note)
    if turn == 1:
        making.note("marks above 7")
        return character(chance.below(256), chance.one_of((8, 16, 128, 255)))
    if turn == 2 and making.is_supplyrun:
        return gap_of(chance.one_of((0, 63, chance.below(64))))
    if turn == 3 and chance.below(6) == 0:
        making.note("gap within")
        return gap()
    return some_operation(chance, making)


def some_gap(chance, making):
    if not making.is_supplyrun or chance.below(2) == 0:
        return gap()
    room = chance.one_of(ROOMS + (64, 64, chance.below(256)))
    making.note(f"gap with {room} bytes" if room in ROOMS else "gap with others")
    return gap_of(room)


def some_operation(chance, making):
    """A key turn, a sample, a look, or another set-up."""
    turn = chance.below(9 if making.is_supplyrun else 5)
    if turn > 6:
        return some_set_up(chance, making)
    if turn < 2:
        channel = some_channel(chance, making, "sample")
        return some_sample(chance, channel, making.note)
    if turn < 5:
        channel = some_channel(chance, making, "key")
        is_open = chance.below(3) > 0
        making.note("key opened" if is_open else "key shut")
        return key(channel, is_open)
    making.note("look")
    return look(some_channel(chance, making, "look"))


def some_channel(chance, making, call):
    count = len(making.panel.rack)
    if chance.below(5) > 0:
        return chance.below(count)
    channel, kind = chance.one_of(((count, "the number of channels"), (14, "channel 14"),
                                   (15, "channel 15"), (255, "channel 255")))
    # The last of 15 channels is 14.
    if channel >= count:
        making.note(f"{call} of {kind}")
    return channel


def some_sample(chance, channel, note):
    values = [any_finite(chance), any_finite(chance)]
    if chance.below(3) == 0:
        which = chance.below(2)
        values[which], kind = chance.one_of(NOT_FINITE)
        note(f"{('flow', 'temperature')[which]} {kind}")
    else:
        note("finite sample")
    return sample(channel, *values)


def any_finite(chance):
    return chance.one_of((finite(chance), 0x80000000, 0, 0x7F7FFFFF, 1))


def some_set_up(chance, making):
    """Again, under a supply that fits or does not."""
    choose = chance.one_of((some_supplies.some_supply, some_supplies.refused_supply))
    kind, supply = choose(chance, making.panel.rack)
    receiver = making.panel.receiver
    where = "within" if receiver.span or receiver.preambles else "between"
    making.note(f"set-up again, {kind}, {where}")
    return set_up(supply)


def some_end(chance, making):
    """The last event is cut off, in some."""
    if chance.below(3) == 0:
        length = 1 + chance.below(LENGTH - 1)
        making.note(f"last event of {length} bytes")
        making.put(chance.one_of((gap(), character(0xFF), chance.bytes(LENGTH)))[:length])
