"""A mixed recording: five channels, and events of every kind.

The supply of linerun is never exceeded, so no setpoint gets code 16.
"""

from chance import Chance
from rows_read import request
from some_channels import EVERY, EVERY_SECONDARY, PRIMARY, SECONDARY, long, short, tag
from some_events import character, characters, gap, key, sample, sent
from some_patterns import any_pattern, exactly, lawful
from some_records import MOST, TEXT, record

ZERO = record(device=70, identification=1, polling=1, preambles=2, assembly=7, flags=2,
              setpoint=0, ceiling=100, unit=0xAB, full_scale=1000, flow=0,
              temperature=0, text=bytes(45))
SHUT = record(device=100, identification=0x010203, polling=0, preambles=5, flags=1)
LEFT = record(device=90, identification=2, polling=5, preambles=3, flags=2, ceiling=25,
              setpoint=exactly(80))
RIGHT = record(device=90, identification=3, polling=5, preambles=2, flags=2)
# The most of everything, but for a tag like that of the three before it.
LAST = MOST[:28] + TEXT[:6] + MOST[34:]
RACK = (ZERO, SHUT, LEFT, RIGHT, LAST)

INFINITE = 0x7F800000
NOT_A_NUMBER = 0x7FC00001
MESSAGE = bytes((0xE0 + 11 * at) % 256 for at in range(24))
TURNS = 14


def rack():
    return b"".join(RACK)


def events():
    return b"".join(reads() + tags() + writes() + setpoints() + addresses() + damage()
                    + operations() + out_of_form() + interrupted() + by_chance()
                    + [character(0xFF)[:7]])


def asked(address, command, data=b"", **more):
    """A request and the gap that ends it."""
    return sent(request(address, command, data, **more))


def reads():
    return [asked(short(ZERO), 0), asked(short(SHUT, SECONDARY), 1),
            asked(long(LEFT), 12), asked(long(RIGHT, SECONDARY), 13),
            asked(short(LAST), 16, preambles=3), asked(short(SHUT), 235),
            asked(short(ZERO, SECONDARY), 235, b"\x39\x42"),
            # Two channels are there.
            asked(short(LEFT), 16)]


def tags():
    """Four channels have one tag, and an address can tell which is meant."""
    return [asked(EVERY, 11, tag(ZERO)), asked(EVERY_SECONDARY, 11, tag(LEFT)),
            asked(short(LAST), 11, tag(LAST)), asked(short(ZERO), 11),
            asked(EVERY, 11, b"\x12\x34\x56\x78\x9a\xbc")]


def writes():
    return [asked(short(ZERO), 17, MESSAGE), asked(long(RIGHT), 18, MESSAGE[:21]),
            asked(EVERY, 11, MESSAGE[:6]),
            asked(short(ZERO, SECONDARY), 19, b"\x0a\x0b\x0c"),
            asked(short(ZERO), 38), asked(short(ZERO), 59, b"\x04"),
            asked(short(ZERO), 59, b"\x01"), asked(short(ZERO), 59, b"\x10"),
            asked(long(LEFT), 6, b"\x02"), asked(b"\x82", 16), asked(short(RIGHT), 16),
            asked(b"\x82", 6, b"\x10"), asked(b"\x82", 38, b"\x00"),
            asked(short(SHUT), 38), asked(short(ZERO), 2)]


def setpoints():
    lines = [asked(short(ZERO), 236, b"\x39" + pattern.to_bytes(4, "big"))
             for pattern in (exactly(50) + 1, 0x80000000, exactly(100) + 1, NOT_A_NUMBER,
                             0x80000001)]
    # Above its ceiling since set-up, a setpoint stands and cannot be asked for.
    lines.append(asked(b"\x82", 236, b"\x39" + exactly(80).to_bytes(4, "big")))
    lines.append(asked(short(ZERO), 236, b"\xfa" + exactly(50).to_bytes(4, "big")))
    lines.append(asked(short(SHUT), 236, b"\x39" + exactly(50).to_bytes(4, "big")))
    return lines


def addresses():
    return [asked(b"\x91", 16), asked(b"\x83", 16), asked(EVERY, 16),
            asked(b"\xca" + ZERO[:4], 16), asked(b"\x8b" + ZERO[:4], 0)]


def damage():
    good = request(short(ZERO), 16, b"")
    return [sent(good[:-1] + b"\x92"), sent(good, b"\x07\x07"),
            sent(good, bytes([0, 0, 1])), sent(good, bytes([0, 0, 0, 2, 0, 0, 4])),
            sent(good[:-1] + b"\x92", bytes([0, 0, 0, 0, 4, 1])),
            sent(good[1:]), sent(good[:-1]), sent(good + b"\x00"), gap(), sent(b"\xff\xff")]


def operations():
    some = [sample(0, exactly(1.5), 0x80000000), asked(short(ZERO), 1),
            sample(0, INFINITE, 0), sample(4, 0, 0xFF800000), sample(1, 0, NOT_A_NUMBER),
            key(1, 1), asked(short(SHUT), 38), key(0, 0), asked(short(ZERO), 38),
            key(0, 1)]
    for channel in (5, 14, 15, 255):
        some += [key(channel, 0), sample(channel, INFINITE, 0)]
    return some


def changed(event, place, byte):
    return event[:place] + bytes([byte]) + event[place + 1:]


def out_of_form():
    """Each kind, each of its unused bytes once; then other kinds."""
    some = [changed(character(0xFF, marks), place, 1)
            for place, marks in zip(range(3, 12), (0, 8, 0, 7, 0, 255, 0, 0, 1))]
    some += [changed(gap(), place, 0x80) for place in range(1, 12)]
    some += [changed(sample(channel, pattern, 0), place, 1)
             for place, channel, pattern in ((2, 0, 0), (3, 4, INFINITE), (2, 255, 0))]
    some += [changed(key(channel, 0), place, byte)
             for place, channel, byte in ((2, 0, 2), (2, 15, 255), (3, 0, 1), (4, 1, 1),
                                          (5, 2, 1), (6, 3, 1), (7, 4, 1), (8, 5, 1),
                                          (9, 0, 1), (10, 0, 1), (11, 255, 1))]
    some += [changed(gap(), 0, kind) for kind in (0, 5, 0x82, 0xFF)]
    # None of them was a call, and nothing was heard.
    return some + [gap()]


def interrupted():
    """What is refused, and what is not of the line, leaves a transmission alone."""
    good = request(short(ZERO), 235, b"")
    between = (character(0x00, 8), changed(gap(), 11, 1), key(0, 0), key(5, 1),
               sample(0, exactly(2), exactly(21)), character(0xFF, 255), key(0, 1))
    some = []
    for byte, other in zip(good, between):
        some += [character(byte), other]
    return some + [gap()]


def by_chance():
    chance = Chance(71)
    some = []
    for _ in range(TURNS):
        if chance.below(4) == 0:
            channel = chance.below(7)
            some.append(chance.one_of((
                key(channel, chance.below(2)),
                sample(channel, any_pattern(chance), any_pattern(chance)))))
        some.append(some_transmission(chance))
    return some


def some_transmission(chance):
    one = chance.one_of(RACK)
    master = chance.one_of((PRIMARY, SECONDARY))
    address = chance.one_of((short(one, master), long(one, master)))
    command = chance.one_of((0, 1, 16, 19, 38, 59, 235, 236, 236))
    data = {19: chance.bytes(3), 59: bytes([chance.below(18)]),
            236: b"\x39" + lawful(chance).to_bytes(4, "big")}.get(command, b"")
    line = bytearray(request(address, command, data, 2 + chance.below(2)))
    marks = bytearray(len(line))
    turn = chance.below(6)
    if turn == 0:
        line[chance.below(len(line))] ^= 1 << chance.below(8)
    if turn == 1:
        marks[chance.below(len(line))] = chance.below(10)
    return characters(bytes(line), bytes(marks)) + gap()
