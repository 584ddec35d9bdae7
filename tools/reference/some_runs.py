"""Runs to try: racks by chance, and calls on them by chance."""

from collections import namedtuple

from rows_read import request
from some_panels import channel, gap, outcome
from some_patterns import any_pattern, lawful

# A call's name, its values, its result.
Event = namedtuple("Event", "call values result")

TAGS = (bytes(6), b"\x34\x60\xed\xc7\x2c\xf4")
COMMANDS = (0, 1, 6, 11, 12, 13, 16, 17, 18, 19, 38, 59, 235, 236, 236, 236, 236, 2)
COUNTS = {17: 24, 18: 21, 19: 3, 38: 0}


def some_rack(chance):
    """Few channels, often two with one polling address or one tag."""
    return [channel(number, chance.below(3), number, flags=chance.one_of((0, 2, 2, 3)),
                    setpoint=lawful(chance), ceiling=chance.one_of((100, 100, 60, 0)),
                    full_scale=1 + chance.below(2000),
                    text=chance.one_of(TAGS) + chance.bytes(39))
            for number in range(1 + chance.below(4))]


def some_calls(chance, rack):
    """Calls without end, each as its name and its values."""
    while True:
        turn = chance.below(8)
        if turn == 0:
            yield operation(chance, rack)
        elif turn == 1:
            # Noise, that may spoil what comes behind it.
            yield "character", (chance.below(256), chance.below(10))
        else:
            yield from transmission(chance, rack)


def operation(chance, rack):
    number = chance.below(len(rack) + 1)
    if chance.below(2):
        return "key", (number, chance.below(3) > 0)
    return "sample", (number, any_pattern(chance), any_pattern(chance))


def transmission(chance, rack):
    some = some_request(chance, rack)
    marks = bytearray(len(some))
    start = len(some) - len(some.lstrip(b"\xff"))
    turn = chance.below(5)
    if turn == 0:
        # One character is another byte; most tell where a frame begins.
        place = chance.below(len(some))
        other = chance.one_of((0x02, 0x82, 0xFF, chance.below(256)))
        some = some[:place] + bytes([other]) + some[place + 1:]
    if turn == 1:
        marks[start + chance.below(len(some) - start)] = 1 + chance.below(7)
    if turn == 2:
        marks[chance.below(start)] = 1 + chance.below(7)
    for one in zip(some, marks):
        yield "character", one
        if chance.below(20) == 0:
            yield chance.one_of((("gap", (63,)), ("character", (2, 8)),
                                 operation(chance, rack)))
    yield "gap", (64 + chance.below(9),)


def some_request(chance, rack):
    command = chance.one_of(COMMANDS)
    master = chance.one_of((0x00, 0x80))
    one = chance.one_of(rack)
    address = chance.one_of((bytes([master + chance.below(3)]),
                             bytes([master + 10]) + one[:4],
                             bytes([master + 10]) + one[:4], bytes([master, 0, 0, 0, 0])))
    data = chance.bytes(COUNTS.get(command, 0))
    if command == 11:
        data = chance.one_of(TAGS)
    if command in (6, 59):
        data = bytes([chance.below(5)])
    if command == 236:
        pattern = chance.one_of((lawful(chance), any_pattern(chance), 0x80000000))
        data = chance.one_of((b"\x39",) * 7 + (b"\xfa",)) + pattern.to_bytes(4, "big")
    return request(address, command, data, 2 + chance.below(3))


def work(panel, call, values):
    """One call; its event."""
    if call == "gap":
        return Event(call, values, gap(panel, *values)[0])
    return Event(call, values, outcome(getattr(panel, call), *values))
