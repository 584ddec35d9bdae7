"""Pseudo-random table rows of the line, from a fixed seed."""

from chance import Chance
from rows_address import turned
from rows_command import READING, TAKEN
from rows_read import request
from setpoints import load, share
from some_channels import EVERY, PRIMARY, SECONDARY, heard, long, short, tag
from some_patterns import any_pattern, lawful
from some_records import any_record

ROWS = 60


def rows():
    chance = Chance(53)
    return [some_row(chance) for _ in range(ROWS)]


def some_row(chance):
    one = any_record(chance)
    if chance.below(3) > 0:
        one = one[:9] + bytes([one[9] | 2]) + one[10:]
    command = chance.one_of(READING + tuple(TAKEN) * 2 + (11, 236, 236, chance.below(256)))
    data = some_data(chance, one, command)
    received = request(some_address(chance, one), command, data, 2 + chance.below(4))
    marks = b""
    turn = chance.below(8)
    if turn == 0:
        received = turned(received, chance.below(len(received)), chance.below(8))
    if turn == 1:
        marks = bytes(chance.below(len(received))) + bytes([1 + chance.below(7)])
    if turn == 2:
        received = turned(received, len(received) - 1, chance.below(8))
        marks = bytes(chance.one_of((0, 0, 1, 2, 4)) for _ in range(len(received)))
    supply = chance.below(15_000_001)
    return heard(one, received, marks, 64, supply, some_others(chance, one, data, supply))


def some_address(chance, one):
    master = chance.one_of((PRIMARY, SECONDARY))
    address = chance.one_of((short(one, master), short(one, master), long(one, master),
                             long(one, master), bytes([master]) + EVERY[1:]))
    if chance.below(10) == 0:
        address = turned(address, chance.below(len(address)), chance.below(7))
    return address


def some_data(chance, one, command):
    if command == 11:
        return tag(one) if chance.below(4) else chance.bytes(6)
    if command not in TAKEN:
        return chance.bytes(chance.one_of((0, 0, 0, 1, 5, 24)))
    if command == 236:
        pattern = lawful(chance) if chance.below(4) else any_pattern(chance)
        return b"\x39" + pattern.to_bytes(4, "big")
    if command in (6, 59):
        return bytes([chance.below(18)])
    count = len(TAKEN[command])
    return chance.bytes(count if chance.below(5) else count + 1)


def some_others(chance, one, data, supply):
    """Around what leaves room for the setpoint asked for, where one is."""
    room = supply * 102_400
    pattern = int.from_bytes(data[1:], "big")
    if len(data) == 5 and pattern <= 0x42C80000:
        new = share(load(pattern), int.from_bytes(one[16:20], "big"))
        return max(0, room - new + chance.one_of((-1, 0, 1)))
    return chance.below(room + 1)
