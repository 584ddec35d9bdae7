"""Pseudo-random table rows from a fixed seed."""

from chance import Chance
from rows_read import request
from table import make_line, pack_line, read_line, unpack_line

EACH = 4


def rows():
    chance = Chance(20)
    lines = []
    for _ in range(EACH):
        length = 4 * (1 + chance.below(12))
        room = length // 4 * 3 - 1 + chance.below(4)
        lines.append(pack_line(chance.letters(length), room))
    for _ in range(EACH):
        length = 3 * (1 + chance.below(12))
        room = length // 3 * 4 - 1 + chance.below(4)
        lines.append(unpack_line(chance.bytes(length), room))
    for _ in range(EACH):
        address = chance.bytes(chance.one_of((1, 5)))
        data = chance.bytes(chance.below(40))
        preambles = 2 + chance.below(19)
        room = preambles + len(address) + len(data) + 3 + chance.below(4)
        lines.append(make_line(preambles, address, chance.below(256), data, room))
    for damaged in (False, True):
        for _ in range(EACH):
            lines.append(read_line(some_request(chance, damaged)))
    return lines


def some_request(chance, damaged):
    address = chance.bytes(chance.one_of((1, 5)))
    data = chance.bytes(chance.below(40))
    bytes_now = bytearray(request(address, chance.below(256), data, 2 + chance.below(8)))
    if damaged:
        bytes_now[chance.below(len(bytes_now))] ^= 1 << chance.below(8)
    return bytes_now
