"""Table rows for whom a request means."""

from rows_read import request
from some_channels import (EVERY, EVERY_SECONDARY, OPEN, PRIMARY, SECONDARY, WORKED, ask,
                           heard, long, short, tag)
from some_records import LEAST, MOST, PLAIN, record

NOT_THIS = b"\x12\x34\x56\x78\x9a\xbc"


def rows():
    return short_rows() + long_rows() + every_rows() + tag_rows() + damaged_rows()


def turned(some, place, bit):
    """One bit turned."""
    other = bytearray(some)
    other[place] ^= 1 << bit
    return bytes(other)


def short_rows():
    lines = []
    for polling in (0, 1, 15):
        one = record(polling=polling)
        for master in (PRIMARY, SECONDARY):
            lines.append(ask(one, 16, address=short(one, master)))
        for bit in range(0 if polling == 15 else 4, 7):
            lines.append(ask(one, 16, address=turned(short(one), 0, bit)))
    one = record(polling=5)
    for address in (0x75, 0xF5, 0xF0, 0x80, 0x00, 0xFF, 0x58):
        lines.append(ask(one, 0, address=bytes([address])))
    return lines


def long_rows():
    lines = []
    for one in (PLAIN, WORKED, LEAST, MOST):
        for master in (PRIMARY, SECONDARY):
            lines.append(ask(one, 16, address=long(one, master)))
    for bit in range(7):
        lines.append(ask(PLAIN, 16, address=turned(long(PLAIN), 0, bit)))
    for place in range(1, 5):
        for bit in (0, 7):
            lines.append(ask(PLAIN, 16, address=turned(long(PLAIN), place, bit)))
    for address in (
        b"\x80" + PLAIN[:4],                      # no manufacturer
        long(PLAIN)[:2] + long(PLAIN)[:1:-1],     # identification backwards
        long(PLAIN)[:1] + PLAIN[1:4] + PLAIN[:1],
        long(PLAIN)[:1] + bytes(4),
        b"\x83\x83\x83\x83\x83",                  # the polling address all over
    ):
        lines.append(ask(PLAIN, 16, address=address))
    # The polling address has no part in it, nor the tag.
    lines.append(ask(record(polling=0), 16, address=long(PLAIN)))
    lines.append(ask(record(text=bytes(45)), 16, address=long(PLAIN)))
    # Each width's start before the other's address.
    lines.append(heard(PLAIN, request(short(PLAIN), 16, b"", start=0x82)))
    lines.append(heard(PLAIN, request(long(PLAIN), 16, b"", start=0x02)))
    return lines


def every_rows():
    lines = []
    for one in (PLAIN, LEAST, MOST):
        for address in (EVERY, EVERY_SECONDARY):
            lines.append(ask(one, 0, address=address))
    for place, bit in ((0, 6), (0, 5), (0, 0), (1, 0), (2, 7), (3, 4), (4, 0)):
        lines.append(ask(PLAIN, 0, address=turned(EVERY, place, bit)))
    # With type and identification 0 the own address is every channel's but
    # for the manufacturer.
    for address in (b"\x8a", b"\x0a", b"\xca", b"\x4a", b"\xc0", b"\x8b"):
        lines.append(ask(LEAST, 16, address=address + bytes(4)))
    return lines


def tag_rows():
    right = tag(OPEN)
    lines = [ask(OPEN, 11, right, address=address)
             for address in (EVERY, EVERY_SECONDARY, long(OPEN), long(OPEN, SECONDARY),
                             short(OPEN), short(OPEN, SECONDARY))]
    # The right tag, and an address that means another channel or none.
    lines += [ask(OPEN, 11, right, address=address)
              for address in (b"\x84", b"\x93", b"\x80", turned(EVERY, 0, 6),
                              turned(EVERY, 4, 0), turned(long(OPEN), 0, 6),
                              turned(long(OPEN), 0, 0), turned(long(OPEN), 4, 0))]
    for place in range(6):
        for bit in (0, 7):
            lines.append(ask(OPEN, 11, turned(right, place, bit), address=EVERY))
    for address in (long(OPEN), short(OPEN)):
        lines.append(ask(OPEN, 11, turned(right, 5, 3), address=address))
        lines.append(ask(OPEN, 11, right[:5], address=address))
    for data in (b"", right[:1], right[:5], right[1:], right + b"\x00", b"\x00" + right,
                 OPEN[28:35], OPEN[28:49], right[::-1], OPEN[34:40]):
        lines.append(ask(OPEN, 11, data, address=EVERY))
    # A tag of zeros is a tag, and none is not.
    for data in (bytes(6), bytes(5), b""):
        lines.append(ask(WORKED, 11, data, address=EVERY))
    lines.append(ask(OPEN, 11, right + bytes(249), address=EVERY))
    # No other command is asked for a tag.
    for command in (0, 1, 10, 12):
        lines.append(ask(OPEN, command, NOT_THIS, address=EVERY))
    return lines


def damaged_rows():
    """A wrong check, with the address or the tag as it should be or not."""
    lines = []
    for address, command, data in ((short(OPEN), 16, b""), (b"\x84", 16, b""),
                                   (b"\x93", 16, b""), (long(OPEN), 17, b"\x00"),
                                   (turned(long(OPEN), 3, 1), 17, b"\x00"), (EVERY, 1, b""),
                                   (turned(EVERY, 3, 1), 1, b""), (EVERY, 11, tag(OPEN)),
                                   (EVERY, 11, NOT_THIS), (EVERY, 11, tag(OPEN)[:5]),
                                   (EVERY, 11, tag(OPEN) + b"\x00")):
        good = request(address, command, data)
        lines.append(heard(OPEN, turned(good, len(good) - 1, 4)))
    lines.append(heard(OPEN, good, marks=bytes(len(good) - 1) + b"\x02"))
    return lines
