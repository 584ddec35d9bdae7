"""Table rows for reading a request transmission.

Most damage is given twice: as it is, and with the check mended to fit, so
that the check alone cannot be what refuses it.
"""

from rows_make import (ADDRESSES, LONG_PRIMARY, LONG_SECONDARY, SHORT_PRIMARY,
                       SHORT_SECONDARY, some_data)
from table import read_line


def rows():
    lines = (sound() + telling_bytes() + preambles() + wrong_checks() + starts()
             + lengths() + counts() + cut_off() + overlong()
             + damaged_preambles() + damaged_starts())
    return [read_line(line) for line in lines]


def closed(frame):
    """The frame with its check put behind it."""
    check = 0
    for byte in frame:
        check ^= byte
    return bytes(frame) + bytes([check])


def unclosed(address, command, data, start=None, count=None):
    """From start to data; start and count are the right ones unless given."""
    if start is None:
        start = 0x02 if len(address) == 1 else 0x82
    if count is None:
        count = len(data)
    return bytes([start]) + address + bytes([command, count]) + data


def after(preambles, frame):
    return b"\xff" * preambles + frame


def request(address, command, data, preambles=2, **odd):
    return after(preambles, closed(unclosed(address, command, data, **odd)))


def sound():
    some = [
        bytes.fromhex("FFFF0281100093"),
        bytes.fromhex("FFFF828A4600000100004F"),
    ]
    for address in ADDRESSES:
        for count in (0, 24):
            some.append(request(address, 3, some_data(count, len(address)), 5))
    for address in (SHORT_SECONDARY, LONG_PRIMARY):
        for count in (1, 255):
            some.append(request(address, 3, some_data(count, len(address)), 5))
    for address, command in ((SHORT_SECONDARY, 0), (LONG_PRIMARY, 11),
                             (SHORT_PRIMARY, 255)):
        some.append(request(address, command, b"\x11\x22"))
    return some


def telling_bytes():
    """Sound, with bytes that look like a preamble or a start in the frame."""
    return [
        request(SHORT_PRIMARY, 17, b"\xff"),
        request(SHORT_PRIMARY, 17, b"\xff\xff\x02\x81\x10\x00\x93"),
        request(b"\xff", 0, b""),
        request(b"\xff", 0xFF, b"\xff\xff", 3),
        request(b"\x02", 0, b"", 2),
        request(b"\x02", 0, b"", 3),
        request(b"\x82", 0x82, b"\x82"),
        request(b"\x02\x02\x02\x02\x02", 2, b"\x02"),
        request(b"\x82\xff\xff\xff\xff", 0, b"\xff\xff"),
        request(b"\xff\xff\xff\xff\xff", 255, b""),
        # The master is bit 7 and no other.
        request(b"\x7f", 0, b""),
        request(b"\x80", 0, b""),
    ]


def preambles():
    some = [request(SHORT_PRIMARY, 7, b"", count)
            for count in (0, 1, 2, 3, 19, 20, 21, 40)]
    # 256 and 258 would be 0 and 2 if they were counted in one byte.
    some += [request(LONG_SECONDARY, 16, b"\x5a", count)
             for count in (1, 2, 256, 258)]
    # Preambles and nothing else, from empty bytes on.
    some += [b"\xff" * count for count in (0, 1, 2, 3, 40)]
    # The first byte that is not a preamble is the start, whatever follows.
    some += [
        b"\x00" + request(SHORT_PRIMARY, 16, b""),
        b"\xff\xff\x00" + request(SHORT_PRIMARY, 16, b""),
    ]
    return some


def wrong_checks():
    some = [bytes.fromhex("FFFF0281100092")]
    for address, data in ((SHORT_SECONDARY, b""), (LONG_PRIMARY, b"\x11\x22")):
        good = request(address, 16, data)
        for damage in (0x01, 0x80):
            some.append(good[:-1] + bytes([good[-1] ^ damage]))
    # A frame that would be sound if the preambles were counted in the check.
    good = request(SHORT_PRIMARY, 16, b"", 3)
    some.append(good[:-1] + bytes([good[-1] ^ 0xFF]))
    return some


def starts():
    """Starts near to the right ones, and each width's before the other's."""
    some = []
    for start in (0x00, 0x01, 0x03, 0x06, 0x80, 0x82, 0xFF):
        some.append(request(SHORT_PRIMARY, 16, b"\x33", start=start))
    for start in (0x80, 0x81, 0x83, 0x86, 0x00, 0x02, 0xFF):
        some.append(request(LONG_PRIMARY, 16, b"\x33", start=start))
    return some


def lengths():
    some = []
    for address, data in ((SHORT_PRIMARY, b"\x11\x22"), (LONG_SECONDARY, b"")):
        good = request(address, 9, data)
        body = unclosed(address, 9, data)
        some += [
            # Too many, though the exclusive or stays 0.
            good + b"\x00",
            good + b"\x5a\x5a",
            # Too many, and it does not.
            good + b"\xff",
            good + b"\x5a\x01",
            # Too few, the last of them with the check mended.
            good[:-1],
            good[:-2],
            after(2, closed(body[:-1])),
        ]
    return some


def counts():
    some = []
    for address in (SHORT_SECONDARY, LONG_PRIMARY):
        data = b"\x11\x22\x33"
        check = closed(unclosed(address, 33, data))[-1:]
        for count in (2, 4):
            some.append(request(address, 33, data, count=count))
            some.append(after(2, unclosed(address, 33, data, count=count) + check))
    some.append(request(SHORT_PRIMARY, 33, b"", count=1))
    some.append(request(SHORT_PRIMARY, 33, b"\x11", count=0))
    some.append(request(LONG_PRIMARY, 33, some_data(255), count=254))
    some.append(request(LONG_PRIMARY, 33, some_data(254), count=255))
    return some


def cut_off():
    """A frame broken off before its check."""
    some = []
    for address, ends in ((SHORT_PRIMARY, (1, 2, 3, 4)), (LONG_PRIMARY, (1, 6, 7, 8))):
        body = unclosed(address, 0, b"")
        some += [after(2, body[:end]) for end in ends]
    # Too short, though the exclusive or is 0.
    some += [
        bytes.fromhex("FFFF0202"),
        bytes.fromhex("FFFF028183"),
        bytes.fromhex("FFFF02811093"),
        bytes.fromhex("FFFF82810003"),
    ]
    return some


def overlong():
    """More than the 264 bytes a frame may have from its start on."""
    return [
        request(LONG_PRIMARY, 33, some_data(256), count=255),
        request(LONG_PRIMARY, 33, some_data(256), count=0),
        request(SHORT_PRIMARY, 33, some_data(260), count=4),
        request(LONG_PRIMARY, 33, some_data(255)) + b"\x00",
    ]


def damaged_preambles():
    some = []
    for damage in (0x02, 0x82):
        for place in (0, 1, 2, 4):
            bad = bytearray(request(LONG_PRIMARY, 16, b"", 5))
            bad[place] = damage
            some.append(bytes(bad))
    # What is left after the damage is sound by itself.
    some.append(bytes.fromhex("FFFF02FF0200FF"))
    return some


def damaged_starts():
    """With the start gone the address stands in its place."""
    some = []
    for address in (b"\x02", b"\x82", SHORT_PRIMARY, b"\x02\x00\x00\x00\x01"):
        bad = bytearray(request(address, 1, b"\x00", 3))
        bad[3] = 0xFF
        some.append(bytes(bad))
    # The count read one place later fits, so only the check refuses it.
    bad = bytearray(request(b"\x02", 1, b"\x02\x77\x66", 3))
    bad[3] = 0xFF
    some.append(bytes(bad))
    return some
