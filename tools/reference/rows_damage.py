"""Table rows for marks, wrong checks and transmissions that are not whole."""

from rows_address import turned
from rows_command import TAKEN
from rows_make import some_data
from rows_read import after, closed, request, unclosed
from some_channels import (EVERY, OPEN, SECONDARY, WORKED, heard, long, short, tag,
                           with_flags)
from some_records import record

# A write that would be taken, so that one done in spite of the damage shows.
POLLING = request(short(OPEN), 6, b"\x09", 3)
SETPOINT = request(long(OPEN), 236, TAKEN[236])


def rows():
    return (one_mark() + more_marks() + wrong_checks() + both() + not_whole()
            + many_preambles())


def at(place, mark):
    """Marks up to one place; the characters behind it have none."""
    return bytes(place) + bytes([mark])


def one_mark():
    # Preambles, start, address, command, count, data, check.
    lines = [heard(OPEN, POLLING, at(place, mark))
             for place in range(len(POLLING)) for mark in (1, 2, 4)]
    for mark in range(8):
        lines.append(heard(with_flags(3), POLLING, at(len(POLLING) - 1, mark)))
    for mark in (3, 5, 6, 7):
        for place in (2, 3, 4, 7):
            lines.append(heard(with_flags(3), POLLING, at(place, mark)))
    for place in range(2, len(SETPOINT)):
        lines.append(heard(OPEN, SETPOINT, at(place, 1 + place % 7)))
    return lines


def more_marks():
    whole = len(POLLING)
    lines = [heard(OPEN, POLLING, marks) for marks in (
        bytes(3), bytes(whole), b"\x07\x07\x07", b"\x01\x02\x04" + bytes(6),
        bytes(3) + b"\x01" * 6, bytes(3) + b"\x02" * 6, bytes(3) + b"\x04" * 6,
        bytes(3) + b"\x01\x02\x04", bytes(3) + b"\x04\x00\x00\x00\x00\x01",
        bytes(3) + b"\x06\x00\x05", b"\x07" * whole, b"\x04\x04\x04\x01",
        b"\x02\x02\x02\x00\x00\x04",
    )]
    # Tried before every code, whatever the command.
    for command, data in ((0, b""), (38, b""), (77, b""), (17, b"\x00"), (59, b"\x02"),
                          (236, TAKEN[236])):
        received = request(short(OPEN), command, data)
        lines.append(heard(with_flags(command % 4), received, at(2 + command % 3, 5)))
    # Meant for others, or for nobody.
    lines.append(heard(OPEN, request(b"\x84", 6, b"\x09"), at(3, 1)))
    lines.append(heard(OPEN, request(EVERY, 11, bytes(6)), at(10, 4)))
    lines.append(heard(OPEN, request(EVERY, 11, tag(OPEN)), at(10, 4)))
    return lines


def wrong_checks():
    lines = [heard(OPEN, turned(POLLING, len(POLLING) - 1, bit)) for bit in range(8)]
    lines.append(heard(WORKED, bytes.fromhex("FFFF0281100092")))
    for command, data in ((0, b""), (11, tag(OPEN)), (16, b""), (17, TAKEN[17]),
                          (17, b""), (38, b""), (59, b"\x0f"), (59, b"\x01"), (77, b""),
                          (235, some_data(9)), (236, TAKEN[236])):
        one = with_flags(command % 4)
        good = request(short(one, SECONDARY), command, data)
        lines.append(heard(one, turned(good, len(good) - 1, len(data) % 8)))
    # The damage is in another byte, and what it made of it is echoed.
    for place in (5, 6):
        lines.append(heard(OPEN, turned(POLLING, place, 5)))
    lines.append(heard(OPEN, turned(SETPOINT, 8, 1)))
    lines.append(heard(OPEN, turned(SETPOINT, 3, 7)))
    # Right only if the preambles were counted too, or the start left out.
    lines.append(heard(OPEN, POLLING[:-1] + bytes([POLLING[-1] ^ 0xFF])))
    lines.append(heard(OPEN, POLLING[:-1] + bytes([POLLING[-1] ^ 0x02])))
    lines.append(heard(OPEN, SETPOINT[:-1] + bytes([SETPOINT[-1] ^ 0x82])))
    return lines


def both():
    """A wrong check and marks."""
    lines = []
    for received in (POLLING, SETPOINT):
        bad = turned(received, len(received) - 1, 2)
        for mark in range(1, 8, len(received) // 7):
            lines.append(heard(OPEN, bad, at(len(bad) - mark, mark)))
        lines.append(heard(with_flags(3), bad, b"\x07"))
    return lines


def not_whole():
    """Most of it would be taken, or called damaged, were it whole."""
    short_frame = closed(unclosed(short(OPEN), 6, b"\x09"))
    long_frame = closed(unclosed(long(OPEN), 12, b""))
    some = [
        b"", b"\xff", b"\xff\xff", b"\xff" * 40,
        short_frame, after(1, short_frame), long_frame, after(1, long_frame),
        b"\x00" + after(2, short_frame), b"\xff\x00" + after(2, short_frame),
        b"\xff\xff\x00" + short_frame, b"\x02" + after(2, short_frame),
    ]
    for frame in (short_frame, long_frame):
        good = after(2, frame)
        some += [good[:end] for end in (3, 4, len(good) - 2, len(good) - 1)]
        some += [good + b"\x00", good + b"\xff", good + b"\x5a\x5a", good + good]
    for start in (0x00, 0x03, 0x06, 0x80):
        some.append(request(short(OPEN), 6, b"\x09", start=start))
    for start in (0x83, 0x86, 0xC2):
        some.append(request(long(OPEN), 12, b"", start=start))
    for count in (0, 2, 255):
        some.append(request(short(OPEN), 6, b"\x09", count=count))
    # Overlong: one byte more than the 264 there can be, and many more.
    some.append(request(long(OPEN), 12, some_data(255)) + b"\x00")
    some.append(request(short(OPEN), 12, some_data(300), count=44))
    lines = [heard(OPEN, received) for received in some]
    # Marks make nothing whole.
    for received in (b"\xff\xff", after(1, short_frame), after(2, short_frame)[:-1],
                     after(2, short_frame) + b"\x00"):
        lines.append(heard(OPEN, received, at(len(received) - 1, 1)))
    # A preamble or a start turned into something else, with and without a mark.
    for place, bit in ((0, 0), (1, 7), (2, 6), (3, 0), (3, 2), (3, 7)):
        lines.append(heard(OPEN, turned(POLLING, place, bit)))
    lines.append(heard(OPEN, turned(POLLING, 2, 6), at(2, 1)))
    return lines


def many_preambles():
    """Many of them, marked or not; and the longest frame there is."""
    lines = []
    for preambles in (5, 20, 40):
        lines.append(heard(OPEN, request(short(OPEN), 6, b"\x09", preambles)))
    received = request(long(OPEN), 1, b"", 40)
    lines.append(heard(OPEN, received, b"\x07" * 40))
    lines.append(heard(OPEN, received, b"\x07" * 41))
    lines.append(heard(OPEN, received, at(41, 4)))
    longest = request(long(OPEN), 16, some_data(255))
    lines.append(heard(OPEN, longest))
    lines.append(heard(record(preambles=15), longest, at(len(longest) - 1, 1)))
    # FF in the frame is no preamble.
    lines.append(heard(record(device=0xFF, identification=0xFFFFFF),
                       request(b"\x8a\xff\xff\xff\xff", 0, b"\xff\xff")))
    lines.append(heard(OPEN, request(b"\xff", 255, b"\xff")))
    return lines
