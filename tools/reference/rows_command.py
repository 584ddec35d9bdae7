"""Table rows for every command, by count, key, flag and value."""

from rows_make import some_data
from some_channels import (EVERY, EVERY_SECONDARY, OPEN, PRIMARY, SECONDARY, WORKED, ask,
                           long, short, tag, with_flags)
from some_records import LEAST, MOST, record

READING = (0, 1, 12, 13, 16, 235)

# Data that an open channel takes.
TAKEN = {
    6: b"\x09",
    17: bytes((0xE0 + 11 * at) % 256 for at in range(24)),
    18: bytes((0xD1 + 13 * at) % 256 for at in range(21)),
    19: b"\x0a\x0b\x0c",
    38: b"",
    59: b"\x03",
    236: b"\x39\x42\x48\x00\x00",
}

# Some are a tabled command but for one bit, mostly the highest.
UNTABLED = (2, 3, 5, 7, 10, 14, 20, 37, 48, 58, 60, 107, 108, 128, 134, 139, 145, 187,
            234, 237, 254, 255)


def rows():
    return (reads() + tag_questions() + writes_taken() + counts() + untabled()
            + long_addresses() + values() + preambles())


def reads():
    lines = []
    for at, command in enumerate(READING):
        for flags, master in ((at % 2, PRIMARY), (3 - at % 2, SECONDARY)):
            one = with_flags(flags)
            lines.append(ask(one, command, address=short(one, master)))
        for count in (1, 24):
            lines.append(ask(with_flags(count % 3), command, some_data(count)))
        lines.append(ask(LEAST, command))
        lines.append(ask(MOST, command, address=long(MOST)))
    # Data like that of a write, and more than any command has.
    lines.append(ask(OPEN, 235, TAKEN[236]))
    lines.append(ask(OPEN, 12, TAKEN[17]))
    lines.append(ask(OPEN, 0, some_data(255)))
    lines.append(ask(OPEN, 235, some_data(254)))
    return lines


def tag_questions():
    return [ask(one, 11, tag(one), address=address)
            for one in (with_flags(0), with_flags(3), LEAST, MOST)
            for address in (EVERY, short(one, SECONDARY))]


def writes_taken():
    """Right in count and value; only the key may be against it."""
    return [ask(with_flags(flags), command, data)
            for command, data in TAKEN.items() for flags in range(4)]


def counts():
    lines = []
    for command, data in TAKEN.items():
        right = len(data)
        for count in sorted({0, right - 1, right + 1} - {right, -1}):
            lines.append(ask(with_flags(2), command, (data + b"\x39")[:count]))
        # The count is tried before the key.
        lines.append(ask(with_flags(1), command, data + b"\x39"))
    for command in (17, 38, 236):
        lines.append(ask(OPEN, command, (TAKEN[command] * 255 + bytes(255))[:255]))
    # Wrong in count and in value too.
    lines.append(ask(OPEN, 6, b"\x10\x10"))
    lines.append(ask(OPEN, 59, b"\x00\x00"))
    lines.append(ask(OPEN, 236, b"\x38\x7f\xc0\x00"))
    lines.append(ask(OPEN, 236, b"\x39\x7f\x80\x00\x00\x00"))
    return lines


def untabled():
    lines = []
    for at, command in enumerate(UNTABLED):
        lines.append(ask(with_flags(at % 4), command, some_data((0, 1, 5)[at % 3])))
    lines.append(ask(OPEN, 255, some_data(255)))
    lines.append(ask(OPEN, 234, TAKEN[236], address=long(OPEN)))
    return lines


def long_addresses():
    lines = []
    for command in READING:
        lines.append(ask(OPEN, command, address=long(OPEN, SECONDARY)))
    for command, data in TAKEN.items():
        lines.append(ask(OPEN, command, data,
                         address=(EVERY, long(OPEN, SECONDARY))[command % 2]))
    lines.append(ask(OPEN, 1, address=EVERY_SECONDARY))
    lines.append(ask(OPEN, 77, address=EVERY_SECONDARY))
    lines.append(ask(WORKED, 0, address=EVERY_SECONDARY, preambles=5))
    return lines


def values():
    lines = []
    for address in (0, 3, 14, 15, 16, 17, 128, 255):
        lines.append(ask(with_flags(2), 6, bytes([address])))
    for address in (15, 16):
        lines.append(ask(with_flags(3), 6, bytes([address]), address=long(OPEN)))
        # The key is tried before the value.
        lines.append(ask(with_flags(0), 6, bytes([address])))
    for number in (0, 1, 2, 15, 16, 17, 128, 255):
        lines.append(ask(with_flags(2), 59, bytes([number])))
    for number in (1, 2, 16):
        lines.append(ask(with_flags(3), 59, bytes([number]), address=long(OPEN)))
    for number in (1, 16):
        lines.append(ask(with_flags(1), 59, bytes([number])))
    for data in (b"\x00\x00\x00", b"\xff\xff\xff", b"\x78\x9a\xbc"):
        lines.append(ask(OPEN, 19, data))
    # What is held already is written too, and sets the flag.
    lines.append(ask(OPEN, 17, OPEN[49:73]))
    lines.append(ask(OPEN, 18, OPEN[28:49]))
    for fill in (0x00, 0xFF):
        lines.append(ask(OPEN, 17, bytes([fill]) * 24))
        lines.append(ask(OPEN, 18, bytes([fill]) * 21))
    return lines


def preambles():
    """Every number of them, held and written."""
    lines = []
    for number in range(2, 16):
        one = record(flags=2, preambles=number)
        lines.append(ask(one, 16, preambles=17 - number))
        if number % 4 == 3:
            lines.append(ask(one, 59, bytes([17 - number]), address=long(one)))
    # The longest answer, and the longest after a command that made it so.
    lines.append(ask(record(preambles=15), 12, address=long(OPEN)))
    lines.append(ask(record(preambles=15, flags=2), 17, TAKEN[17], address=EVERY))
    return lines
