"""Table rows of one channel that is asked again and again.

Each row's record is the one that the row before it left, so that what a
command wrote is what the next one finds.
"""

from linetable import answer
from some_channels import EVERY, SECONDARY, ask, long, short, tag
from some_records import record

TEXT = bytes((0x91 + 7 * at) % 256 for at in range(24))
NEW_TAG = TEXT[:6]


def rows():
    return series(record(flags=2, polling=1, preambles=2, ceiling=100)) + served()


def then(lines, line):
    """One row more; the record after it."""
    lines.append(line)
    return bytes.fromhex(answer(line).split(" ")[-1])


def series(one):
    old = one
    lines = []
    one = then(lines, ask(one, 11, tag(one), address=EVERY))
    # More preambles from this very answer on.
    one = then(lines, ask(one, 59, b"\x07"))
    one = then(lines, ask(one, 0))
    one = then(lines, ask(one, 59, b"\x10"))
    one = then(lines, ask(one, 59, b"\x02"))
    one = then(lines, ask(one, 38))
    one = then(lines, ask(one, 16))
    # Another polling address: the answer bears the one asked by.
    one = then(lines, ask(one, 6, b"\x0f"))
    lines.append(ask(one, 16, address=short(old)))
    one = then(lines, ask(one, 16, address=short(one)))
    one = then(lines, ask(one, 6, b"\x00", address=long(one)))
    one = then(lines, ask(one, 16, address=b"\x80"))
    one = then(lines, ask(one, 16, address=b"\x00"))
    lines.append(ask(one, 16, address=b"\x8f"))
    # Another tag: the question for the old one is not answered any more.
    one = then(lines, ask(one, 18, TEXT[:21]))
    lines.append(ask(one, 11, tag(old), address=EVERY))
    one = then(lines, ask(one, 11, NEW_TAG, address=EVERY))
    one = then(lines, ask(one, 13))
    one = then(lines, ask(one, 17, TEXT))
    one = then(lines, ask(one, 12))
    one = then(lines, ask(one, 19, b"\xfe\xdc\xba"))
    one = then(lines, ask(one, 16))
    one = then(lines, ask(one, 38, address=short(one, SECONDARY)))
    # Setpoints, and none of them a change of configuration.
    for pattern in ("42C80000", "41200001", "42C80001", "80000000", "7FC00000"):
        one = then(lines, ask(one, 236, bytes.fromhex("39" + pattern), supply=1000))
        one = then(lines, ask(one, 235, supply=1000))
    one = then(lines, ask(one, 236, bytes.fromhex("3942480000"), supply=499))
    one = then(lines, ask(one, 235, supply=499))
    one = then(lines, ask(one, 236, bytes.fromhex("3942480000"), supply=500))
    one = then(lines, ask(one, 235, supply=500))
    return lines


def served():
    """A channel with its key shut tells all it has, and keeps it."""
    one = record(flags=1, polling=12, preambles=3)
    lines = []
    for command, data in ((38, b""), (0, b""), (236, bytes(5)), (235, b""), (59, b"\x09"),
                          (1, b""), (13, b"")):
        one = then(lines, ask(one, command, data))
    return lines
