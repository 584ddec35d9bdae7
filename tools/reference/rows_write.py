"""Table rows for the writes to a record, but for the setpoint's."""

from chance import Chance
from racktable import hex_of, write_line
from some_records import LEAST, MOST, PLAIN, any_record, finite, record

CEILINGS = (0, 1, 50, 79, 80, 81, 99, 100, 101, 255)

FINITE = (0x00000000, 0x80000000, 0x00000001, 0x80000001, 0x007FFFFF, 0x00800000,
          0x41200000, 0xC1200000, 0x7F7FFFFF, 0xFF7FFFFF)
NOT_FINITE = (0x7F800000, 0xFF800000, 0x7F800001, 0xFF800001, 0x7FC00000,
              0xFFC00000, 0x7FFFFFFF, 0xFFFFFFFF)

# Some of them come round to the text's front, with a run's length added, in
# 8, 16, 32 or 64 bits.
HUGE = (255, 256, 65536, 2**32 - 1, 2**32, 2**63, 2**64 - 25, 2**64 - 24,
        2**64 - 1)


def rows():
    return (numbers() + flags() + samples() + places() + long_runs() + ceilings()
            + random_rows())


def numbers():
    lines = []
    for value in (0, 1, 2, 3, 4, 14, 15, 16, 17, 31, 127, 128, 129, 254, 255):
        lines.append(write_line(PLAIN, 255, f"polling {value}"))
        lines.append(write_line(PLAIN, 255, f"preambles {value}"))
    for one in (LEAST, MOST):
        for value in (0, 2, 15, 16):
            lines.append(write_line(one, 100, f"polling {value}"))
            lines.append(write_line(one, 100, f"preambles {value}"))
    for value in (0, 1, 255, 256, 65535, 65536, 0x123456, 2**24 - 2, 2**24 - 1, 2**24,
                  2**24 + 1, 2**31, 2**32 - 1):
        lines.append(write_line(PLAIN, 255, f"assembly {value}"))
    lines.append(write_line(MOST, 100, "assembly 0"))
    lines.append(write_line(LEAST, 100, f"assembly {2**24 - 1}"))
    return lines


def flags():
    return [write_line(record(flags=before), 255, f"{kind} {on}")
            for before in range(4) for kind in ("changed", "key") for on in (0, 1)]


def sample(flow, temperature):
    return f"sample {flow:08X} {temperature:08X}"


def samples():
    lines = []
    for at, pattern in enumerate(FINITE):
        lines.append(write_line(PLAIN, 255, sample(pattern, FINITE[-1 - at])))
    for pattern in NOT_FINITE:
        lines.append(write_line(PLAIN, 255, sample(pattern, 0x41B80000)))
        lines.append(write_line(PLAIN, 255, sample(0x43480000, pattern)))
    for flow, temperature in ((0x7F800000, 0x7F800000), (0x7FC00000, 0xFF800000),
                              (0xFFFFFFFF, 0xFFFFFFFF)):
        lines.append(write_line(PLAIN, 255, sample(flow, temperature)))
    lines.append(write_line(LEAST, 100, sample(0x7F7FFFFF, 0xFF7FFFFF)))
    lines.append(write_line(MOST, 100, sample(0, 0)))
    return lines


def some_run(length):
    """Unlike the text of any record here, byte by byte."""
    return bytes((0xE0 + 11 * at) % 256 for at in range(length))


def text(place, run):
    return f"text {place} {hex_of(run)}"


def places():
    lines = []
    for place in (0, 21, 44, 45, 46) + HUGE:
        for length in (0, 1, 24, 25):
            lines.append(write_line(PLAIN, 255, text(place, some_run(length))))
    for place, length in ((1, 24), (20, 24), (20, 25), (21, 23), (22, 23), (22, 24),
                          (42, 3), (43, 2), (43, 3), (44, 2), (47, 0), (47, 1),
                          (72, 0), (79, 1), (2**64 - 2, 2), (2**64 - 45, 0)):
        lines.append(write_line(PLAIN, 255, text(place, some_run(length))))
    # Tag, descriptor, date and message, whole, and over their borders.
    for place, length in ((0, 6), (6, 12), (18, 3), (21, 24), (5, 2), (17, 5)):
        lines.append(write_line(PLAIN, 255, text(place, some_run(length))))
    lines.append(write_line(LEAST, 100, text(0, b"\xff" * 24)))
    lines.append(write_line(MOST, 100, text(21, bytes(24))))
    return lines


def long_runs():
    """Too long, though some would fit the text."""
    return [write_line(PLAIN, 255, text(place, some_run(length)))
            for place, length in ((0, 26), (0, 45), (0, 46), (20, 25), (0, 80),
                                  (45, 45), (0, 256), (21, 280))]


def ceilings():
    """The ceiling told is the smaller, whatever is written or refused."""
    lines = []
    for ceiling in CEILINGS:
        for kind in ("polling 9", "polling 16", "key 1"):
            lines.append(write_line(PLAIN, ceiling, kind))
    for kind in ("preambles 9", "preambles 1", "assembly 5", f"assembly {2**24}",
                 "changed 1", sample(0x3F800000, 0x40000000), sample(0x7F800000, 0),
                 text(6, b"MFC-1234"), text(45, b"M")):
        lines.append(write_line(MOST, 60, kind))
        lines.append(write_line(LEAST, 60, kind))
    return lines


def random_rows():
    chance = Chance(37)
    lines = []
    for _ in range(15):
        for kind in (f"polling {chance.below(20)}",
                     f"preambles {chance.below(20)}",
                     f"assembly {chance.below(2**25)}",
                     f"{chance.one_of(('changed', 'key'))} {chance.below(2)}",
                     sample(finite(chance), finite(chance)),
                     text(chance.below(48), chance.bytes(chance.below(27)))):
            lines.append(write_line(any_record(chance), chance.below(256), kind))
    return lines
