"""Table rows for setpoints in units, and for shares."""

from chance import Chance
from patterns import nearest, worth
from racktable import share_line, units_line
from setpoints import units
from some_patterns import (any_pattern, beside, edges, exactly, lawful, percents,
                           powers)

FULL_SCALES = (0, 1, 2, 3, 999, 1000, 999999, 1000000, 1000001, 4294967295)
WHOLE = 2**32 - 1


def rows():
    return (full_scales() + unlawful() + whole_percents() + ties()
            + two_roundings() + random_rows() + shares())


def full_scales():
    patterns = [0x00000000, 0x00000001, 0x007FFFFF, 0x00800000, 0x3A800000,
                0x3DCCCCCD, 0x3F800000, 0x41C80000, 0x42C7FFFF, 0x42C80000]
    return [units_line(pattern, full_scale)
            for pattern in patterns for full_scale in FULL_SCALES]


def unlawful():
    lines = [units_line(pattern, 1000) for pattern in edges()]
    lines += [units_line(pattern, full_scale)
              for pattern in (0x80000000, 0x42C80001, 0x7FC00000)
              for full_scale in (0, 1, 1000000, 1000001)]
    # Some would be full scales again if they were cut to fewer bits.
    lines += [units_line(exactly(50), full_scale)
              for full_scale in (2**16, 2**20, 2**24 + 1, 2**31, 2**31 + 1, WHOLE)]
    return lines


def whole_percents():
    """Each whole percent of a full scale of its own, and powers of two."""
    lines = [units_line(pattern, 1 + 9973 * at % 1000000)
             for at, pattern in enumerate(percents())]
    lines += [units_line(pattern, (1, 200, 1000000)[at % 3])
              for at, pattern in enumerate(powers(-149, -118) + powers(-12, 6))]
    return lines


def ties():
    """Just between two patterns, and the patterns beside such a tie."""
    lines = []
    # Odd times 3 takes 25 bits: the product is a tie.
    for pattern in (0x3F800001, 0x41A00001, 0x42800001, 0x42800003, 0x42A00005,
                    0x42AAAAA7, 0x42AAAAA9):
        lines += [units_line(near, 3) for near in beside([pattern])]
    # Half, one and a half, two and a half of the least pattern.
    for steps in (50, 150, 250, 350):
        lines += [units_line(near, 1) for near in beside([steps])]
        lines.append(units_line(steps // 50, 50))
        lines.append(units_line(steps // 25, 25))
    # Around the border between subnormal and normal results.
    lines += [units_line(near, 1)
              for near in beside([nearest(worth(0x00800000) * 100)])]
    return lines


def two_roundings():
    """Rows that tell rounding twice in this order from any other way."""
    chance = Chance(31)
    once, other_order = [], []
    while len(once) < 60 or len(other_order) < 30:
        pattern = exactly(1) + chance.below(exactly(100) - exactly(1))
        full_scale = 1 + chance.below(1000000)
        found = units(pattern, full_scale)
        if found != nearest(worth(pattern) * full_scale / 100):
            once.append(units_line(pattern, full_scale))
        elif found != nearest(worth(nearest(worth(pattern) / 100)) * full_scale):
            other_order.append(units_line(pattern, full_scale))
    return once[:60] + other_order[:30]


def random_rows():
    chance = Chance(32)
    lines = [units_line(lawful(chance), 1 + chance.below(1000000)) for _ in range(110)]
    lines += [units_line(lawful(chance), 1 + chance.below(1000)) for _ in range(50)]
    lines += [units_line(any_pattern(chance), chance.below(2**21)) for _ in range(30)]
    return lines


def shares():
    chance = Chance(33)
    some = (0, 1, 2, 65535, 65536, 102400, 1000000, WHOLE)
    lines = [share_line(load, full_scale) for load in some for full_scale in some]
    lines += [share_line(chance.below(102401), 1 + chance.below(1000000))
              for _ in range(10)]
    lines += [share_line(chance.below(2**32), chance.below(2**32)) for _ in range(10)]
    return lines
