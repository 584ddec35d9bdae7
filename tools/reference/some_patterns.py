"""Binary32 patterns to try: the edges of every rule, and those beside them."""

import struct

NAMED = (
    0x00000000, 0x00000001, 0x007FFFFF, 0x00800000,
    0x80000000, 0x80000001, 0x807FFFFF, 0x80800000,
    0x3A800000,  # one part of 1,024
    0x3DCCCCCD, 0x3F800000, 0x41C80000, 0x42480000, 0x42C80000,
    0x437F0000,  # 255 percent, the highest ceiling
    0x4A800000,  # the first load of 2**32
    0x7F7FFFFF, 0x7F800000, 0x7FC00000, 0x7FFFFFFF,
    0xBA800000, 0xBF800000, 0xC2C80000,
    0xFF7FFFFF, 0xFF800000, 0xFFC00000, 0xFFFFFFFF,
)

# Loads around turning points: of percents, of bytes, of the 24 bits held.
LOADS = (1, 2, 3, 5, 10, 102, 103, 255, 256, 257, 1000, 1023, 1024, 1025, 10240,
         25599, 25600, 25601, 51200, 65535, 65536, 65537, 99999, 101376,
         102399, 102400, 102401, 103424, 261119, 261120, 261121, 262144,
         2**23 - 1, 2**23, 2**24 - 1, 2**24, 2**31, 2**32 - 256)


def exactly(number):
    """The pattern of a number that binary32 holds without rounding."""
    held = struct.pack(">f", number)
    if struct.unpack(">f", held)[0] != number:
        raise ValueError(f"rounded: {number}")
    return int.from_bytes(held, "big")


def beside(patterns):
    """Each pattern between the one before and the one after it."""
    return [pattern + step for pattern in patterns for step in (-1, 0, 1)
            if 0 <= pattern + step < 2**32]


def edges():
    return beside(NAMED)


def powers(least=-149, most=127):
    return [exactly(2.0 ** power) for power in range(least, most + 1)]


def percents(most=100):
    return [exactly(percent) for percent in range(most + 1)]


def whole_loads():
    """Loads that are whole, and just above and below whole."""
    return beside(exactly(load / 1024) for load in LOADS)


def lawful(chance):
    """A lawful pattern: any, one of a usual percent, or a whole load."""
    turn = chance.below(3)
    if turn == 0:
        return chance.below(exactly(100) + 1)
    if turn == 1:
        return exactly(1) + chance.below(exactly(100) - exactly(1) + 1)
    return exactly(chance.below(102401) / 1024)


def any_pattern(chance):
    """All 32 bits, or around the percents that ceilings part."""
    if chance.below(2) == 0:
        return chance.below(2**32)
    return exactly(0.25) + chance.below(exactly(512) - exactly(0.25))
