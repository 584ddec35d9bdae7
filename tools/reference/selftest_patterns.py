"""Tests of binary32 patterns and of setpoints, run by selftest.py."""

import struct
from fractions import Fraction

import setpoints
from chance import Chance
from expectation import code_of, expect
from patterns import INFINITE, SIGN, is_finite, is_nan, nearest, worth
from some_patterns import any_pattern, edges, exactly, lawful, powers, whole_loads

ROUNDS = 2000


def held(pattern):
    """The library's opinion; a double holds every binary32 number exactly."""
    return struct.unpack(">f", pattern.to_bytes(4, "big"))[0]


def rounded(number):
    """The library's rounding of a double, which is one rounding."""
    try:
        return int.from_bytes(struct.pack(">f", number), "big")
    except OverflowError:
        return INFINITE


def worths():
    chance = Chance(3)
    for pattern in edges() + powers() + [chance.below(2**32) for _ in range(ROUNDS)]:
        number = held(pattern)
        expect(f"{pattern:08X} is no number", is_nan(pattern), number != number)
        expect(f"{pattern:08X} is finite", is_finite(pattern),
               number - number == 0)
        if is_finite(pattern):
            expect(f"worth of {pattern:08X}", worth(pattern), Fraction(number))
            expect(f"{pattern:08X} from its worth", nearest(abs(worth(pattern))),
                   pattern % SIGN)


def roundings():
    chance = Chance(4)
    for _ in range(ROUNDS):
        pattern = chance.below(INFINITE - 1)
        under, above = worth(pattern), worth(pattern + 1)
        middle = (under + above) / 2
        expect(f"tie behind {pattern:08X}", nearest(middle), pattern + pattern % 2)
        expect("tie in the library", rounded(float(middle)), pattern + pattern % 2)
        # Nearer to the tie than any double is.
        little = (above - under) / 2**60
        expect("just under a tie", nearest(middle - little), pattern)
        expect("just over a tie", nearest(middle + little), pattern + 1)
        double = float(under) + float(above - under) * chance.source.random()
        expect(f"rounding of {double!r}", nearest(Fraction(double)), rounded(double))
    # By way of a double this would be a tie, and come out as 3F800000.
    expect("once", nearest(1 + Fraction(1, 2**24) + Fraction(1, 2**60)), 0x3F800001)
    # Half a step past the last finite number rounding turns to infinity.
    turn = (worth(0x7F7FFFFF) + 2**128) / 2
    expect("before the turn", nearest(turn - 1), 0x7F7FFFFF)
    expect("at the turn", nearest(turn), INFINITE)
    expect("past all", nearest(Fraction(2**200)), INFINITE)


def loads():
    chance = Chance(5)
    some = edges() + powers() + whole_loads() + [any_pattern(chance) for _ in range(ROUNDS)]
    for pattern in some:
        if not is_finite(pattern) or pattern >= SIGN:
            continue
        load = setpoints.load(pattern)
        # A second way: whole steps of the least pattern, 2**-149.
        exponent, fraction = divmod(pattern, 2**23)
        steps = (2**23 + fraction) << exponent - 1 if exponent else fraction
        expect(f"load of {pattern:08X}", load, -(-steps // 2**139))
        word = "overload" if held(pattern) >= 2**22 else f"load {load}"
        expect(f"sort of {pattern:08X}", setpoints.sort(pattern), word)
    for parts in range(0, 110000, 7):
        pattern = exactly(parts / 1024)
        expect(f"{parts} parts", setpoints.load(pattern), parts)
        expect(f"over {parts} parts", setpoints.load(pattern + 1), parts + 1)


def ceilings():
    for ceiling in range(256):
        pattern = exactly(ceiling)
        expect(f"at {ceiling}", setpoints.admitted(pattern, ceiling), 1024 * ceiling)
        expect(f"over {ceiling}", code_of(setpoints.admitted, pattern + 1, ceiling), 3)
        for refused, code in ((INFINITE, 3), (0x7F7FFFFF, 3), (0x80000001, 4),
                              (0xFF800000, 4), (0x7FC00000, 2), (0xFFFFFFFF, 2)):
            expect(f"{refused:08X} under {ceiling}",
                   code_of(setpoints.admitted, refused, ceiling), code)
        expect(f"minus zero under {ceiling}", setpoints.admitted(SIGN, ceiling), 0)


def lawfuls():
    chance = Chance(6)
    for pattern in edges() + [any_pattern(chance) for _ in range(ROUNDS)]:
        # From zero on, patterns stand in the order of their worth.
        expect(f"{pattern:08X} lawful", setpoints.is_lawful(pattern),
               pattern <= 0x42C80000)


def units():
    chance = Chance(7)
    for _ in range(ROUNDS):
        pattern, full_scale = lawful(chance), 1 + chance.below(1000000)
        found = setpoints.units(pattern, full_scale)
        # A second way, in doubles: the product is exact in one, and where the
        # quotient is not subnormal a double is wide enough to round through.
        product = held(rounded(held(pattern) * full_scale))
        if product >= 2.0 ** -119:
            expect(f"units of {pattern:08X} {full_scale}", found, rounded(product / 100))
        expect("within the scale", held(found) <= full_scale, True)
    for full_scale in (1, 3, 999, 1000000):
        expect("all of the scale", setpoints.units(exactly(100), full_scale),
               exactly(full_scale))
        expect("none of the scale", setpoints.units(0, full_scale), 0)
        expect("no setpoint", setpoints.units(SIGN, full_scale), None)
    for full_scale in (0, 1000001, 2**32 - 1):
        expect("no full scale", setpoints.units(0, full_scale), None)


def run():
    worths()
    roundings()
    loads()
    ceilings()
    lawfuls()
    units()
