"""Patterns of binary32 as decimal numbers or as themselves, 0x41C80000, and back."""

import re
import struct
from decimal import Decimal
from fractions import Fraction

MINUS_ZERO = 0x80000000
INFINITY = 0x7F800000

# A decimal number of more characters is shown as its pattern.
LONGEST_DECIMAL = 12


def is_finite(pattern):
    return pattern & INFINITY != INFINITY


def pattern_of(text):
    """The pattern that a text is or is nearest to; None for a text out of form."""
    if re.fullmatch("0x[0-9A-Fa-f]{8}", text):
        return int(text, 16)
    if re.fullmatch(r"-?[0-9]{1,40}(\.[0-9]{1,60})?", text):
        return nearest_pattern(text)
    return None


def text_of(pattern):
    """The shortest text that makes the pattern again; a long decimal gives way to 0x.."""
    decimal = shortest_decimal(pattern) if is_finite(pattern) else None
    return decimal if decimal and len(decimal) <= LONGEST_DECIMAL else f"0x{pattern:08X}"


def nearest_pattern(decimal):
    """The pattern nearest to a decimal number, rounded once, at a tie to the even one."""
    smallest_values = abs(Fraction(decimal)) * 2**149
    # So many low bits that 24 are left.
    dropped = max(int(smallest_values).bit_length() - 24, 0)
    pattern = min(dropped * 2**23 + round(smallest_values / 2**dropped), INFINITY)
    return pattern + MINUS_ZERO if decimal.startswith("-") else pattern


def shortest_decimal(pattern):
    """The decimal number of fewest digits whose nearest pattern this is."""
    (value,) = struct.unpack(">f", pattern.to_bytes(4, "big"))
    decimals = (format(Decimal(f"{value:.{digits}g}"), "f") for digits in range(1, 10))
    return next(decimal for decimal in decimals if nearest_pattern(decimal) == pattern)
