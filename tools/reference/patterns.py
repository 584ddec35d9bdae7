"""Binary32 patterns: what they are worth, and which is nearest to a number."""

from fractions import Fraction

SIGN = 0x80000000
INFINITE = 0x7F800000


def is_nan(pattern):
    return pattern % SIGN > INFINITE


def is_finite(pattern):
    return pattern % SIGN < INFINITE


def worth(pattern):
    """The exact number a finite pattern stands for; both zeros are 0."""
    exponent = pattern % SIGN >> 23
    fraction = pattern % 2**23
    if exponent == 0:
        # Subnormal: the scale of exponent 1, without the leading one.
        size = Fraction(fraction, 2**149)
    else:
        size = (2**23 + fraction) * Fraction(2) ** (exponent - 150)
    return -size if pattern & SIGN else size


def nearest(number):
    """The pattern nearest to a number not below zero; at a tie the even one.

    Patterns without a sign stand in the order of their worth, so the two
    around the number are found by halving. Plus infinity takes part with what
    it would be worth were it the next finite one, which is where rounding
    turns to it.
    """
    if number >= worth(INFINITE):
        return INFINITE
    under, above = 0, INFINITE
    while above - under > 1:
        middle = (under + above) // 2
        if worth(middle) <= number:
            under = middle
        else:
            above = middle
    up_to = number - worth(under)
    down_to = worth(above) - number
    if up_to == down_to:
        return under if under % 2 == 0 else above
    return under if up_to < down_to else above
