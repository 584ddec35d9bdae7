"""Setpoints in percent: loads, what a ceiling admits, units, shares."""

from math import ceil

from patterns import INFINITE, SIGN, is_finite, is_nan, nearest, worth
from refusal import invalid_selection, too_large, too_small

PARTS = 1024  # of one percent
MOST_FULL_SCALE = 1_000_000


def is_below_zero(pattern):
    """Minus zero is not below zero; minus infinity is."""
    return not is_nan(pattern) and pattern > SIGN


def load(pattern):
    """The least whole number of parts not below a finite worth from 0 on."""
    return ceil(worth(pattern) * PARTS)


def sort(pattern):
    """Which of the five sorts a pattern is; the load where it has one."""
    if is_nan(pattern):
        return "nan"
    if is_below_zero(pattern):
        return "below zero"
    if pattern == INFINITE:
        return "infinite"
    if load(pattern) >= 2**32:
        return "overload"
    return f"load {load(pattern)}"


def admitted(pattern, ceiling):
    """The load of a pattern under a ceiling of whole percents."""
    if is_nan(pattern):
        raise invalid_selection()
    if is_below_zero(pattern):
        raise too_small()
    if pattern == INFINITE or load(pattern) > ceiling * PARTS:
        raise too_large()
    return load(pattern)


def is_lawful(pattern):
    """Minus zero is worth 0, yet not lawful: zero has one pattern only."""
    return pattern != SIGN and is_finite(pattern) and 0 <= worth(pattern) <= 100


def is_full_scale(number):
    return 1 <= number <= MOST_FULL_SCALE


def units(pattern, full_scale):
    """Percent of the full scale, as a pattern; None where either is not lawful.

    Rounded after each of the two steps, as binary32 arithmetic does.
    """
    if not is_lawful(pattern) or not is_full_scale(full_scale):
        return None
    product = nearest(worth(pattern) * full_scale)
    return nearest(worth(product) / 100)


def share(some_load, full_scale):
    return some_load * full_scale
