"""Setpoints to ask a channel for, by the edges of all that can refuse them."""

from records import CEILING, FULL_SCALE, SETPOINT
from shares import SUPPLY_PARTS, total
from setpoints import PARTS
from some_patterns import any_pattern, exactly, lawful

MINUS_ZERO = 0x80000000
INFINITE = 0x7F800000
HUNDRED = 0x42C80000
LARGEST = 0x7F7FFFFF
MANTISSAS = 2**23


def some_setpoint(chance, panel, channel):
    """A pattern, and what it is in words."""
    one = panel.rack[channel]
    ceiling = exactly(CEILING.of(one))
    named = [
        ("any lawful setpoint", lawful(chance)), ("any pattern", any_pattern(chance)),
        ("setpoint held already", SETPOINT.of(one)), ("setpoint zero", 0),
        ("setpoint at the ceiling", ceiling), ("setpoint just above it", ceiling + 1),
        ("setpoint just below it", max(ceiling, 1) - 1),
        ("setpoint subnormal", 1 + chance.below(MANTISSAS - 1)),
        ("setpoint 80000000", MINUS_ZERO),
        ("setpoint below zero", MINUS_ZERO + 1 + chance.below(INFINITE - 1)),
        ("setpoint infinite", INFINITE), ("setpoint minus infinite", MINUS_ZERO + INFINITE),
        ("setpoint not a number", INFINITE + chance.one_of((0, MINUS_ZERO)) + 1
         + chance.below(MANTISSAS - 1)),
        ("setpoint 42C80001", HUNDRED + 1), ("setpoint 7F7FFFFF", LARGEST),
    ]
    on_the_edge = by_supply(panel, channel)
    if on_the_edge and chance.below(2) == 0:
        return chance.one_of(on_the_edge)
    return chance.one_of(named)


def by_supply(panel, channel):
    """The most that the supply leaves to a channel, and the next pattern above."""
    one = panel.rack[channel]
    others = total(panel.rack[:channel] + panel.rack[channel + 1:])
    most = (panel.supply * SUPPLY_PARTS - others) // FULL_SCALE.of(one)
    if not 0 <= most < CEILING.of(one) * PARTS:
        return []
    pattern = exactly(most / PARTS)
    return [("setpoint that just fits", pattern),
            ("setpoint that just does not fit", pattern + 1)]
