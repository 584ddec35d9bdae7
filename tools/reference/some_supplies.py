"""Supplies to try over a rack: around the least that fits, and at the ends."""

from records import FULL_SCALE
from shares import SUPPLY_PARTS, total
from set_up import MOST_SUPPLY


def least(rack):
    """The least supply that the standing setpoints fit."""
    return -(-total(rack) // SUPPLY_PARTS)


def some_supply(chance, rack):
    """A supply, and what it is in words."""
    room = least(rack)
    largest = max(FULL_SCALE.of(one) for one in rack)
    few = 3 * [("least supply", room),
               ("supply a little more", min(room + 1 + chance.below(3), MOST_SUPPLY)),
               ("supply some more", min(room + chance.below(largest), MOST_SUPPLY))]
    return chance.one_of(few + [("largest supply", MOST_SUPPLY),
                                ("any supply", chance.below(MOST_SUPPLY + 1))])


def refused_supply(chance, rack):
    choices = [("supply just too large", MOST_SUPPLY + 1),
               ("supply of 32 bits", 2**32 - 1 - chance.below(2))]
    if least(rack) > 0:
        choices += [("one below the least supply", least(rack) - 1)] * 2
        choices.append(("supply 0 of none", 0))
    return chance.one_of(choices)
