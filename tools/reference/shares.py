"""What channels draw of the supply header, by their setpoints."""

from records import FULL_SCALE, SETPOINT
from setpoints import load, share

SUPPLY_PARTS = 102_400  # the load of 100 percent


def share_of(record):
    """A setpoint above its ceiling counts in full."""
    return share(load(SETPOINT.of(record)), FULL_SCALE.of(record))


def total(some):
    return sum(share_of(record) for record in some)


def fit(supply, some_total):
    return some_total <= supply * SUPPLY_PARTS
