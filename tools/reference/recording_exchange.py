"""The worked exchange with a panel under a supply of 1,500 mL/min, for supplyrun."""

from worked_recordings import exchange

SUPPLY = 1500


def rack():
    return exchange()[-1].file


def events():
    return exchange()[-1].events
