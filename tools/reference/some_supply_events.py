"""Events to try that only supplyrun has, put together byte by byte."""

ZEROS = bytes(10)


def gap_of(room):
    """A gap with a buffer of a given length."""
    return bytes([5, room]) + ZEROS


def look(channel):
    return bytes([6, channel]) + ZEROS


def set_up(supply):
    return bytes([7, 0, 0, 0]) + supply.to_bytes(4, "big") + ZEROS[:4]
