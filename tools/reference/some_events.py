"""Events to try, put together byte by byte."""

ZEROS = bytes(8)


def character(byte, marks=0):
    return bytes([1, byte, marks, 0]) + ZEROS


def characters(some, marks=b""):
    """Marks left out at the end are 0."""
    marks = marks.ljust(len(some), b"\x00")
    return b"".join(character(*one) for one in zip(some, marks))


def gap():
    return bytes([2, 0, 0, 0]) + ZEROS


def sample(channel, flow, temperature):
    return (bytes([3, channel, 0, 0]) + flow.to_bytes(4, "big")
            + temperature.to_bytes(4, "big"))


def key(channel, is_open):
    return bytes([4, channel, is_open, 0]) + ZEROS


def sent(some, marks=b""):
    """A transmission and the gap that ends it."""
    return characters(some, marks) + gap()
