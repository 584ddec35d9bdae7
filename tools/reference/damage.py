"""Communication errors: what is told of a whole frame that is not sound."""

from frames import exclusive_or

PARITY = 1
OVERRUN = 2
FRAMING = 4

COMMUNICATION_ERROR = 128
ADDED = ((PARITY, 64), (OVERRUN, 32), (FRAMING, 16))
WRONG_CHECK = 8


def first_status(frame, marks):
    """The first status for a frame and its characters' marks; None if sound."""
    status = 0
    for mark, added in ADDED:
        if any(some & mark for some in marks):
            status += added
    if exclusive_or(frame) != 0:
        status += WRONG_CHECK
    return COMMUNICATION_ERROR + status if status else None
