"""A whole transmission: its request, and what is wrong with it."""

from collections import namedtuple

from damage import first_status
from frames import count_preambles, whole_after
from refusal import Refused

# The request; the frame from start to check; the first status of a
# communication error, None where the transmission is sound.
Heard = namedtuple("Heard", "request frame error")


def hear(received, marks):
    """Of all bytes and their marks; None where they are not whole."""
    preambles = count_preambles(received)
    # The preambles' marks count for nothing.
    return hear_span(preambles, received[preambles:], marks[preambles:])


def hear_span(preambles, span, marks):
    """The same of the bytes from the start on and of any marks on them."""
    try:
        request = whole_after(preambles, span)
    except Refused:
        return None
    return Heard(request, span, first_status(span, marks))
