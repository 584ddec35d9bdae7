"""Whether a list of characters is a sound transmission but for one character."""

from frames import PREAMBLE, WIDTH_OF_START, count_preambles, exclusive_or, read
from refusal import Refused


def is_damaged(line):
    return any(was_damaged(line, place, other)
               for place in range(len(line)) for other in candidates(line, place))


def candidates(line, place):
    """Bytes that can have been sent at a place, where the rest is sound.

    A preamble, a start, or what makes the check right.
    """
    some = bytes(byte for byte, _ in line)
    right = some[place] ^ exclusive_or(some[count_preambles(some):])
    return {PREAMBLE, *WIDTH_OF_START, right, some[place]}


def was_damaged(line, place, other):
    """Whether it was sound when this byte was sent, and this character is damaged."""
    sent = bytes(byte for byte, _ in line)
    sent = sent[:place] + bytes([other]) + sent[place + 1:]
    try:
        start = read(sent).preambles
    except Refused:
        return False
    if any(marks for at, (_, marks) in enumerate(line) if at >= start and at != place):
        return False
    byte, marks = line[place]
    return byte != other or (place >= start and marks != 0)
