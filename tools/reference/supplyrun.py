#!/usr/bin/env python3
"""Work a panel by recorded events under a supply that is given.

    tools/reference/supplyrun.py SUPPLY RACKFILE < EVENTS

What a recording would have done under another supply: events and lines are
those of linerun, and there are three more kinds of event, a gap with a buffer
of a given length, a look at a record, and another set-up. SUPPLY is a decimal
number of 32 bits; RACKFILE is a record file.
"""

import sys

sys.dont_write_bytecode = True  # leaves no cache folder in the repository

import playing
import supplyevents
from helping import is_helped

MOST = 2**32 - 1
DIGITS = frozenset("0123456789")


def supply_of(word):
    """The number a word is; None unless it is one, in digits alone.

    Zeros in front are digits like others. Python's own reading would take
    signs, spaces, underscores and the digits of other scripts too.
    """
    if word == "" or not DIGITS.issuperset(word):
        return None
    # A long word is judged by its length, since Python may refuse to read it.
    digits = word.lstrip("0") or "0"
    if len(digits) > len(str(MOST)) or int(digits) > MOST:
        return None
    return int(digits)


def output(supply, file, given):
    """All that is printed, from the bytes of a record file and of an input."""
    return playing.output(file, given, supply, supplyevents.line_of)


def lines(supply, file, stream):
    """One line after another; the stream is read as far as each one needs."""
    return playing.lines(file, stream, supply, supplyevents.line_of)


def main(words):
    if is_helped(words):
        return 0
    if len(words) != 2:
        print("usage: supplyrun.py SUPPLY RACKFILE < EVENTS", file=sys.stderr)
        return 2
    word, path = words
    supply = supply_of(word)
    if supply is None:
        print(f"supplyrun: the supply {word!r} is not a number from 0 to {MOST}",
              file=sys.stderr)
        return 1
    return playing.play("supplyrun", path, supply, supplyevents.line_of)


if __name__ == "__main__":
    sys.exit(main(sys.argv[1:]))
