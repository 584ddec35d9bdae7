#!/usr/bin/env python3
"""Work a panel by recorded events, and print what it answers.

    tools/reference/linerun.py RACKFILE < EVENTS

RACKFILE is a record file; events are 12 bytes each. A line is written as soon
as its event is there.
"""

import sys

sys.dont_write_bytecode = True  # leaves no cache folder in the repository

import events
import playing
from helping import is_helped

SUPPLY = 15_000_000


def output(file, given):
    """All that is printed, from the bytes of a record file and of an input."""
    return playing.output(file, given, SUPPLY, events.line_of)


def lines(file, stream):
    """One line after another; the stream is read as far as each one needs."""
    return playing.lines(file, stream, SUPPLY, events.line_of)


def main(words):
    if is_helped(words):
        return 0
    if len(words) != 1:
        print("usage: linerun.py RACKFILE < EVENTS", file=sys.stderr)
        return 2
    return playing.play("linerun", words[0], SUPPLY, events.line_of)


if __name__ == "__main__":
    sys.exit(main(sys.argv[1:]))
