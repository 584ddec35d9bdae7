"""A recording played: a record file and events to lines."""

import io
import sys
from pathlib import Path

import events
import racks
from panel import Panel
from refusal import Refused


def output(file, given, supply, line_of):
    """All that is printed, from the bytes of a record file and of an input."""
    return b"".join(lines(file, io.BytesIO(given), supply, line_of))


def lines(file, stream, supply, line_of):
    """One line after another; the stream is read as far as each one needs."""
    try:
        panel = Panel(racks.shelf(file))
        panel.set_up(supply)
    except Refused as refused:
        yield printed(events.refusal_line(refused))
        return
    while event := stream.read(events.LENGTH):
        line = line_of(panel, event)
        if line is not None:
            yield printed(line)


def printed(line):
    return f"{line}\n".encode("ascii")


def play(name, path, supply, line_of):
    """From a record file and standard input to standard output; the exit status."""
    try:
        file = Path(path).read_bytes()
    except OSError as error:
        print(f"{name}: {path}: {error.strerror}", file=sys.stderr)
        return 1
    for line in lines(file, sys.stdin.buffer, supply, line_of):
        sys.stdout.buffer.write(line)
        sys.stdout.buffer.flush()
    return 0
