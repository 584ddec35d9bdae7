"""Where what a program prints is not what the reference prints."""

import io

import linerun
import supplyrun
from events import LENGTH


def lines_of(recording):
    """The reference's lines, each with the number of the event that printed it.

    That of a refused file or set-up is None.
    """
    stream = io.BytesIO(recording.events)
    if recording.program == "linerun":
        lines = linerun.lines(recording.file, stream)
    else:
        lines = supplyrun.lines(recording.supply, recording.file, stream)
    # No line is given before its own event was read, and none after the next one.
    return [(number_of(stream.tell()), line) for line in lines]


def number_of(read):
    return None if read == 0 else (read - 1) // LENGTH


def difference(recording, found):
    """The first difference in words; None where there is none."""
    wanted = lines_of(recording)
    if b"".join(line for _, line in wanted) == found:
        return None
    found_lines = found.splitlines(keepends=True)
    at = 0
    while [line for _, line in wanted[at:at + 1]] == found_lines[at:at + 1]:
        at += 1
    number = wanted[at][0] if at < len(wanted) else len(recording.events) // LENGTH
    return (f"{where(recording, number)}\n"
            f"  reference  {shown([line for _, line in wanted], at)}\n"
            f"  program    {shown(found_lines, at)}")


def where(recording, number):
    if number is None:
        return "before any event"
    event = recording.events[number * LENGTH:(number + 1) * LENGTH]
    return f"event {number} ({event.hex(' ').upper() or 'behind the last'})"


def shown(lines, at):
    if at >= len(lines):
        return "nothing"
    text = lines[at].decode("latin-1").rstrip("\n")
    return text if text.isprintable() else repr(text)
