"""One line of the recordings' table: a recording, and what is printed of it.

The line feeds of what is printed are written as `/`.
"""

from recording import Recording, expected
from table import bytes_of, hex_of


def run_line(recording):
    supply = "" if recording.supply is None else f" {recording.supply}"
    return (f"{recording.program}{supply} {hex_of(recording.file)}"
            f" {hex_of(recording.events)}")


def answer(line):
    printed = expected(recording_of(line)).decode("ascii")
    return printed.replace("\n", "/") or "-"


def recording_of(line):
    program, *supply, file, given = line.split(" ")
    supply = int(supply[0]) if supply else None
    return Recording(program, supply, bytes_of(file), bytes_of(given))
