"""Table rows for reading which request a command and its data are."""

from linetable import request_line
from rows_make import some_data

WRITES = ((6, 1), (17, 24), (18, 21), (19, 3), (59, 1), (236, 5))
BARE = (0, 1, 2, 10, 12, 13, 16, 38, 58, 60, 139, 145, 235, 237, 255)


def rows():
    lines = [request_line(11, some_data(count)) for count in (0, 5, 6, 7, 12)]
    lines += [request_line(11, bytes([fill]) * 6) for fill in (0x00, 0xFF)]
    for command, right in WRITES:
        for count in sorted({0, right - 1, right, right + 1, 6}):
            lines.append(request_line(command, some_data(count)))
    lines.append(request_line(17, some_data(255)))
    lines.append(request_line(236, some_data(255)))
    for command in BARE:
        lines.append(request_line(command, b""))
    for command in (0, 235):
        lines.append(request_line(command, some_data(6)))
    return lines
