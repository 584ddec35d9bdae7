"""Table rows for short buffers and records that are not lawful."""

from rows_read import request
from some_channels import OPEN, ask, heard, long
from some_records import record

# The call takes fields, which have two flags and no reserved bytes: faults of byte
# 9 and of bytes 73 to 79 cannot come before it.
BAD = (record(polling=16), record(preambles=1), record(preambles=16),
       record(setpoint=0x42C80001), record(setpoint=0x80000000), record(ceiling=101),
       record(full_scale=0), record(full_scale=1_000_001), record(flow=0x7F800000),
       record(temperature=0xFFC00000))


def rows():
    lines = []
    for room in (0, 12, 63, 64, 65, 300):
        lines.append(ask(OPEN, 16, room=room))
    for room in (49, 50, 63, 64):
        longest = record(preambles=15, flags=2)
        lines.append(ask(longest, 12, address=long(longest), room=room))
    # Silence too wants the buffer.
    for room in (0, 63, 64):
        lines.append(heard(OPEN, b"", room=room))
        lines.append(ask(OPEN, 16, address=b"\x84", room=room))
    for one in BAD:
        lines.append(ask(one, 16, address=long(one)))
    # The buffer is tried before the record, the record before all else.
    for room in (63, 64):
        lines.append(ask(BAD[1], 16, room=room))
        lines.append(heard(BAD[-1], b"\xff", room=room))
        lines.append(heard(BAD[3], request(b"\x8f", 16, b""), room=room))
        lines.append(heard(BAD[5], request(b"\x83", 16, b"")[:-1] + b"\x00", b"\x07", room))
    return lines
