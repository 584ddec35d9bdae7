"""Tests of the recordings, run by selftest.py."""

import io

import recording_mixed
import recordings
from expectation import expect
from linerun import lines, output


def in_time():
    """A line is there before more is read than its own event."""
    rack, given = recording_mixed.rack(), recording_mixed.events()
    stream = io.BytesIO(given)
    found = b""
    for line in lines(rack, stream):
        found += line
        expect("so far", found, output(rack, given[:stream.tell()]))
    expect("in the end", found, output(rack, given))


def mixed_covers():
    given = recording_mixed.events()
    expect("500 to 900 events", 500 <= len(given) // 12 <= 900, True)
    expect("a partial one", len(given) % 12 > 0, True)
    found = output(recording_mixed.rack(), given).decode("ascii").splitlines()
    refused = {line for line in found if line.startswith("refused")}
    expect("refusals", refused, {f"refused {code}" for code in (101, 104, 108, 109, 110)})
    expect("silence", "silent" in found, True)
    commands, codes, errors, channels, masters = set(), set(), 0, set(), set()
    for line in found:
        if not line[0].isdigit():
            continue
        number, answer = line.split(" ")
        frame = bytes.fromhex(answer).lstrip(b"\xff")
        at = 2 if frame[0] == 0x06 else 6
        channels.add(int(number))
        masters.add((frame[0], frame[1] >> 7))
        if frame[at + 2] == 0:
            commands.add(frame[at])
        if frame[at + 2] < 128:
            codes.add(frame[at + 2])
        else:
            errors |= frame[at + 2]
    expect("channels", channels, set(range(5)))
    expect("masters", masters, {(start, bit) for start in (0x06, 0x86) for bit in (0, 1)})
    expect("commands", commands,
           {0, 1, 6, 11, 12, 13, 16, 17, 18, 19, 38, 59, 235, 236})
    expect("codes", codes, {0, 2, 3, 4, 5, 7, 64})
    expect("errors", errors, 128 + 64 + 32 + 16 + 8)
    called = {(event[0], event[1]) for event in
              (given[at:at + 12] for at in range(0, len(given), 12)) if event[0] in (3, 4)}
    for channel in (5, 14, 15, 255):
        expect("refused channel", {(3, channel), (4, channel)} <= called, True)


def stored():
    for path, wanted in recordings.every_file().items():
        expect(f"{path.parent.name}/{path.name}", path.read_bytes(), wanted)


def run():
    in_time()
    mixed_covers()
    stored()
