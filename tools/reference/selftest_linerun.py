"""Tests of linerun, run by selftest.py."""

import events
from chance import Chance
from expectation import expect
from linerun import output
from some_channels import WORKED
from some_events import character, gap, key, sample, sent
from some_panels import ready, state
from some_records import MOST, record

READ_AT_1 = bytes.fromhex("FFFF0281100093")
ZEROS = bytes(12)


def by_hand():
    """One event, or what is left of one, on a run of its own."""
    for event, wanted in (
        ("02 00 00 00 00 00 00 00 00 00 00 00", "silent\n"),
        ("01 FF 08 00 00 00 00 00 00 00 00 00", "refused 109\n"),
        ("01 FF 08 00 00 00 00 00 00 00 00 01", "refused 110\n"),
        ("00 00 00 00 00 00 00 00 00 00 00 00", "refused 110\n"),
        ("05 00 00 00 00 00 00 00 00 00 00 00", "refused 110\n"),
        ("02 01 00 00 00 00 00 00 00 00 00 00", "refused 110\n"),
        ("04 00 02 00 00 00 00 00 00 00 00 00", "refused 110\n"),
        ("04 01 02 00 00 00 00 00 00 00 00 00", "refused 110\n"),
        ("04 01 01 00 00 00 00 00 00 00 00 00", "refused 101\n"),
        ("04 00 01 00 00 00 00 00 00 00 00 00", ""),
        ("03 00 00 00 7F 80 00 00 00 00 00 00", "refused 108\n"),
        ("03 01 00 00 7F 80 00 00 00 00 00 00", "refused 101\n"),
        ("03 00 00 00 3F 80 00 00 41 B4 00 00", ""),
        ("02 00 00 00 00 00", "refused 104\n"),
        ("02", "refused 104\n"),
        ("", ""),
    ):
        expect(event, output(WORKED, bytes.fromhex(event)), wanted.encode("ascii"))
    expect("the example", output(WORKED, sent(READ_AT_1)), b"0 FFFF06811005000000000795\n")


def files():
    """A refused file or set-up is all that is printed."""
    given = sent(READ_AT_1) + b"\x00"
    other = record(identification=2)
    for file, wanted in (
        (b"", 104), (WORKED[:79], 104), (WORKED + b"\x00", 104), (WORKED * 16, 104),
        (record(polling=16), 103), (WORKED + record(rest=b"\x01" * 7), 103),
        (record(polling=16) + b"\x00", 104), (WORKED + WORKED, 105),
        (WORKED + other + WORKED, 105), (record(polling=16) * 2, 103),
    ):
        expect("refused file", output(file, given), f"refused {wanted}\n".encode("ascii"))
    # All that a shelf can ask for, and the supply is enough.
    full = b"".join(MOST[:1] + bytes([0, 0, number]) + MOST[4:] for number in range(15))
    expect("15 of the most", output(full, gap()), b"silent\n")


def forms():
    """Every kind, and each of its bytes with some values."""
    for kind in range(256):
        for place in range(1, 12):
            for value in (0, 1, 2, 7, 8, 255):
                event = bytes([kind]) + ZEROS[1:place] + bytes([value]) + ZEROS[place + 1:]
                used = {1: (1, 2), 2: (), 3: (1, 4, 5, 6, 7, 8, 9, 10, 11), 4: (1, 2)}
                panel = ready([WORKED])
                before = state(panel)
                found = events.line_of(panel, event)
                in_form = kind in used and (value == 0 or place in used[kind])
                if kind == 4 and place == 2 and value > 1:
                    in_form = False
                expect(f"event {event.hex()}", found == "refused 110", not in_form)
                if found is not None and found.startswith("refused"):
                    expect("as it was", state(panel), before)


def noise():
    """Any bytes at all are worked to the end."""
    chance = Chance(72)
    for _ in range(200):
        given = b"".join(chance.one_of((
            chance.bytes(12), bytes([1 + chance.below(4)]) + ZEROS[1:], gap(),
            character(chance.below(256), chance.below(9)), key(chance.below(3), 1),
            sample(0, chance.below(2**32), 0))) for _ in range(chance.below(30)))
        given += chance.bytes(chance.below(12))
        for line in output(WORKED, given).decode("ascii").splitlines():
            word, *rest = line.split(" ")
            expect("a line", word in ("silent", "refused", "0"), True)
            expect("its words", len(rest), 0 if word == "silent" else 1)


def run():
    by_hand()
    files()
    forms()
    noise()
