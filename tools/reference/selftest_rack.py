"""Tests of records, writes and racks, run by selftest.py."""

import racks
import records
import writes
from chance import Chance
from expectation import code_of, expect
from some_patterns import any_pattern
from some_records import LEAST, MOST, PLAIN, any_record, record

ROUNDS = 300


def faults():
    for one in (PLAIN, LEAST, MOST):
        expect("lawful", records.fault(one), None)
    for value in range(256):
        for field, fits in (("polling", value < 16), ("preambles", 1 < value < 16),
                            ("flags", value < 4), ("ceiling", value < 101)):
            offset = {"polling": 4, "preambles": 5, "flags": 9, "ceiling": 14}[field]
            expect(f"{field} {value}", records.fault(record(**{field: value})),
                   None if fits else offset)
    for place in range(73, 80):
        bad = bytearray(PLAIN)
        bad[place] = 1
        expect(f"reserved {place}", records.fault(bytes(bad)), 73)
    chance = Chance(8)
    for _ in range(ROUNDS):
        one = any_record(chance)
        expect("lawful by chance", records.fault(one), None)
        # In the fields that take any bytes, they may be any.
        for start, length in ((0, 4), (6, 3), (15, 1), (28, 45)):
            one = one[:start] + chance.bytes(length) + one[start + length:]
        expect("still lawful", records.fault(one), None)


def touched():
    """A write that is taken leaves a lawful record, alike but for its field."""
    chance = Chance(9)
    for _ in range(ROUNDS):
        place, length = chance.below(50), chance.below(30)
        for write, values, start, end in (
            (writes.polling, (chance.below(20),), 4, 5),
            (writes.preambles, (chance.below(20),), 5, 6),
            (writes.assembly, (chance.below(2**25),), 6, 9),
            (writes.changed, (chance.below(2),), 9, 10),
            (writes.key, (chance.below(2),), 9, 10),
            (writes.setpoint, (any_pattern(chance),), 10, 14),
            (writes.sample, (any_pattern(chance), any_pattern(chance)), 20, 28),
            (writes.text, (place, chance.bytes(length)), 28 + place, 28 + place + length),
        ):
            before = any_record(chance)
            if code_of(write, before, *values) is not None:
                continue
            after = write(before, *values)
            expect("length", len(after), 80)
            expect("lawful after", records.fault(after), None)
            expect("front", after[:start], before[:start])
            expect("back", after[end:], before[end:])
    for before in range(4):
        for on in (0, 1):
            expect("changed", writes.changed(record(flags=before), on),
                   record(flags=before & 2 | on))
            expect("key", writes.key(record(flags=before), on),
                   record(flags=before & 1 | 2 * on))


def runs():
    for place in range(50):
        for length in range(50):
            found = code_of(writes.text, PLAIN, place, b"\xee" * length)
            fits = length <= 24 and place + length <= 45
            expect(f"run of {length} at {place}", found, None if fits else 110)


def files():
    for length in range(1400):
        file = (PLAIN * 18)[:length]
        fits = length in range(80, 1201, 80)
        expect(f"shelf of {length}", code_of(racks.shelf, file), None if fits else 104)
        expect(f"single of {length}", code_of(racks.single, file),
               None if length == 80 else 104)
    expect("records", racks.shelf(PLAIN + LEAST + MOST), [PLAIN, LEAST, MOST])


def ceiling_over():
    for own in range(101):
        for other in (0, 1, 50, 99, 100, 101, 255):
            rack = racks.Capped([LEAST, record(ceiling=own)], other)
            smaller = min(own, other)
            expect("told", rack.told(1), record(ceiling=smaller))
            rack.write(1, writes.key, 1)
            expect("kept below", rack.kept, [LEAST, record(ceiling=own, flags=2)])
            above = code_of(rack.write, 1, writes.setpoint, 0x42C80000)
            expect("setpoint above", above, None if smaller == 100 else 3)


def run():
    faults()
    touched()
    runs()
    files()
    ceiling_over()
