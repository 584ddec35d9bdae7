"""Table rows for lawful records and their faults, and for single text bytes."""

from chance import Chance
from racktable import record_line, text_line
from some_patterns import edges, exactly, percents
from some_records import LEAST, MOST, PLAIN, ZEROS, any_record, record

# For each field that can offend, a value that does.
OFFENDING = (
    {"polling": 16}, {"preambles": 1}, {"flags": 4}, {"setpoint": 0x80000000},
    {"ceiling": 101}, {"full_scale": 0}, {"flow": 0x7F800000},
    {"temperature": 0x7FC00000}, {"rest": b"\x00\x00\x00\x01\x00\x00\x00"},
)

BYTES = (0, 1, 2, 3, 4, 8, 13, 14, 15, 16, 17, 31, 32, 64, 127, 128, 129, 254, 255)


def rows():
    some = (sound() + small_fields() + patterns() + full_scales() + reserved()
            + two_faults() + any_bytes() + random_records())
    return [record_line(one) for one in some] + texts()


def sound():
    # A setpoint may stand above the ceiling.
    above = [record(setpoint=exactly(percent), ceiling=ceiling)
             for percent, ceiling in ((100, 0), (100, 99), (80, 79), (1, 0))]
    return [PLAIN, LEAST, MOST] + above


def small_fields():
    some = []
    for value in BYTES:
        some += [record(polling=value), record(preambles=value), record(flags=value)]
    # All the flags there are, with one more that is not.
    some += [record(flags=3 + (1 << bit)) for bit in range(2, 8)]
    some += [record(ceiling=value)
             for value in (0, 1, 50, 99, 100, 101, 102, 127, 128, 255)]
    return some


def patterns():
    some = [record(setpoint=pattern) for pattern in edges()]
    some += [record(setpoint=pattern) for pattern in percents(105)[95:]]
    for pattern in edges()[::2]:
        some += [record(flow=pattern), record(temperature=pattern)]
    return some


def full_scales():
    return [record(full_scale=number)
            for number in (0, 1, 2, 255, 256, 65535, 65536, 999999, 1000000, 1000001,
                           2**20, 2**24, 2**24 + 1, 2**31, 2**31 + 1, 2**32 - 1,
                           # 1,000,000 with its bytes the other way round.
                           0x40420F00)]


def reserved():
    return [record(rest=ZEROS[:place] + bytes([value]) + ZEROS[place + 1:])
            for place in range(7) for value in (0x01, 0x80, 0xFF)]


def two_faults():
    some = [record(**OFFENDING[one], **OFFENDING[other])
            for other in range(len(OFFENDING)) for one in range(other)]
    # Every fault from a field on: all of them, then without the first, ...
    for first in range(len(OFFENDING)):
        faults = {}
        for offending in OFFENDING[first:]:
            faults.update(offending)
        some.append(record(**faults))
    return some + [b"\xff" * 80, bytes(80)]


def any_bytes():
    """Each byte of the fields that take any, at both its ends."""
    some = []
    for place in (0, 1, 2, 3, 6, 7, 8, 15, 28, 33, 34, 45, 46, 48, 49, 72):
        for value in (0x00, 0xFF):
            some.append(PLAIN[:place] + bytes([value]) + PLAIN[place + 1:])
    return some


def random_records():
    chance = Chance(34)
    some = [any_record(chance) for _ in range(15)]
    for _ in range(35):
        damaged = bytearray(any_record(chance))
        damaged[chance.below(80)] ^= 1 << chance.below(8)
        some.append(bytes(damaged))
    return some


def texts():
    lines = [text_line(PLAIN, place) for place in range(48)]
    lines += [text_line(one, place)
              for one in (LEAST, MOST) for place in (0, 44, 45)]
    # Past the text but in the record, past both, and 228, which would come
    # round in one byte if the text's offset were added.
    lines += [text_line(PLAIN, place)
              for place in (51, 52, 72, 79, 80, 127, 128, 172, 228, 254, 255)]
    chance = Chance(35)
    lines += [text_line(any_record(chance), chance.below(50)) for _ in range(10)]
    return lines
