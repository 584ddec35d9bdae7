"""Table rows for the record files of shelves and singles."""

from chance import Chance
from racktable import shelf_line, single_line
from some_records import LEAST, MOST, PLAIN, any_record, record

BAD = record(ceiling=101)
WORSE = record(polling=16, ceiling=101)


def rows():
    return ([shelf_line(file) for file in lengths() + bad_records()]
            + [single_line(file) for file in singles()])


def filled(count):
    chance = Chance(36)
    return [any_record(chance) for _ in range(count)]


def with_bad(count, *places, bad=BAD):
    some = filled(count)
    for place in places:
        some[place] = bad
    return b"".join(some)


def lengths():
    files = [b"".join(filled(count)) for count in (0, 1, 2, 3, 14, 15, 16)]
    long = b"".join(filled(16))
    files += [long[:length] for length in (1, 40, 79, 81, 159, 161, 1199, 1201, 1279)]
    # The length is tried before any record.
    files += [BAD[:79], BAD + b"\x00", with_bad(16, 0)]
    return files


def bad_records():
    files = [BAD, with_bad(2, 0), with_bad(2, 1), with_bad(3, 1), with_bad(3, 0, 2),
             with_bad(15, 0), with_bad(15, 7), with_bad(15, 14)]
    # The first bad record counts, not the lowest offset.
    files.append(BAD + PLAIN + WORSE)
    files.append(PLAIN + WORSE + BAD)
    # Sound, but half a record off.
    files.append(PLAIN[40:] + LEAST + PLAIN[:40])
    # One record for each fault there is.
    files += [PLAIN + bad for bad in (
        record(polling=16), record(preambles=1), record(preambles=16), record(flags=4),
        record(setpoint=0x42C80001), record(full_scale=1000001),
        record(flow=0xFF800000), record(temperature=0x7F800001),
        record(rest=b"\x00\x00\x00\x00\x00\x00\x01"))]
    return files


def singles():
    return [PLAIN, LEAST, MOST, b"", PLAIN[:1], PLAIN[:79], PLAIN + b"\x00",
            PLAIN + MOST, BAD, WORSE, BAD[:79], BAD + b"\x00", BAD + PLAIN,
            record(rest=b"\x01\x00\x00\x00\x00\x00\x00"), bytes(80), b"\xff" * 80]
