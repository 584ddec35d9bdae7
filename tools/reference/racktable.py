"""One line of the tables of setpoints, records and racks: an operation in words,
and the answer to it."""

import racks
import records
import setpoints
import writes
from refusal import Refused, bad_record
from table import bytes_of, hex_of


def pattern_of(word):
    return int(word, 16)


# How the words behind each kind of write are read.
WRITES = {
    "polling": (writes.polling, int),
    "preambles": (writes.preambles, int),
    "assembly": (writes.assembly, int),
    "changed": (writes.changed, int),
    "key": (writes.key, int),
    "sample": (writes.sample, pattern_of, pattern_of),
    "text": (writes.text, int, bytes_of),
    "setpoint": (writes.setpoint, pattern_of),
}


def load_line(pattern):
    return f"load {pattern:08X}"


def admitted_line(pattern, ceiling):
    return f"admitted {pattern:08X} {ceiling}"


def lawful_line(pattern):
    return f"lawful {pattern:08X}"


def units_line(pattern, full_scale):
    return f"units {pattern:08X} {full_scale}"


def share_line(some_load, full_scale):
    return f"share {some_load} {full_scale}"


def record_line(record):
    return f"record {hex_of(record)}"


def shelf_line(file):
    return f"shelf {hex_of(file)}"


def single_line(file):
    return f"single {hex_of(file)}"


def text_line(record, place):
    return f"text {hex_of(record)} {place}"


def write_line(record, ceiling, kind):
    """The kind comes with its values, in the table's words."""
    return f"write {hex_of(record)} {ceiling} {kind}"


def answer(line):
    operation, *words = line.split(" ")
    try:
        return ANSWERS[operation](*words)
    except Refused as refused:
        return numbers_of(refused)


def numbers_of(refused):
    return " ".join(["refused", str(refused.code), *map(str, refused.where)])


def answer_load(pattern):
    return setpoints.sort(pattern_of(pattern))


def answer_admitted(pattern, ceiling):
    return f"load {setpoints.admitted(pattern_of(pattern), int(ceiling))}"


def answer_lawful(pattern):
    return "yes" if setpoints.is_lawful(pattern_of(pattern)) else "no"


def answer_units(pattern, full_scale):
    found = setpoints.units(pattern_of(pattern), int(full_scale))
    return "none" if found is None else f"{found:08X}"


def answer_share(some_load, full_scale):
    return str(setpoints.share(int(some_load), int(full_scale)))


def answer_record(record):
    offset = records.fault(bytes_of(record))
    if offset is not None:
        raise bad_record(offset)
    return "lawful"


def answer_shelf(file):
    return f"{len(racks.shelf(bytes_of(file)))} records"


def answer_single(file):
    return f"{len(racks.single(bytes_of(file)))} records"


def answer_text(record, place):
    return f"{records.text_byte(bytes_of(record), int(place)):02X}"


def answer_write(record, ceiling, kind, *words):
    rack = racks.Capped(racks.single(bytes_of(record)), int(ceiling))
    write, *readers = WRITES[kind]
    if len(words) != len(readers):
        raise ValueError(f"not the words of a {kind}: {words}")
    values = [read(word) for read, word in zip(readers, words)]
    try:
        rack.write(0, write, *values)
        outcome = "taken"
    except Refused as refused:
        outcome = numbers_of(refused)
    return f"{outcome} {hex_of(rack.told(0))}"


ANSWERS = {
    "load": answer_load,
    "admitted": answer_admitted,
    "lawful": answer_lawful,
    "units": answer_units,
    "share": answer_share,
    "record": answer_record,
    "shelf": answer_shelf,
    "single": answer_single,
    "text": answer_text,
    "write": answer_write,
}
