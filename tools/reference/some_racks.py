"""Racks by chance, and record files that are refused."""

from records import RULES
from some_channels import tag
from some_patterns import exactly, lawful
from some_records import LEAST, MOST, any_record, finite, record

TAGS = (bytes(6), b"\x34\x60\xed\xc7\x2c\xf4", b"\xff" * 6)
# 70, 90 and 100 are those of the instruments. Of the others a damaged request
# can be whole again, or have the address of every channel but for its first byte.
DEVICES = (70, 70, 90, 100, 5, 0)
MOST_RECORDS = 15

NOT_FINITE = (0x7F800000, 0xFF800000, 0x7F800001, 0x7FA00000, 0x7FC00000, 0xFFFFFFFF)
# For each field that can be at fault, in the order of the rules, values that are.
VALUES = (
    (16, 17, 255),                                                # polling address
    (1, 16, 0, 255),                                              # preambles
    (4, 7, 128, 255),                                             # flags
    (0x42C80001, 0x80000000, 0x80000001, 0xC2C80000, *NOT_FINITE),  # setpoint
    (101, 128, 255),                                              # ceiling
    (0, 1_000_001, 2**31, 2**32 - 1),                             # full scale
    NOT_FINITE,                                                   # flow
    NOT_FINITE,                                                   # temperature
    tuple(1 << 8 * place for place in range(7)),                  # reserved bytes
)


def some_rack(chance, note):
    """Lawful records, no two of them with one identity."""
    count = 1 + chance.below(chance.one_of((1, 3, 5, 15)))
    found = []
    while len(found) < count:
        one = some_record(chance)
        if one[:4] not in [other[:4] for other in found]:
            found.append(one)
    note_rack(found, note)
    return found


def some_record(chance):
    turn = chance.below(12)
    if turn == 0:
        return chance.one_of((LEAST, MOST))
    if turn == 1:
        return any_record(chance)
    # Few addresses and tags, so that two channels often share one.
    ceiling = chance.one_of((100, 100, 100, 80, chance.below(101), 0))
    setpoint = chance.one_of((0, lawful(chance), lawful(chance), exactly(ceiling),
                              exactly(100)))
    return record(
        device=chance.one_of(DEVICES),
        identification=chance.one_of((0, 0x040000, 0x050000)) + chance.below(40),
        polling=chance.one_of((0, 1, 2, 3, 10, 15)), preambles=chance.one_of((2, 2, 5, 15)),
        assembly=chance.below(2**24), flags=chance.one_of((0, 2, 2, 2, 3, 3)),
        setpoint=setpoint, ceiling=ceiling, unit=chance.below(256),
        full_scale=chance.one_of((1, 1000, 1_000_000, 1 + chance.below(1_000_000))),
        flow=finite(chance), temperature=finite(chance),
        text=chance.one_of(TAGS) + chance.bytes(39))


def note_rack(found, note):
    note(f"{len(found)} records")
    if len({one[4] for one in found}) < len(found):
        note("equal polling addresses")
    if len({tag(one) for one in found}) < len(found):
        note("equal tags")
    if any(int.from_bytes(one[10:14], "big") > exactly(one[14]) for one in found):
        note("setpoint above its ceiling")


def refused_file(chance, note):
    """A file of a wrong length, or with a record that is not lawful."""
    found = some_rack(chance, ignored)
    lengths = (("file of no bytes", b""), ("file a byte short", b"".join(found)[:-1]),
               ("file a byte longer", b"".join(found) + chance.bytes(1)),
               ("file of 16 records", b"".join((found * 16)[:16])))
    fields = [(f"field {rule[0].offset} in the {where} record", which, place)
              for which, rule in enumerate(RULES)
              for where, place in (("first", 0), ("last", -1))]
    turn = chance.below(len(lengths) + len(fields))
    if turn < len(lengths):
        kind, file = lengths[turn]
        note(kind)
        return file
    kind, which, place = fields[turn - len(lengths)]
    note(kind)
    found[place] = offending(chance, found[place], which)
    if len(found) > 1 and chance.below(4) == 0:
        note("several records offend")
        found[-1] = offending(chance, found[-1], chance.below(len(RULES)))
    return b"".join(found)


def ignored(kind):
    """In the place of a note that is not wanted."""


def offending(chance, one, which):
    """The record with one field out of range, mostly by as little as can be."""
    field, _ = RULES[which]
    return field.put(one, chance.one_of(VALUES[which]))


def same_identity(found, chance):
    """The rack with one more record, or in the last one's place, of an identity it has."""
    one = chance.one_of(found)
    other = one[:4] + some_record(chance)[4:]
    room = found if len(found) < MOST_RECORDS else found[:-1] if one != found[-1] else found[1:]
    return room + [other]
