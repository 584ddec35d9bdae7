"""Record files from text, and back: a block of `name: value` lines for each record."""

from hall.binary32 import is_finite
from hall.fields import Binary32, Date, Flag, Letters, Whole
from hall.wrong import Wrong

RECORD_LENGTH = 80
MOST_RECORDS = 15
RESERVED_AT = 73
HUNDRED = 0x42C80000

# Name: offset, kind, default, and the default in words where they say it better.
# A text of @ alone packs to bytes 0.
FIELDS = {
    "tag": (28, Letters(8), "@" * 8, "bytes 00"),
    "type": (0, Whole(1, 0, 255), "0", None),
    "identification": (1, Whole(3, 0, 0xFFFFFF), "0", None),
    "polling address": (4, Whole(1, 0, 15), "0", None),
    "preambles": (5, Whole(1, 2, 15), "5", None),
    "assembly number": (6, Whole(3, 0, 0xFFFFFF), "0", None),
    "changed": (9, Flag(0, ("no", "yes")), "no", "`no`"),
    "key": (9, Flag(1, ("shut", "open")), "shut", "`shut`"),
    "setpoint": (10, Binary32(lambda pattern: pattern <= HUNDRED,
                              "a lawful setpoint, in percent"), "0", None),
    "ceiling": (14, Whole(1, 0, 100), "100", None),
    "unit": (15, Whole(1, 0, 255), "0", None),
    "full scale": (16, Whole(4, 1, 1000000), "1000", None),
    "flow": (20, Binary32(is_finite, "a finite value"), "0", None),
    "temperature": (24, Binary32(is_finite, "a finite value"), "0", None),
    "descriptor": (34, Letters(16), "@" * 16, "bytes 00"),
    "date": (46, Date(), "0 0 1900", "`0 0 1900`, bytes 00"),
    "message": (49, Letters(32), "@" * 32, "bytes 00"),
}


def take_line(line, block):
    """Puts the bytes of a line's value into its block, by name."""
    name, colon, value = (part.strip() for part in line.partition(":"))
    if not colon:
        raise Wrong("not of the form `name: value`")
    if name not in FIELDS:
        raise Wrong(f"no field is named '{name}'; they are {', '.join(FIELDS)}")
    if name in block:
        raise Wrong(f"'{name}' stands twice in one block")
    kind = FIELDS[name][1]
    block[name] = kind.make(value)
    if block[name] is None:
        raise Wrong(f"{name} wants {kind.wants}; not '{value}'")


def file_of(text):
    """The record file of a text, a record for each block."""
    blocks, block = [], None
    for number, line in enumerate(text.decode("ascii", "replace").split("\n"), 1):
        if not line.strip():
            block = None
            continue
        if block is None:
            block = {}
            blocks.append(block)
        try:
            if len(blocks) > MOST_RECORDS:
                raise Wrong(f"more than {MOST_RECORDS} channels")
            take_line(line, block)
        except Wrong as wrong:
            raise Wrong(f"line {number}: {wrong}") from None
    if not blocks:
        raise Wrong("line 1: no channel in the text")
    return b"".join(record_of(block) for block in blocks)


def record_of(block):
    record = bytearray(RECORD_LENGTH)
    for name, (at, kind, default, _) in FIELDS.items():
        for place, byte in enumerate(block.get(name) or kind.make(default), at):
            record[place] |= byte  # the two flags share a byte
    return record


def records_of(file):
    """The records of a file that a shelf takes."""
    count, rest = divmod(len(file), RECORD_LENGTH)
    if rest or not 1 <= count <= MOST_RECORDS:
        raise Wrong(f"refused 104: {len(file)} bytes are not {RECORD_LENGTH} x 1 to {MOST_RECORDS}")
    rows = [file[at:at + RECORD_LENGTH] for at in range(0, len(file), RECORD_LENGTH)]
    for number, row in enumerate(rows):
        values_of(number, row)
    return rows


def values_of(number, record):
    """The text of each field of a record, by name."""
    values = {}
    for name, (at, kind, _, _) in sorted(FIELDS.items(), key=lambda field: field[1][0]):
        values[name] = kind.show(record[at:at + kind.length])
        if kind.make(values[name]) is None:
            raise Wrong(f"refused 103: record {number}, field out of range at offset {at}")
    if any(record[RESERVED_AT:]):
        raise Wrong(f"refused 103: record {number}, field out of range at offset {RESERVED_AT}")
    return values


def text_of(file):
    """The text of a record file, a block for each record."""
    return "\n".join(block_of(number, row) for number, row in enumerate(records_of(file)))


def block_of(number, record):
    values = values_of(number, record)
    return "".join(f"{name}: {values[name]}".strip() + "\n" for name in FIELDS)


def value(record, name):
    """The text of one field of a lawful record."""
    at, kind, _, _ = FIELDS[name]
    return kind.show(record[at:at + kind.length])
