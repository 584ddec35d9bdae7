"""The tabled commands: what each reads, or writes and replies."""

from collections import namedtuple

import replies
import writes
from records import DATE, DESCRIPTOR, TAG
from refusal import invalid_selection

READS = {
    0: replies.identifier,
    1: replies.primary_variable,
    11: replies.identifier,
    12: replies.message,
    13: replies.tag_descriptor_date,
    16: replies.assembly_number,
    235: replies.setpoint,
}

WRITE_SETPOINT = 236
MESSAGE_PLACE = TAG.length + DESCRIPTOR.length + DATE.length

# The right count; the record after, from the record and the request data; the
# reply data, from the request data and the record after.
Write = namedtuple("Write", "count put reply")


def configured(record):
    return writes.changed(record, 1)


def put_polling(record, data):
    return configured(writes.polling(record, data[0]))


def put_message(record, data):
    return configured(writes.text(record, MESSAGE_PLACE, data))


def put_tag_descriptor_date(record, data):
    return configured(writes.text(record, 0, data))


def put_assembly(record, data):
    return configured(writes.assembly(record, int.from_bytes(data, "big")))


def put_unchanged(record, data):
    return writes.changed(record, 0)


def put_preambles(record, data):
    return configured(writes.preambles(record, data[0]))


def put_setpoint(record, data):
    # No other unit is taken, and the setpoint is no configuration.
    if data[0] != replies.PERCENT:
        raise invalid_selection()
    return writes.setpoint(record, int.from_bytes(data[1:], "big"))


def the_same(data, after):
    return data


def nothing(data, after):
    return b""


def setpoint_now(data, after):
    return replies.setpoint(after)


WRITES = {
    6: Write(1, put_polling, the_same),
    17: Write(24, put_message, the_same),
    18: Write(21, put_tag_descriptor_date, the_same),
    19: Write(3, put_assembly, the_same),
    38: Write(0, put_unchanged, nothing),
    59: Write(1, put_preambles, the_same),
    WRITE_SETPOINT: Write(5, put_setpoint, setpoint_now),
}
