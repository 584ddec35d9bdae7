"""A record of 80 bytes, most significant byte first: its fields and its fault."""

from collections import namedtuple

from patterns import is_finite
from refusal import out_of_form
from setpoints import is_full_scale, is_lawful

LENGTH = 80
TEXT_AT = 28
TEXT_LENGTH = 45  # tag, descriptor, date and message, one behind the other

CHANGED = 0x01
KEY_OPEN = 0x02


class Field(namedtuple("Field", "offset length")):
    def bytes_of(self, record):
        return record[self.offset:self.offset + self.length]

    def of(self, record):
        return int.from_bytes(self.bytes_of(record), "big")

    def put(self, record, value):
        """A record like the given one but for this field."""
        return (record[:self.offset] + value.to_bytes(self.length, "big")
                + record[self.offset + self.length:])


DEVICE_TYPE = Field(0, 1)
IDENTIFICATION = Field(1, 3)
POLLING = Field(4, 1)
PREAMBLES = Field(5, 1)
ASSEMBLY = Field(6, 3)
FLAGS = Field(9, 1)
SETPOINT = Field(10, 4)
CEILING = Field(14, 1)
FLOW_UNIT = Field(15, 1)
FULL_SCALE = Field(16, 4)
FLOW = Field(20, 4)
TEMPERATURE = Field(24, 4)
TAG = Field(28, 6)
DESCRIPTOR = Field(34, 12)
DATE = Field(46, 3)
MESSAGE = Field(49, 24)
RESERVED = Field(73, 7)

# In the order of their offsets. A setpoint may stand above the ceiling; any
# bytes will do in the fields not named.
RULES = (
    (POLLING, lambda address: address <= 15),
    (PREAMBLES, lambda count: 2 <= count <= 15),
    (FLAGS, lambda flags: flags <= CHANGED + KEY_OPEN),
    (SETPOINT, is_lawful),
    (CEILING, lambda percent: percent <= 100),
    (FULL_SCALE, is_full_scale),
    (FLOW, is_finite),
    (TEMPERATURE, is_finite),
    (RESERVED, lambda rest: rest == 0),
)


def fault(record):
    """The offset of the first offending field; None in a lawful record."""
    for field, fits in RULES:
        if not fits(field.of(record)):
            return field.offset
    return None


def text_byte(record, place):
    if place >= TEXT_LENGTH:
        raise out_of_form()
    return record[TEXT_AT + place]
