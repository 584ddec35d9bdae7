"""Reply data: what each command tells of a record."""

import records
from addressing import MANUFACTURER
from setpoints import units

EXPANSION = 254
# Preambles of a request, universal, specific, software and hardware revision,
# flags.
REVISIONS = bytes([2, 5, 1, 1, 8, 0])
PERCENT = 0x39


def identifier(record):
    return (bytes([EXPANSION, MANUFACTURER]) + records.DEVICE_TYPE.bytes_of(record)
            + REVISIONS + records.IDENTIFICATION.bytes_of(record))


def primary_variable(record):
    return records.FLOW_UNIT.bytes_of(record) + records.FLOW.bytes_of(record)


def message(record):
    return records.MESSAGE.bytes_of(record)


def tag_descriptor_date(record):
    return (records.TAG.bytes_of(record) + records.DESCRIPTOR.bytes_of(record)
            + records.DATE.bytes_of(record))


def assembly_number(record):
    return records.ASSEMBLY.bytes_of(record)


def setpoint(record):
    in_units = units(records.SETPOINT.of(record), records.FULL_SCALE.of(record))
    return (bytes([PERCENT]) + records.SETPOINT.bytes_of(record)
            + records.FLOW_UNIT.bytes_of(record) + in_units.to_bytes(4, "big"))
