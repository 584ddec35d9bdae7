"""Writes to a lawful record: each gives the record changed in one field."""

import records
from patterns import SIGN, is_finite
from refusal import invalid_selection, not_finite, out_of_form, too_large, too_small
from setpoints import admitted

LONGEST_RUN = 24


def polling(record, address):
    if address > 15:
        raise invalid_selection()
    return records.POLLING.put(record, address)


def preambles(record, count):
    if count < 2:
        raise too_small()
    if count > 15:
        raise too_large()
    return records.PREAMBLES.put(record, count)


def assembly(record, number):
    if number > 0xFFFFFF:
        raise too_large()
    return records.ASSEMBLY.put(record, number)


def changed(record, on):
    return with_flag(record, records.CHANGED, on)


def key(record, is_open):
    return with_flag(record, records.KEY_OPEN, is_open)


def with_flag(record, flag, on):
    flags = records.FLAGS.of(record) & ~flag
    return records.FLAGS.put(record, flags | flag if on else flags)


def sample(record, flow, temperature):
    """One reading of both: neither is put unless both are finite."""
    if not is_finite(flow) or not is_finite(temperature):
        raise not_finite()
    return records.TEMPERATURE.put(records.FLOW.put(record, flow), temperature)


def text(record, place, run):
    if len(run) > LONGEST_RUN or place + len(run) > records.TEXT_LENGTH:
        raise out_of_form()
    at = records.TEXT_AT + place
    return record[:at] + run + record[at + len(run):]


def setpoint(record, pattern):
    admitted(pattern, records.CEILING.of(record))
    # Minus zero is admitted but not lawful, so zero stands in for it.
    return records.SETPOINT.put(record, 0 if pattern == SIGN else pattern)
