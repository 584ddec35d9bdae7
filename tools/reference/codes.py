"""Which code a sound request gets, and what comes of it."""

from collections import namedtuple

import records
from commands import READS, WRITE_SETPOINT, WRITES
from refusal import Refused
from shares import fit, share_of

OK = 0
WRONG_COUNT = 5
KEY_SHUT = 7
OVER_SUPPLY = 16
NOT_TABLED = 64

# The supply in mL/min, and the sum of the other channels' shares.
Header = namedtuple("Header", "supply others")

# The code, the record after the command, the reply data.
Outcome = namedtuple("Outcome", "code record data")


def outcome(command, data, record, header):
    """Codes are tried in their order; but for 0 nothing changes."""
    if command in READS:
        return Outcome(OK, record, READS[command](record))
    if command not in WRITES:
        return Outcome(NOT_TABLED, record, b"")
    write = WRITES[command]
    if len(data) != write.count:
        return Outcome(WRONG_COUNT, record, b"")
    if not records.FLAGS.of(record) & records.KEY_OPEN:
        return Outcome(KEY_SHUT, record, b"")
    try:
        after = write.put(record, data)
    except Refused as refused:
        return Outcome(refused.code, record, b"")
    if command == WRITE_SETPOINT and not fits(after, header):
        return Outcome(OVER_SUPPLY, record, b"")
    return Outcome(OK, after, write.reply(data, after))


def fits(after, header):
    """The share of the new setpoint stands in the place of the old one."""
    return fit(header.supply, header.others + share_of(after))
