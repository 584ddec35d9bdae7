"""Whether a rack may be set up under a supply."""

from channels import MOST_CHANNELS, told
from records import DEVICE_TYPE, IDENTIFICATION
from refusal import number_of_records, over_supply, same_identity, supply_too_large
from shares import fit, total

MOST_SUPPLY = 15_000_000


def judge(rack, supply):
    """Refused, or nothing; a rack of no records may be set up."""
    if supply > MOST_SUPPLY:
        raise supply_too_large()
    if told(rack) > MOST_CHANNELS:
        raise number_of_records()
    if len({identity(record) for record in rack}) < len(rack):
        raise same_identity()
    if not fit(supply, total(rack)):
        raise over_supply()


def identity(record):
    return DEVICE_TYPE.of(record), IDENTIFICATION.of(record)
