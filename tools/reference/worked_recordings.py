"""The worked examples of the documents as recordings."""

from recording import Recording
from some_channels import WORKED
from some_events import character, characters, gap, key, sample, sent
from some_panels import channel
from some_supply_events import gap_of, look, set_up

# One event, or what is left of one, on a run of its own.
ALONE = ("020000000000000000000000", "01FF08000000000000000000", "01FF08000000000000000001",
         "000000000000000000000000", "050000000000000000000000", "020100000000000000000000",
         "040002000000000000000000", "040102000000000000000000", "040101000000000000000000",
         "040001000000000000000000", "030000007F80000000000000", "030100007F80000000000000",
         "030000003F80000041B40000", "020000000000", "02", "")

TWO = channel(1, 1, 7, setpoint=0x42C80000) + channel(2, 2, 8)


def recordings():
    return [*events_alone(), linerun(sent(bytes.fromhex("FFFF0281100093"))), *exchange()]


def linerun(events):
    return Recording("linerun", None, WORKED, events)


def events_alone():
    return [linerun(bytes.fromhex(event)) for event in ALONE]


def exchange():
    """That of the panel's page, from its supplies that are refused on."""
    refused = [Recording("supplyrun", supply, TWO, gap()) for supply in (15_000_001, 999)]
    events = (
        heard("FFFF0282EC0539424800015B") + gap_of(64)
        + heard("FFFF0282EC0539424800005A") + gap_of(63) + gap_of(64) + gap_of(64)
        + set_up(1499) + heard("FFFF028110") + character(0, 8) + heard("0093") + gap_of(64)
        + heard("FFFF028106010286") + gap_of(64) + heard("FFFF0282100090") + gap_of(64)
        + heard("FFFF828A4600000210005C") + gap_of(64) + key(1, 0)
        + sample(1, 0x7F800000, 0) + sample(2, 0x7F800000, 0)
        + heard("FFFF828A46000002EC0539000000009C") + gap_of(64) + look(0) + look(1)
        + look(2))
    return [*refused, Recording("supplyrun", 1500, TWO, events)]


def heard(some):
    return characters(bytes.fromhex(some))
