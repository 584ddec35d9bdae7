"""Channels to try on the line, and the transmissions that ask them."""

from linetable import respond_line
from rows_read import request
from some_records import record

PRIMARY = 0x80
SECONDARY = 0x00
SUPPLY = 15_000_000

# The channel of the worked examples.
WORKED = record(device=70, identification=1, polling=1, preambles=2, assembly=7,
                setpoint=0, ceiling=0, unit=0, flow=0, temperature=0, text=bytes(45))

SHUT = record(flags=0)
OPEN = record(flags=2)

EVERY = bytes([PRIMARY, 0, 0, 0, 0])
EVERY_SECONDARY = bytes(5)


def with_flags(flags):
    """Bit 0 changed, bit 1 key open."""
    return record(flags=flags)


def short(one, master=PRIMARY):
    return bytes([master + one[4]])


def long(one, master=PRIMARY):
    return bytes([master + 10]) + one[:4]


def tag(one):
    return one[28:34]


def heard(one, received, marks=b"", room=64, supply=SUPPLY, others=0):
    """A row: the channel hears these characters."""
    return respond_line(one, supply, others, received, marks, room)


def ask(one, command, data=b"", address=None, preambles=2, **more):
    """A row: the channel is asked, by its polling address unless one is given."""
    if address is None:
        address = short(one)
    return heard(one, request(address, command, data, preambles), **more)
