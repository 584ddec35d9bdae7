"""Damage of one byte after which the frame stands elsewhere and is whole again.

What is sent is sound. One byte of it is taken as another, so the parts that
follow are read as others: the first address byte as a start, a data byte as
the count. The data are chosen so that this count is right.
"""

from hearing import hear
from rows_make import some_data
from rows_read import request
from some_channels import PRIMARY, SECONDARY, long, short
from some_damage import note_moved

POLLING_2 = 0x02
POLLING_10 = 0x0A


def some_moved(chance, rack, note):
    """A damaged request that is whole, and most often means a channel."""
    one, master = chance.one_of(rack), chance.one_of((PRIMARY, SECONDARY))
    makers = (preamble_as_short_start, long_preamble_as_short_start,
              preamble_as_long_start, short_as_long, long_as_short,
              start_as_preamble, start_as_long_preamble)
    tried = [maker(one, master) for maker in makers]
    # Some of them need an identity of a certain form.
    sent, place, other = chance.one_of([found for found in tried if found is not None])
    received = sent[:place] + bytes([other]) + sent[place + 1:]
    if hear(received, bytes(len(received))) is None:
        raise ValueError(f"not whole: {received.hex()}")
    note_moved(sent, place, other, lambda kind: note(f"{kind}, and whole"))
    return received


def preamble_as_short_start(one, master):
    """The old start is the address, that of polling address 2."""
    return request(short(one, master), 1, b"", 3), 2, 0x02


def long_preamble_as_short_start(one, master):
    """The same of a long address, whose device type is the count."""
    rest = one[0] - 5
    if rest < 0:
        return None
    return request(long(one, master), 16, bytes(rest), 3), 2, 0x02


def preamble_as_long_start(one, master):
    """The old start is the first of five address bytes, and means nobody."""
    return request(short(one, master), 16, b"\x00\x10\x00", 3), 2, 0x82


def short_as_long(one, master):
    """A long address is made of polling address 10, command, count and data."""
    rest = one[1] - 4
    if rest < 0:
        return None
    data = one[2:4] + bytes([16, rest]) + bytes(rest)
    return request(bytes([master + POLLING_10]), one[0], data), 2, 0x82


def long_as_short(one, master):
    """Of a long address its first three bytes are address, command and count."""
    rest = one[1] - 4
    if rest < 0:
        return None
    return request(long(one, master), 16, some_data(rest)), 2, 0x02


def start_as_preamble(one, master):
    """The address 02 is the start, the command a short address."""
    command, = short(one, master)
    return request(bytes([POLLING_2]), command, b"\x05" + some_data(5)), 2, 0xFF


def start_as_long_preamble(one, master):
    """The address 82 is the start, command, count and data a long address."""
    rest = one[0] - 5
    if rest < 0:
        return None
    data = one[1:4] + bytes([16, rest]) + bytes(rest)
    command = long(one, master)[0]
    return request(bytes([PRIMARY + POLLING_2]), command, data), 2, 0xFF
