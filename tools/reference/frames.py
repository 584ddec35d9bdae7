"""Request transmissions: preambles, then one frame from start to check."""

from collections import namedtuple

from lent import fill
from refusal import out_of_form

PREAMBLE = 0xFF
START_OF_WIDTH = {1: 0x02, 5: 0x82}
WIDTH_OF_START = {0x02: 1, 0x82: 5}

Request = namedtuple("Request", "preambles address command data")


def exclusive_or(some):
    total = 0
    for byte in some:
        total ^= byte
    return total


def make(preambles, address, command, data, buffer):
    if preambles < 2 or preambles > 20:
        raise out_of_form()
    if len(address) not in START_OF_WIDTH:
        raise out_of_form()
    if command < 0 or command > 255:
        raise out_of_form()
    if len(data) > 255:
        raise out_of_form()
    frame = bytearray([START_OF_WIDTH[len(address)]])
    frame += address
    frame += bytes([command, len(data)])
    frame += data
    frame.append(exclusive_or(frame))
    return fill(buffer, bytes([PREAMBLE]) * preambles + frame)


def count_preambles(transmission):
    preambles = 0
    while preambles < len(transmission) and transmission[preambles] == PREAMBLE:
        preambles += 1
    return preambles


def whole_after(preambles, frame):
    """The request in a whole transmission, from the bytes behind its preambles.

    Whether the check is right is left open.
    """
    if preambles < 2:
        raise out_of_form()
    if len(frame) == 0 or frame[0] not in WIDTH_OF_START:
        raise out_of_form()
    width = WIDTH_OF_START[frame[0]]

    # Start, address, command, count and check stand in every frame. The count
    # may be read only once they are all there.
    around_data = 1 + width + 1 + 1 + 1
    if len(frame) < around_data:
        raise out_of_form()
    address = frame[1:1 + width]
    command = frame[1 + width]
    count = frame[2 + width]

    # Equal, not at least: nothing may follow the check. As the count is one
    # byte, this also holds the frame to 264 bytes.
    if len(frame) != around_data + count:
        raise out_of_form()
    data = frame[3 + width:3 + width + count]
    return Request(preambles, bytes(address), command, bytes(data))


def read(transmission):
    preambles = count_preambles(transmission)
    frame = transmission[preambles:]
    request = whole_after(preambles, frame)
    if exclusive_or(frame) != 0:
        raise out_of_form()
    return request


def is_primary(address):
    return address[0] & 0x80 != 0
