"""Whom a request means, by its bytes as received."""

from kinds import TAG_QUESTION, kind
from records import DEVICE_TYPE, IDENTIFICATION, POLLING, TAG

MANUFACTURER = 10
MASTER = 0x80
EVERY_CHANNEL = bytes(5)


def means(request, record):
    """Whether a request means the channel with this lawful record."""
    if not address_means(request.address, record):
        return False
    if kind(request.command, request.data) == "tag":
        return request.data == TAG.bytes_of(record)
    # With another count the tag question means nobody.
    return request.command != TAG_QUESTION


def address_means(address, record):
    # The master has no part in it, and every other bit has: the bits that have
    # to be 0 are 0 in what they are compared with.
    called = bytes([address[0] & ~MASTER]) + address[1:]
    if len(called) == 1:
        return called == POLLING.bytes_of(record)
    return called in (EVERY_CHANNEL, own_address(record))


def own_address(record):
    return (bytes([MANUFACTURER]) + DEVICE_TYPE.bytes_of(record)
            + IDENTIFICATION.bytes_of(record))
