"""Recordings of which each has one kind of event often, to be counted by differences."""

from collections import namedtuple

from rows_make import some_data
from rows_read import request
from some_channels import EVERY, long
from some_events import characters, gap
from some_records import record

# A rack, and what is repeated on it: its bytes, and whether a gap follows.
Case = namedtuple("Case", "name rack heard")

MOST_CHANNELS = 15
# A frame that its count says is longer: a gap after it is silent.
UNENDED = b"\xff\xff\x02\x81\x10\xff"
MESSAGE = bytes((0xE0 + 11 * at) % 256 for at in range(24))
LONGEST = 255  # data bytes


def rack(count, preambles=5):
    """Channels of which each has its own identity, address, tag and setpoint."""
    return [record(device=100, identification=at, polling=at, preambles=preambles, flags=2,
                   setpoint=0x41200000 + at, ceiling=100, full_scale=1000 * (1 + at),
                   text=bytes([at]) + bytes(44)) for at in range(count)]


def answered():
    """The assembly number asked of the last channel, of so many."""
    return [Case(f"answered gap, {count} channel{'s' if count > 1 else ''}", rack(count),
                 request(long(rack(count)[-1]), 16, b""))
            for count in (1, 5, MOST_CHANNELS)]


def silent():
    return [Case("silent gap, nothing heard", rack(MOST_CHANNELS), b""),
            Case("silent gap, a request to nobody at 15 channels", rack(MOST_CHANNELS),
                 request(b"\x8a\xff\x00\x00\x00", 16, b""))]


def worst():
    """Requests that may be the most expensive one at 15 channels."""
    some = rack(MOST_CHANNELS, preambles=15)
    last = long(some[-1])
    setpoint = b"\x39\x41\x20\x00\x01"
    return [
        Case("setpoint granted", some, request(last, 236, setpoint)),
        Case("setpoint read", some, request(last, 235, b"")),
        Case("message written", some, request(last, 17, MESSAGE)),
        Case("message read", some, request(last, 12, b"")),
        Case("tag asked of every channel", some, request(EVERY, 11, some[-1][28:34])),
        Case("message read, 255 data bytes", some,
             request(last, 12, some_data(LONGEST))),
        Case("setpoint read, 255 data bytes", some,
             request(last, 235, some_data(LONGEST))),
        Case("255 data bytes, wrong check", some,
             request(last, 12, some_data(LONGEST))[:-1] + b"\x00"),
    ]


def events(case, times):
    return (characters(case.heard) + gap()) * times


def unended(length):
    """A transmission of so many characters that is not whole."""
    return (UNENDED + some_data(length))[:length]
