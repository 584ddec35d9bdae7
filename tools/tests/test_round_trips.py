"""Recordings to text and back, exact for any bytes."""

import unittest

from support import made, shown

import generator
from chance import Chance

SOME = (0, 1, 2, 5, 7, 8, 64, 0x7F, 0x80, 0x81, 0xEC, 0xFF)


class RoundTrips(unittest.TestCase):
    def check(self, recording):
        text = shown(recording)
        self.assertEqual(made(text), recording, recording.hex())
        self.assertEqual(shown(made(text)), text)
        self.assertEqual(made(shown(recording, as_bytes=True)), recording, recording.hex())

    def test_any_bytes(self):
        chance = Chance(1)
        for _ in range(1500):
            self.check(chance.bytes(chance.below(100)))

    def test_every_length(self):
        for length in range(60):
            self.check(bytes([1] * length))

    def test_events_near_their_form(self):
        chance = Chance(2)
        for _ in range(2500):
            self.check(b"".join(some_event(chance) for _ in range(chance.below(20)))
                       + chance.bytes(chance.below(12)))

    def test_requests_and_nearly_requests(self):
        chance = Chance(3)
        for _ in range(2500):
            self.check(b"".join(bytes([1, byte]) + bytes(10) for byte in some_request(chance)))

    def test_generated_recordings(self):
        for seed in range(60):
            self.check(generator.recording(seed).events)


def some_event(chance):
    """Any kind, mostly in form, with values at the edges."""
    event = bytearray(12)
    event[0] = chance.below(9)
    for at in chance.one_of(((1,), (1, 2), (4, 5, 6, 7), (1, 4, 5, 6, 7, 8, 9, 10, 11), (3,))):
        event[at] = chance.one_of(SOME)
    return bytes(event)


def some_request(chance):
    """A frame of any command, address and data, and at times a byte changed."""
    address = chance.one_of((b"\x81", b"\x02", b"\x91", b"\x80" + bytes(4), bytes(5),
                             b"\x8a\x46\x00\x00\x01", b"\x0a\xff\xff\xff\xff", b"\xca" + bytes(4)))
    command = chance.one_of((0, 1, 2, 6, 11, 12, 13, 16, 17, 18, 19, 38, 59, 235, 236, 255))
    length = chance.one_of((0, 1, 3, 5, 6, 21, 24, chance.below(256)))
    data = bytes([0x39]) * (command == 236) + chance.bytes(length)
    data = data[:length]
    frame = bytes([0x02 if len(address) == 1 else 0x82]) + address + bytes([command, length]) + data
    check = 0
    for byte in frame:
        check ^= byte
    some = bytearray(b"\xff" * chance.one_of((2, 2, 2, 1, 5, 20, 21)) + frame + bytes([check]))
    if chance.below(5) == 0:
        some[chance.below(len(some))] = chance.below(256)
    return bytes(some)


if __name__ == "__main__":
    unittest.main()
