"""What calls and results tell of a panel's channels.

It is read from the records at set-up and from calls and results alone, never
from a record after set-up, and by means of its own: nothing here is that by
which the panel answers but the exclusive or.
"""

from fractions import Fraction
from struct import unpack

from frames import exclusive_or


def share(pattern, full_scale):
    """By Python's own numbers, which hold every binary32 exactly."""
    value, = unpack(">f", pattern)
    return -(-Fraction(value) * 1024 // 1) * full_scale


def content(answer):
    """Command, first status, second status and data of an answer."""
    frame = answer.lstrip(b"\xff")
    at = 2 if frame[0] == 0x06 else 6
    return frame[at], frame[at + 2], frame[at + 3], frame[at + 4:-1]


class History:
    """What calls and results tell of each channel, from the records at set-up."""

    def __init__(self, rack):
        self.setpoints = [one[10:14] for one in rack]
        self.pollings = [one[4] for one in rack]
        self.keys = [one[9] & 2 for one in rack]
        # What stays: device type and identification, ceiling, full scale.
        self.plates = [(one[:4], one[14], int.from_bytes(one[16:20], "big"))
                       for one in rack]
        self.line = []

    def total(self, leaving_out=None):
        return sum(share(self.setpoints[at], self.plates[at][2])
                   for at in range(len(self.plates)) if at != leaving_out)

    def note(self, event):
        if event.call == "character" and event.result == "taken":
            self.line.append(event.values)
        if event.call == "key" and event.result == "taken":
            self.keys[event.values[0]] = 2 * event.values[1]
        if event.call == "gap" and event.result != 102:
            if event.result != "silent":
                self.note_answer(*event.result)
            self.line = []

    def note_answer(self, number, answer):
        command, status, *_ = content(answer)
        data = bytes(byte for byte, _ in self.line).lstrip(b"\xff")
        at = 4 if data[0] == 0x02 else 8
        if (command, status) == (236, 0):
            pattern = data[at + 1:at + 5]
            self.setpoints[number] = bytes(4) if pattern == b"\x80\0\0\0" else pattern
        if (command, status) == (6, 0):
            self.pollings[number] = data[at]

    def denied(self, capacity):
        """The channel that has to answer with code 16, if any."""
        some = bytes(byte for byte, _ in self.line)
        frame = some.lstrip(b"\xff")
        front = len(some) - len(frame)
        width = {0x02: 1, 0x82: 5}.get(frame[:1] and frame[0])
        # A setpoint command that is sound: 5 data bytes, all unmarked.
        if front < 2 or width is None or len(frame) != width + 9 or exclusive_or(frame):
            return None
        if frame[1 + width:4 + width] != b"\xec\x05\x39":
            return None
        if any(marks for _, marks in self.line[front:]):
            return None
        meant = [at for at in range(len(self.plates)) if self.is_meant(frame[1:1 + width], at)]
        if len(meant) != 1 or not self.keys[meant[0]]:
            return None
        _, ceiling, full_scale = self.plates[meant[0]]
        value, = unpack(">f", frame[4 + width:8 + width])
        if not 0 <= value <= ceiling:
            return None
        asked = share(frame[4 + width:8 + width], full_scale)
        return meant[0] if self.total(meant[0]) + asked > capacity else None

    def is_meant(self, address, at):
        called = bytes([address[0] & 0x7F]) + address[1:]
        if len(called) == 1:
            return called[0] == self.pollings[at]
        return called in (bytes(5), b"\x0a" + self.plates[at][0])
