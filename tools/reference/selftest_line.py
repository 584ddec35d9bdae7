"""Tests of requests, addressing, codes and answers, run by selftest.py."""

import struct
from fractions import Fraction

import damage
import records
from addressing import means
from answers import respond
from chance import Chance
from codes import Header, outcome
from expectation import expect
from frames import Request, exclusive_or
from kinds import kind
from rows_read import request
from some_channels import EVERY, long, short, tag
from some_patterns import any_pattern, lawful
from some_records import LEAST, MOST, PLAIN, any_record, record

ROUNDS = 400
RIGHT = {6: 1, 17: 24, 18: 21, 19: 3, 38: 0, 59: 1, 236: 5}
READING = (0, 1, 11, 12, 13, 16, 235)
# Where each writing command may change a record; the flags are at 9.
TOUCHED = {6: range(4, 5), 17: range(49, 73), 18: range(28, 49), 19: range(6, 9),
           38: range(0), 59: range(5, 6), 236: range(10, 14)}


def kinds():
    for command in range(256):
        for count in range(30):
            wanted = "bare"
            if command in RIGHT and command != 38:
                wanted = "text" if command in (17, 18) else "number"
            if (command, count) == (11, 6):
                wanted = "tag"
            expect(f"kind of {command}", kind(command, bytes(count)), wanted)


def is_meant(address, command, data, one):
    return means(Request(2, address, command, data), one)


def short_addresses():
    for polling in range(16):
        one = record(polling=polling)
        meant = [address for address in range(256)
                 if is_meant(bytes([address]), 16, b"", one)]
        expect(f"polling address {polling}", meant, [polling, 128 + polling])


def long_addresses():
    for one in (PLAIN, LEAST, MOST):
        for own in (long(one), EVERY):
            for bit in range(40):
                number = int.from_bytes(own, "big") ^ 1 << bit
                # Bit 39 is the master.
                expect(f"bit {bit}", is_meant(number.to_bytes(5, "big"), 16, b"", one),
                       bit == 39)


def tags():
    for one in (PLAIN, LEAST, MOST):
        for address in (EVERY, long(one), short(one)):
            for bit in range(48):
                other = int.from_bytes(tag(one), "big") ^ 1 << bit
                expect("another tag", is_meant(address, 11, other.to_bytes(6, "big"), one),
                       False)
            for count in range(30):
                data = one[28:28 + count]
                expect(f"tag of {count}", is_meant(address, 11, data, one), count == 6)
        expect("another's tag", is_meant(b"\x87", 11, tag(one), one), False)


def statuses():
    """Every set of marks in every place, and a check that is right or not."""
    good = request(b"\x81", 16, b"")[2:]
    for wrong in (0x00, 0x01, 0xFF):
        frame = good[:-1] + bytes([good[-1] ^ wrong])
        for place in range(5):
            for first in range(8):
                for other in range(8):
                    marks = bytes(place) + bytes([first]) + bytes(4 - place)
                    marks = bytes([marks[0] | other]) + marks[1:]
                    # As text: parity, overrun, framing, check.
                    bits = f"{first | other:03b}"[::-1] + ("1" if wrong else "0")
                    wanted = int("1" + bits + "000", 2) if "1" in bits else None
                    expect("first status", damage.first_status(frame, marks), wanted)


def codes_of_setpoints():
    """By Python's own numbers, which hold every binary32 exactly."""
    chance = Chance(54)
    for _ in range(2 * ROUNDS):
        one = any_record(chance)
        one = one[:9] + b"\x02" + one[10:]
        pattern = chance.one_of((any_pattern, lawful))(chance)
        value, = struct.unpack(">f", pattern.to_bytes(4, "big"))
        ceiling, full_scale = one[14], int.from_bytes(one[16:20], "big")
        supply, others = chance.below(2**32), chance.below(2**64)
        if value != value:
            wanted = 2
        elif value < 0:
            wanted = 4
        elif value > ceiling:
            wanted = 3
        else:
            # The least whole number that is not below.
            weight = -(-Fraction(value) * 1024 // 1)
            if chance.below(4) > 0:
                room = int(supply * 102_400 - weight * full_scale)
                others = max(0, room + chance.below(3) - 1)
            wanted = 16 if others + weight * full_scale > supply * 102_400 else 0
        found = outcome(236, b"\x39" + pattern.to_bytes(4, "big"), one,
                        Header(supply, others))
        expect(f"setpoint {pattern:08X}", found.code, wanted)


def codes_of_the_rest():
    for command in range(256):
        for count in range(30):
            for flags in range(4):
                wanted = 64
                if command in READING:
                    wanted = 0
                if command in RIGHT:
                    # Zeros are no preambles and no percent.
                    wanted = {59: 4, 236: 2}.get(command, 0)
                    if flags < 2:
                        wanted = 7
                    if count != RIGHT[command]:
                        wanted = 5
                found = outcome(command, bytes(count), record(flags=flags), Header(0, 0))
                expect(f"command {command}", found.code, wanted)
    for value in range(256):
        for command, wanted in ((6, 0 if value < 16 else 2),
                                (59, 4 if value < 2 else 0 if value < 16 else 3)):
            found = outcome(command, bytes([value]), record(flags=2), Header(0, 0))
            expect(f"{value} by {command}", found.code, wanted)
    for unit in range(256):
        found = outcome(236, bytes([unit, 0, 0, 0, 0]), record(flags=2), Header(0, 0))
        expect(f"unit {unit:02X}", found.code, 0 if unit == 57 else 2)


def narrowed(value):
    """The binary32 value nearest to one of Python's."""
    return struct.unpack(">f", struct.pack(">f", value))[0]


def told(command, one):
    """The reply data of a reading command, by the record's offsets."""
    if command in (0, 11):
        return b"\xfe\x0a" + one[:1] + b"\x02\x05\x01\x01\x08\x00" + one[1:4]
    if command == 1:
        return one[15:16] + one[20:24]
    if command == 235:
        percent, = struct.unpack(">f", one[10:14])
        product = narrowed(percent * int.from_bytes(one[16:20], "big"))
        return b"\x39" + one[10:14] + one[15:16] + struct.pack(">f", product / 100)
    return {12: one[49:73], 13: one[28:49], 16: one[6:9]}[command]


def some_request(chance, one):
    """A request to a channel: address, command and data."""
    command = chance.one_of(tuple(RIGHT) + READING + (chance.below(256),))
    data = chance.bytes(RIGHT.get(command, chance.below(30)))
    if command == 11:
        data = tag(one)
    if command in (6, 59):
        data = bytes([chance.below(20)])
    if command == 236:
        data = b"\x39" + lawful(chance).to_bytes(4, "big")
    return chance.one_of((short(one), long(one), short(one, 0), EVERY)), command, data


def some_marks(chance, received, start, sound):
    """The characters before the start may be marked, those from it on not if they are sound."""
    marks = bytearray(len(received))
    marks[chance.below(start)] = chance.below(8)
    if not sound:
        marks[start + chance.below(len(received) - start)] = 1 + chance.below(7)
    return marks


def frame_of_answer(buffer, length, address, command, preambles):
    """First status, second status and data of an answer, whose form is tested."""
    expect("past the answer", bytes(buffer[length:]), b"\xa5" * (len(buffer) - length))
    expect("at most 50", length <= 50, True)
    expect("preambles", bytes(buffer[:preambles]), b"\xff" * preambles)
    frame = bytes(buffer[preambles:length])
    expect("check", exclusive_or(frame), 0)
    width = len(address)
    expect("start", frame[0], 0x06 if width == 1 else 0x86)
    expect("echo", frame[1:2 + width], address + bytes([command]))
    expect("count", frame[2 + width], len(frame) - width - 4)
    return frame[3 + width], frame[4 + width], frame[5 + width:-1]


def written(command, data, reply, one, after):
    """What a writing command did that was taken."""
    changes = {place for place in range(80) if one[place] != after[place]}
    expect("touched", changes - {9} <= set(TOUCHED[command]), True)
    expect("key as it was", after[9] & 2, 2)
    expect("flag", after[9] & 1, {38: 0, 236: one[9] & 1}.get(command, 1))
    expect("reply", reply, told(235, after) if command == 236 else data)
    if command != 38:
        held = bytes(after[place] for place in TOUCHED[command])
        expect("held", held, data[1:] if command == 236 else data)


def answered():
    """What holds of every answer, whatever it is to."""
    chance = Chance(55)
    for _ in range(8 * ROUNDS):
        one = any_record(chance)
        address, command, data = some_request(chance, one)
        received = request(address, command, data, 2 + chance.below(9))
        sound = chance.below(4) > 0
        start = received.index(0x02 if len(address) == 1 else 0x82)
        marks = some_marks(chance, received, start, sound)
        buffer = bytearray([0xA5]) * (64 + chance.below(9))
        header = Header(chance.below(15_000_001), chance.below(10**12))
        length, after = respond(received, marks, one, header, buffer)

        expect("lawful after", records.fault(after), None)
        first, second, reply = frame_of_answer(buffer, length, address, command, after[5])
        if not sound:
            expect("communication error", (first >= 128, second, reply), (True, 0, b""))
        else:
            expect("second status", second, 64 * (after[9] % 2))
        if first != 0:
            expect("no data, no change", (reply, after), (b"", one))
        elif command in READING:
            expect("only read", (reply, after), (told(command, one), one))
        else:
            written(command, data, reply, one, after)


def run():
    kinds()
    short_addresses()
    long_addresses()
    tags()
    statuses()
    codes_of_setpoints()
    codes_of_the_rest()
    answered()
