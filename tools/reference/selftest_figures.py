"""Tests of the manuals' figures, run by selftest.py."""

from fractions import Fraction

import figures
import frames
import replies
import table
import vectors
import writes
from addressing import own_address
from answers import FLAG_SET, START_OF_ANSWER
from commands import READS, WRITES
from damage import ADDED, COMMUNICATION_ERROR, WRONG_CHECK
from expectation import code_of, expect
from figure_recordings import device, packed_codes, recordings
from kinds import TAG_LENGTH
from patterns import is_nan, nearest, worth
from recording import expected
from rows_read import request
from rows_text import EXAMPLE, EXAMPLE_PACKED
from shown_results import results


def run():
    of_frames()
    texts()
    numbers()
    commands()
    ranges()
    in_recordings()


def of_frames():
    starts = [frames.START_OF_WIDTH[width] for width in figures.ADDRESS_WIDTHS]
    expect("starts", tuple(starts), figures.START_OF_REQUEST)
    expect("starts of answers", tuple(START_OF_ANSWER[start] for start in starts),
           figures.START_OF_RESPONSE)
    expect("preamble", frames.PREAMBLE, figures.PREAMBLE)
    for count in range(5):
        expect("preambles", code_of(frames.read, request(b"\x81", 0, b"", count)),
               110 if count < figures.LEAST_PREAMBLES else None)
    for device_type in figures.DEVICE_TYPES.values():
        one = device(device_type)
        expect("long address", own_address(one)[:2],
               bytes([figures.MANUFACTURER, device_type]))
        identifier = replies.identifier(one)
        expect("identifier", identifier[:3],
               bytes([figures.EXPANSION, figures.MANUFACTURER, device_type]))
        expect("signalling code", identifier[7] & 7, figures.SIGNALLING_RS485)


def texts():
    """Each is a row of the codecs' table, and answered as the manuals have it."""
    name = figures.TAG_NAME.encode("ascii")
    expect("letters", (name, name), (figures.TAG_LETTERS, EXAMPLE))
    expect("six bits", bytes(letter % 64 for letter in name), figures.TAG_SIX_BITS)
    expect("six bits in binary", " ".join(f"{code:06b}" for code in figures.TAG_SIX_BITS),
           figures.TAG_SIX_BITS_BINARY)
    expect("packed in binary", " ".join(f"{byte:08b}" for byte in figures.TAG_PACKED),
           figures.TAG_PACKED_BINARY)
    expect("packed", EXAMPLE_PACKED, figures.TAG_PACKED)
    rows = vectors.operations()
    for line, wanted in (
        (table.pack_line(name, 6), f"6 {table.hex_of(figures.TAG_PACKED)}"),
        (table.unpack_line(figures.TAG_PACKED, 8), f"8 {table.hex_of(name)}"),
    ):
        expect("a row", line in rows, True)
        expect(line, table.answer(line), wanted)
    letters = figures.CODES.encode("ascii")
    expect("every code once", sorted(letters), list(range(0x20, 0x60)))
    expect("codes", table.answer(table.pack_line(letters, 48)),
           f"48 {table.hex_of(packed_codes())}")


def numbers():
    for value, pattern in figures.FLOATS.items():
        expect("float", worth(pattern), value)
    expect("not used", is_nan(int.from_bytes(figures.NOT_USED_NUMBER, "big")), True)
    expect("flow", nearest(Fraction(figures.FLOW[0])), figures.FLOW[1])
    expect("setpoint", worth(figures.SETPOINT[1]), figures.SETPOINT[0])
    told = [COMMUNICATION_ERROR + added for _, added in ADDED]
    expect("errors", [*told, COMMUNICATION_ERROR + WRONG_CHECK],
           list(figures.COMMUNICATION_ERRORS.values()))
    expect("changed", FLAG_SET, figures.CONFIGURATION_CHANGED)
    expect("percent", replies.PERCENT, figures.PERCENT)


def commands():
    """Counts and response data are the manuals'; where a code is not, it is said here."""
    expect("commands", set(figures.COMMANDS), {*READS, *WRITES})
    one = device(100)
    for command, (count, length, codes) in figures.COMMANDS.items():
        if command in READS:
            expect("data told", len(READS[command](one)), length)
            expect("count", count, TAG_LENGTH if command == 11 else 0)
            continue
        write = WRITES[command]
        data = bytes([figures.PERCENT, 0, 0, 0, 0][:count]).ljust(count, b"\x02")
        if command in (6, 59):
            data = b"\x02"
        expect("data written", len(write.reply(data, write.put(one, data))), length)
        expect("count of a write", write.count, count)
        expect("5 and 7", {0, 5, 7} <= set(codes), True)


def ranges():
    one = device(100)
    for write, (least, most) in ((writes.polling, figures.POLLING_ADDRESSES),
                                 (writes.preambles, figures.RESPONSE_PREAMBLES)):
        taken = [value for value in range(256) if code_of(write, one, value) is None]
        expect("values taken", taken, list(range(least, most + 1)))
    expect("most data", max(length for _, length, _ in figures.COMMANDS.values()),
           figures.MOST_DATA)


def in_recordings():
    shown = set()
    for one in recordings():
        shown |= results(expected(one))
    wanted = {f"code {code}" for code in figures.COMMAND_ERRORS}
    wanted |= {f"communication error {error}"
               for error in figures.COMMUNICATION_ERRORS.values()}
    expect("shown", wanted - shown, set())
    for error in figures.NEVER_TOLD.values():
        expect("never told", f"communication error {error}" in shown, False)
    for code in figures.NEVER_GIVEN:
        expect("never given", f"code {code}" in shown, False)
