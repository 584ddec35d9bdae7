"""Test the reference itself.

    python3 tools/reference/selftest.py
"""

import sys

sys.dont_write_bytecode = True  # leaves no cache folder in the repository

import expectation
import frames
import selftest_runvectors
import selftest_figures
import selftest_generator
import selftest_line
import selftest_linerun
import selftest_linetable
import selftest_panel
import selftest_patterns
import selftest_rack
import selftest_racktable
import selftest_recordings
import selftest_runs
import selftest_supplyrun
import text
from chance import Chance
from expectation import code_of, expect
from helping import is_helped
from table import answer, bytes_of
from vectors import operations

ROUNDS = 2000


def by_hand():
    """Answers worked by hand."""
    for line, wanted in (
        ("pack 4D46432D31323334 6", "6 3460EDC72CF4"),
        ("pack 4D46432D31323334 8", "6 3460EDC72CF4A5A5"),
        ("pack 4D46432D31323334 5", "refused 102 short buffer A5A5A5A5A5"),
        ("pack 4D46432D313233 2", "refused 110 out of form A5A5"),
        ("pack 20205F60 1", "refused 110 out of form A5"),
        ("pack - 0", "0 -"),
        ("pack 20202020 3", "3 820820"),
        ("pack 40404040 3", "3 000000"),
        ("pack 3F3F3F3F 0", "refused 102 short buffer -"),
        ("unpack 3460EDC72CF4 8", "8 4D46432D31323334"),
        ("unpack 000000 5", "4 40404040A5"),
        ("unpack FFFFFF 4", "4 3F3F3F3F"),
        ("unpack FFFFFF 3", "refused 102 short buffer A5A5A5"),
        ("unpack FFFF 0", "refused 110 out of form -"),
        ("make 2 81 16 - 7", "7 FFFF0281100093"),
        ("make 2 81 16 - 8", "7 FFFF0281100093A5"),
        ("make 2 81 16 - 6", "refused 102 short buffer A5A5A5A5A5A5"),
        ("make 1 81 16 - 6", "refused 110 out of form A5A5A5A5A5A5"),
        ("make 2 8A46000001 0 - 11", "11 FFFF828A4600000100004F"),
        ("make 3 01 6 0A 9", "9 FFFFFF020106010A0E"),
        ("read FFFF0281100093", "2 primary short 81 16 -"),
        ("read FFFF0281100092", "refused 110 out of form"),
        ("read FF0281100093", "refused 110 out of form"),
        ("read FFFF028110009300", "refused 110 out of form"),
        ("read FFFF828A4600000100004F", "2 primary long 8A46000001 0 -"),
        ("read FFFFFF020106010A0E", "3 secondary short 01 6 0A"),
        ("read -", "refused 110 out of form"),
    ):
        expect(line, answer(line), wanted)


def every_letter():
    for letter in range(256):
        fits = 0x20 <= letter <= 0x5F
        for place in range(4):
            letters = bytearray(b"    ")
            letters[place] = letter
            code = code_of(text.pack, letters, bytearray(3))
            expect(f"letter {letter:02X}", code, None if fits else 110)


def every_length():
    for length in range(20):
        code = code_of(text.pack, b" " * length, bytearray(20))
        expect(f"text of {length}", code, None if length % 4 == 0 else 110)
        code = code_of(text.unpack, bytes(length), bytearray(40))
        expect(f"packed of {length}", code, None if length % 3 == 0 else 110)


def text_round_trips():
    chance = Chance(1)
    for _ in range(ROUNDS):
        letters = chance.letters(4 * chance.below(20))
        packed = bytearray(len(letters) // 4 * 3)
        expect("packed length", text.pack(letters, packed), len(packed))
        # A second way to the same bytes: the text of all the bits.
        bits = "".join(f"{letter:08b}"[2:] for letter in letters)
        expect("packed bits", "".join(f"{byte:08b}" for byte in packed), bits)
        back = bytearray(len(letters))
        expect("text length", text.unpack(packed, back), len(back))
        expect("text and back", bytes(back), letters)

        some = chance.bytes(3 * chance.below(20))
        letters = bytearray(len(some) // 3 * 4)
        text.unpack(some, letters)
        back = bytearray(len(some))
        text.pack(letters, back)
        expect("packed and back", bytes(back), some)


def frame_round_trips():
    chance = Chance(2)
    for _ in range(ROUNDS):
        preambles = 2 + chance.below(19)
        address = chance.bytes(chance.one_of((1, 5)))
        command = chance.below(256)
        data = chance.bytes(chance.below(256))
        buffer = bytearray(300)
        length = frames.make(preambles, address, command, data, buffer)
        expect("length", length, preambles + 4 + len(address) + len(data))
        expect("past the result", bytes(buffer[length:]), bytes(300 - length))
        sent = buffer[:length]
        expect("request", frames.read(sent), (preambles, address, command, data))
        expect("one more preamble", frames.read(b"\xff" + sent).preambles, preambles + 1)

        expect("a byte too many", code_of(frames.read, sent + b"\x00"), 110)
        expect("a byte too few", code_of(frames.read, sent[:-1]), 110)
        damaged = bytearray(sent)
        damaged[chance.below(length)] ^= 1 << chance.below(8)
        expect("one bit turned", code_of(frames.read, damaged), 110)


def reader_bounds():
    short = bytes.fromhex("0281100093")
    long = bytes.fromhex("828A4600000100004F")
    for preambles in range(600):
        expect(f"{preambles} preambles", code_of(frames.read, b"\xff" * preambles + short),
               None if preambles >= 2 else 110)
    for frame in (short, long):
        for start in range(256):
            # The check is mended, so that only the start can be at fault.
            check = frame[-1] ^ frame[0] ^ start
            other = b"\xff\xff" + bytes([start]) + frame[1:-1] + bytes([check])
            expect(f"start {start:02X}", code_of(frames.read, other),
                   None if start == frame[0] else 110)
        for more in range(1, 600):
            # Zeros keep the exclusive or as it is.
            expect(f"{more} bytes too many",
                   code_of(frames.read, b"\xff\xff" + frame + bytes(more)), 110)
        for end in range(len(frame)):
            expect(f"only {end} bytes", code_of(frames.read, b"\xff\xff" + frame[:end]), 110)


def maker_bounds():
    def code(preambles=2, address=b"\x81", command=0, data=b""):
        return code_of(frames.make, preambles, address, command, data, bytearray(300))

    for preambles in range(50):
        expect(f"{preambles} preambles", code(preambles=preambles),
               None if 2 <= preambles <= 20 else 110)
    for length in range(10):
        expect(f"address of {length}", code(address=bytes(length)),
               None if length in (1, 5) else 110)
    for command in range(-1, 257):
        expect(f"command {command}", code(command=command),
               None if 0 <= command <= 255 else 110)
    for count in range(260):
        expect(f"{count} data bytes", code(data=bytes(count)),
               None if count <= 255 else 110)


def table_covers():
    """The table has no row twice and every value in every place."""
    lines = operations()
    expect("rows that differ", len(set(lines)), len(lines))
    letters = [set() for _ in range(4)]
    values = [set() for _ in range(3)]
    for line in lines:
        operation, first, *_ = line.split(" ")
        if answer(line).startswith("refused"):
            continue
        if operation == "pack":
            for at, letter in enumerate(bytes_of(first)):
                letters[at % 4].add(letter)
        if operation == "unpack":
            for at, value in enumerate(bytes_of(first)):
                values[at % 3].add(value)
    for seen in letters:
        expect("letters in a place", seen, set(range(0x20, 0x60)))
    for seen in values:
        expect("values in a place", seen, set(range(256)))


def main():
    by_hand()
    every_letter()
    every_length()
    text_round_trips()
    frame_round_trips()
    maker_bounds()
    reader_bounds()
    table_covers()
    selftest_patterns.run()
    selftest_rack.run()
    selftest_racktable.run()
    selftest_line.run()
    selftest_linetable.run()
    selftest_panel.run()
    selftest_runs.run()
    selftest_linerun.run()
    selftest_supplyrun.run()
    selftest_generator.run()
    selftest_figures.run()
    selftest_runvectors.run()
    selftest_recordings.run()
    print(f"{expectation.checks} checks passed")


if __name__ == "__main__" and not is_helped(sys.argv[1:]):
    main()
