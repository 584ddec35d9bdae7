"""Table rows for packed text."""

from table import pack_line, unpack_line

LETTERS = bytes(range(0x20, 0x60))
EXAMPLE = b"MFC-1234"
EXAMPLE_PACKED = bytes.fromhex("3460EDC72CF4")


def rows():
    return (pack_buffers() + pack_letters() + pack_refused_letters() + pack_lengths()
            + unpack_buffers() + unpack_lengths() + unpack_values())


def pack_buffers():
    lines = [pack_line(EXAMPLE, room) for room in (6, 5, 7, 0)]
    lines.append(pack_line(b"", 0))
    # Out of form is tried before the buffer's length.
    lines.append(pack_line(b"MFC-123\x60", 5))
    lines.append(pack_line(b"\x1fFC-", 0))
    lines.append(pack_line(b"MFC-1", 0))
    return lines


def pack_letters():
    """Every letter in every place of the four."""
    lines = []
    for turn in range(4):
        lines.append(pack_line(LETTERS[turn:] + LETTERS[:turn], 48))
    return lines


def pack_refused_letters():
    lines = []
    for letter, places in ((0x1F, (0, 2)), (0x60, (1, 3)),
                           (0x00, (1, 3)), (0xFF, (0, 2))):
        for place in places:
            text = bytearray(b"ABCD")
            text[place] = letter
            lines.append(pack_line(text, 3))
    # Past the first four; among them fit letters with bit 7 set.
    for letter in (0x1F, 0x7F, 0x80, 0xA0, 0xDF):
        lines.append(pack_line(EXAMPLE[:7] + bytes([letter]), 8))
    return lines


def pack_lengths():
    return [pack_line(b"_ @?Z[0/A"[:length], 8) for length in range(10)]


def unpack_buffers():
    lines = [unpack_line(EXAMPLE_PACKED, room) for room in (8, 7, 9, 0, 6)]
    lines.append(unpack_line(b"", 0))
    # Out of form is tried before the buffer's length.
    lines.append(unpack_line(EXAMPLE_PACKED[:4], 0))
    lines.append(unpack_line(EXAMPLE_PACKED[:5], 4))
    return lines


def unpack_lengths():
    some = bytes.fromhex("00FF80017FFE40")
    return [unpack_line(some[:length], 12) for length in range(8)]


def unpack_values():
    """All 256 values in each of the three places.

    The factors are odd, so each place runs through every value once, and
    they differ, so a mix-up of places shows.
    """
    triples = [bytes([value, (7 * value + 85) % 256, (13 * value + 170) % 256])
               for value in range(256)]
    return [unpack_line(b"".join(triples[at:at + 64]), 256)
            for at in range(0, 256, 64)]
