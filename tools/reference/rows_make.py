"""Table rows for making a request transmission."""

from table import make_line

SHORT_PRIMARY = bytes.fromhex("81")
SHORT_SECONDARY = bytes.fromhex("01")
LONG_PRIMARY = bytes.fromhex("8A46000001")
LONG_SECONDARY = bytes.fromhex("0A46FEDC01")
ADDRESSES = (SHORT_PRIMARY, SHORT_SECONDARY, LONG_PRIMARY, LONG_SECONDARY)


def rows():
    return (counts() + too_much_data() + address_lengths() + preambles()
            + commands() + buffers() + form_before_buffer() + telling_bytes())


def some_data(count, first=0):
    """Up to 256 bytes that all differ, in no order that evens out the check."""
    return bytes((first + 37 * at) % 256 for at in range(count))


def length_of(preambles, address, data):
    return preambles + 1 + len(address) + 1 + 1 + len(data) + 1


def fitting(preambles, address, command, data):
    """A row whose buffer is exactly as long as the transmission."""
    room = length_of(preambles, address, data)
    return make_line(preambles, address, command, data, room)


def counts():
    lines = [fitting(5, address, 3, some_data(count, len(address)))
             for address in ADDRESSES for count in (0, 24)]
    lines += [fitting(5, address, 3, some_data(count, len(address)))
              for address in (SHORT_SECONDARY, LONG_PRIMARY) for count in (1, 255)]
    return lines


def too_much_data():
    return [make_line(2, address, 3, some_data(256), 270)
            for address in (SHORT_PRIMARY, LONG_PRIMARY)]


def address_lengths():
    return [make_line(2, bytes.fromhex("8A4600000102")[:length], 0, b"", 16)
            for length in (0, 1, 2, 4, 5, 6)]


def preambles():
    lines = [make_line(count, SHORT_PRIMARY, 16, b"\x5a", 48)
             for count in (0, 1, 2, 3, 19, 20, 21, 40)]
    lines += [make_line(count, LONG_SECONDARY, 16, b"\x5a", 48)
              for count in (2, 20)]
    return lines


def commands():
    return [fitting(2, address, command, b"")
            for address, command in ((SHORT_SECONDARY, 0), (LONG_PRIMARY, 11),
                                     (SHORT_PRIMARY, 255), (LONG_SECONDARY, 255))]


def buffers():
    lines = []
    for address, data in ((SHORT_PRIMARY, b""), (LONG_SECONDARY, b"MFC")):
        need = length_of(3, address, data)
        for room in (need, need - 1, need + 1, 0):
            lines.append(make_line(3, address, 12, data, room))
    # The longest transmission there is, in a buffer one byte short of it.
    need = length_of(20, LONG_PRIMARY, some_data(255))
    lines.append(make_line(20, LONG_PRIMARY, 255, some_data(255), need))
    lines.append(make_line(20, LONG_PRIMARY, 255, some_data(255), need - 1))
    return lines


def form_before_buffer():
    return [
        make_line(1, SHORT_PRIMARY, 0, b"", 3),
        make_line(21, SHORT_PRIMARY, 0, b"", 0),
        make_line(2, b"", 0, b"", 0),
        make_line(2, LONG_PRIMARY[:4], 0, b"", 3),
        make_line(2, SHORT_PRIMARY, 0, some_data(256), 8),
    ]


def telling_bytes():
    """Bytes that look like a preamble or a start may stand in the frame."""
    return [
        fitting(2, b"\xff", 0xFF, b"\xff\xff"),
        fitting(2, b"\x02", 0x02, b"\x02"),
        fitting(2, b"\x82", 0x82, b"\x82"),
        fitting(2, b"\xff\xff\xff\xff\xff", 0, b"\xff"),
        fitting(2, b"\x02\x82\xff\xff\x02", 2, b"\x82"),
    ]
