"""One line of the table: an operation in words, and the answer to it."""

import frames
import text
from refusal import Refused

# What a lent buffer holds before the call, so that a byte left alone shows.
UNTOUCHED = 0xA5


def hex_of(some):
    return bytes(some).hex().upper() or "-"


def bytes_of(word):
    return b"" if word == "-" else bytes.fromhex(word)


def pack_line(letters, room):
    return f"pack {hex_of(letters)} {room}"


def unpack_line(packed, room):
    return f"unpack {hex_of(packed)} {room}"


def make_line(preambles, address, command, data, room):
    return f"make {preambles} {hex_of(address)} {command} {hex_of(data)} {room}"


def read_line(transmission):
    return f"read {hex_of(transmission)}"


def answer(line):
    operation, *words = line.split(" ")
    if operation == "pack":
        letters, room = words
        return lend(room, lambda buffer: text.pack(bytes_of(letters), buffer))
    if operation == "unpack":
        packed, room = words
        return lend(room, lambda buffer: text.unpack(bytes_of(packed), buffer))
    if operation == "make":
        preambles, address, command, data, room = words
        return lend(room, lambda buffer: frames.make(
            int(preambles), bytes_of(address), int(command), bytes_of(data), buffer))
    if operation == "read":
        (transmission,) = words
        return answer_read(bytes_of(transmission))
    raise ValueError(f"no such operation: {line}")


def lend(room, call):
    buffer = bytearray([UNTOUCHED]) * int(room)
    try:
        outcome = str(call(buffer))
    except Refused as refused:
        outcome = str(refused)
    return f"{outcome} {hex_of(buffer)}"


def answer_read(transmission):
    try:
        request = frames.read(transmission)
    except Refused as refused:
        return str(refused)
    master = "primary" if frames.is_primary(request.address) else "secondary"
    width = "short" if len(request.address) == 1 else "long"
    return (f"{request.preambles} {master} {width} {hex_of(request.address)}"
            f" {request.command} {hex_of(request.data)}")
