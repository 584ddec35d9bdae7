"""One line of the line's table: a request or a transmission, and the answer."""

from answers import respond
from codes import Header
from kinds import kind
from refusal import Refused
from table import UNTOUCHED, bytes_of, hex_of


def request_line(command, data):
    return f"request {command} {hex_of(data)}"


def respond_line(record, supply, others, received, marks=b"", room=64):
    return (f"respond {hex_of(record)} {supply} {others}"
            f" {hex_of(received)} {hex_of(marks)} {room}")


def answer(line):
    operation, *words = line.split(" ")
    return ANSWERS[operation](*words)


def answer_request(command, data):
    found = kind(int(command), bytes_of(data))
    if found == "tag":
        return f"tag {data}"
    if found == "bare":
        return f"bare {command}"
    return f"{found} {command} {data}"


def answer_respond(record, supply, others, received, marks, room):
    received = bytes_of(received)
    # Characters that no mark is given for have none.
    marks = bytes_of(marks).ljust(len(received), b"\x00")
    buffer = bytearray([UNTOUCHED]) * int(room)
    try:
        found = respond(received, marks, bytes_of(record),
                        Header(int(supply), int(others)), buffer)
    except Refused as refused:
        return f"refused {refused.code}"
    if found is None:
        return "silent"
    length, after = found
    return f"answered {hex_of(buffer[:length])} {hex_of(after)}"


ANSWERS = {
    "request": answer_request,
    "respond": answer_respond,
}
