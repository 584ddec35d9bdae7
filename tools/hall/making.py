"""A recording from its text, a line after another."""

import re

from hall import binary32, requests
from hall.events import (LENGTH, Character, Gap, GapOf, Key, Look, OutOfForm, Rest, Sample, SetUp,
                         bytes_of)
from hall.requests import BYTE, whole_number
from hall.wrong import Wrong

MARKS = {"parity": 1, "overrun": 2, "framing": 4}
# A word in quotation marks, a comment, or a word.
WORD = re.compile(r'\s*(?:"([^"]*)"(?!\S)|(#.*)|([^\s"]\S*)|(".*))')


def recording_of(text):
    """The bytes of a recording's text."""
    some, rest_at = [], None
    for number, line in enumerate(text.decode("utf-8", "replace").split("\n"), 1):
        try:
            words = words_of(line)
            if words and rest_at:
                raise Wrong(f"behind the rest of an event in line {rest_at} stands nothing")
            events = events_of(words)
        except Wrong as wrong:
            raise Wrong(f"line {number}: {wrong}") from None
        some += map(bytes_of, events)
        rest_at = number if any(isinstance(event, Rest) for event in events) else rest_at
    return b"".join(some)


def words_of(line):
    words, line = [], line.rstrip()
    at = 0
    while at < len(line):
        found = WORD.match(line, at)
        quoted, comment, word, unended = found.groups()
        if unended is not None:
            raise Wrong(f"a quotation mark without its other one, or a letter behind it: {unended}")
        if comment is None:
            words.append(word if quoted is None else quoted)
        at = found.end()
    return words


def events_of(words):
    """The events of a line's words."""
    if not words:
        return []
    name, *values = words
    if name not in LINES:
        raise Wrong(f"'{name}' is no event; events are {', '.join(LINES)}")
    counts, form, make = LINES[name]
    if len(values) not in counts:
        raise Wrong(f"wants {form}; not '{' '.join(words)}'")
    return make(*values)


def send(*words):
    if all(re.fullmatch(BYTE, word) for word in words):
        return [Character(int(word, 16), 0) for word in words]
    return [Character(byte, 0) for byte in requests.sent(words)]


def mark(*words):
    *marks, byte = words
    if not re.fullmatch(BYTE, byte):
        raise Wrong(f"mark wants a byte such as 8A at its end; not '{byte}'")
    if re.fullmatch("[0-9]{1,3}", marks[0]) and len(marks) == 1 and int(marks[0]) <= 255:
        return [Character(int(byte, 16), int(marks[0]))]
    if not set(marks) <= set(MARKS) or len(set(marks)) < len(marks):
        raise Wrong("marks are parity, overrun, framing, each once, or a number from 0 to 255;"
                    f" not '{' '.join(marks)}'")
    return [Character(int(byte, 16), sum(MARKS[name] for name in marks))]


def gap(room=None):
    return [Gap()] if room is None else [GapOf(whole_number(room, 0, 255, "the room of a gap"))]


def sample(channel, *values):
    patterns = [binary32.pattern_of(value) for value in values]
    for pattern, text in zip(patterns, values):
        if pattern is None:
            raise Wrong(f"sample wants decimal numbers or patterns, 0x41C80000; not '{text}'")
    return [Sample(channel_of(channel), *patterns)]


def key(channel, turned):
    if turned not in ("open", "shut"):
        raise Wrong(f"key wants open or shut; not '{turned}'")
    return [Key(channel_of(channel), turned == "open")]


def look(channel):
    return [Look(channel_of(channel))]


def supply(number):
    return [SetUp(whole_number(number, 0, 2**32 - 1, "supply"))]


def event(*words):
    return [OutOfForm(some_bytes(words))]


def rest(*words):
    return [Rest(some_bytes(words))]


def channel_of(text):
    return whole_number(text, 0, 255, "a channel")


def some_bytes(words):
    for word in words:
        if not re.fullmatch(BYTE, word):
            raise Wrong(f"'{word}' is no byte of two hexadecimal digits")
    return bytes.fromhex("".join(words))


# Of each name: how many values, the form in words, and what makes the events.
LINES = {
    "send": (range(1, 2**20), "send and bytes such as FF 02, or a request", send),
    "mark": (range(2, 5), "mark, parity, overrun or framing, and a byte", mark),
    "gap": (range(2), "gap, or gap and its room in bytes", gap),
    "sample": (range(3, 4), "sample, channel, flow, temperature", sample),
    "key": (range(2, 3), "key, channel, open or shut", key),
    "look": (range(1, 2), "look and a channel", look),
    "supply": (range(1, 2), "supply and a number in mL/min", supply),
    "event": (range(LENGTH, LENGTH + 1), "event and 12 bytes", event),
    "rest": (range(1, LENGTH), "rest and the 1 to 11 bytes at the end", rest),
}
