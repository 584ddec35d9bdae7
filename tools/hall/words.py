"""Requests, answers, silence and refusals in words."""

import frames
from addressing import MANUFACTURER
from damage import ADDED, COMMUNICATION_ERROR, WRONG_CHECK
from shares import SUPPLY_PARTS

from hall import binary32
from hall.commands import COMMANDS, asked, in_words
from hall.events import number
from hall.fields import Date, Letters, Percent
from hall.recordfiles import value
from hall.requests import EVERY
from hall.showing import hexadecimal

MARKED = dict(zip((64, 32, 16), ("parity", "overrun", "framing")))
CHANGED = 64

CODES = {
    0: "no error", 2: "invalid selection", 3: "parameter too large", 4: "parameter too small",
    5: "incorrect byte count", 7: "in write protect mode", 16: "access restricted",
    64: "command not implemented",
}
REFUSALS = {
    101: "there is no channel of that number",
    102: "the gap has room for fewer than 64 bytes; the transmission goes on",
    104: "the recording ends within an event",
    106: "the granted shares do not fit that supply; all goes on under the old one",
    107: "the supply is above 15,000,000 mL/min; all goes on under the old one",
    108: "flow or temperature is not finite",
    109: "marks are above 7; the transmission goes on without that character",
    110: "the event is out of form for the program that played it",
}
SET_UP_REFUSALS = {
    103: "a record of the record file has a field out of range",
    104: "the record file is not of 1 to 15 records of 80 bytes",
    105: "two channels have the same device type and identification number",
    106: "the shares of the record file do not fit the supply",
    107: "the supply is above 15,000,000 mL/min",
}


def flow(share):
    """A share as mL/min, to a thousandth."""
    text = f"{share / SUPPLY_PARTS:,.3f}"
    return text.rstrip("0").rstrip(".")


def request(whole):
    """Which master asks whom for what."""
    master = "primary" if frames.is_primary(whole.address) else "secondary"
    return f"{master} master to {address(whole.address)}: {question(whole)}"


def address(some):
    called = bytes([some[0] & 0x7F]) + some[1:]
    if called == EVERY:
        return "every channel"
    if len(called) == 1 and called[0] <= 15:
        return f"polling address {called[0]}"
    if len(called) == 5 and called[0] == MANUFACTURER:
        return f"device type {called[1]}, identification {int.from_bytes(called[2:], 'big')}"
    return f"address {hexadecimal(some)}, which no channel has"


def question(whole):
    texts = asked(whole.command, whole.data)
    if texts is None:
        return f"{in_words(whole.command)}, data {hexadecimal(whole.data) or 'none'}"
    kinds = COMMANDS[whole.command].asks if whole.command in COMMANDS else ()
    said = [f"{text} percent" if isinstance(kind, Percent) else
            f"'{text}'" if isinstance(kind, Letters) else text
            for kind, text in zip(kinds, texts)]
    return in_words(whole.command) + (": " + ", ".join(said) if said else "")


def answer(one):
    """What an answer tells."""
    if one.code & COMMUNICATION_ERROR:
        return f"communication error: {', '.join(damages(one.code))}; nothing is done"
    flag = "; its configuration changed flag is set" if one.second == CHANGED else ""
    if one.code:
        return f"code {one.code}, {CODES.get(one.code, 'unknown')}; nothing is done{flag}"
    told = TOLD.get(one.command)
    return "no error" + (f"; {told(one.data)}" if told else "") + flag


def damages(status):
    names = [MARKED[added] for _, added in ADDED if status & added]
    return names + (["wrong check"] if status & WRONG_CHECK else [])


def pattern(some):
    return binary32.text_of(number(some))


def identifier(data):
    return f"device type {data[2]}, identification {number(data[9:])}"


def setpoint(data):
    return f"setpoint {pattern(data[1:5])} percent, {pattern(data[6:])} mL/min"


def plate(data):
    return (f"tag '{Letters(8).letters(data[:6])}', descriptor"
            f" '{Letters(16).letters(data[6:18])}', date {Date().show(data[18:])}")


def message(data):
    return f"message '{Letters(32).letters(data)}'"


def assembly(data):
    return f"final assembly number {number(data)}"


TOLD = {
    0: identifier,
    1: lambda data: f"flow {pattern(data[1:])}, unit code {data[0]}",
    6: lambda data: f"polling address {data[0]} from now on",
    11: identifier,
    12: message,
    13: plate,
    16: assembly,
    17: message,
    18: plate,
    19: assembly,
    38: lambda data: "the configuration changed flag is reset",
    59: lambda data: f"{data[0]} preambles from this answer on",
    235: setpoint,
    236: setpoint,
}


def unwhole(transmission):
    """Why a transmission is not whole."""
    preambles = frames.count_preambles(transmission)
    frame = transmission[preambles:]
    if not transmission:
        return "nothing was heard"
    if not frame:
        return "not whole: preambles alone"
    if preambles < 2:
        return f"not whole: {'one preamble' if preambles else 'no preambles'}, where two are wanted"
    if frame[0] not in frames.WIDTH_OF_START:
        return f"not whole: no request starts with {frame[0]:02X}"
    width = frames.WIDTH_OF_START[frame[0]]
    if len(frame) < width + 3:
        return "not whole: it ends before its count"
    length = width + 4 + frame[width + 2]
    if len(frame) < length:
        return f"not whole: {length - len(frame)} of the frame's {length} bytes are missing"
    return f"not whole: {len(frame) - length} bytes stand behind the check"


def nobody(whole, frame, meant):
    """Why a whole transmission met silence; which channels it means is None if unknown."""
    right = frames.exclusive_or(frame[:-1])
    check = "" if right == frame[-1] else (
        f" (wrong check too: {frame[-1]:02X} in the place of {right:02X})")
    if meant:
        return f"it means several channels: {', '.join(map(str, meant))}{check}"
    if meant == [] or address(whole.address).endswith("no channel has"):
        return f"it means no channel{check}"
    return f"it means no channel, or several{check}"


def record(some):
    """The record of a look, in short."""
    return (f"tag '{value(some, 'tag')}', polling address {value(some, 'polling address')},"
            f" key {value(some, 'key')}, setpoint {value(some, 'setpoint')} percent of"
            f" {int(value(some, 'full scale')):,} mL/min, ceiling {value(some, 'ceiling')},"
            f" flow {value(some, 'flow')}, temperature {value(some, 'temperature')}")
