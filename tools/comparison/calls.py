"""Which call on a panel an event is, and what a run tells of each."""

import events
import supplyevents
from events import LENGTH
from some_runs import Event


class Noting:
    """In a panel's place: it notes the call that an event makes."""

    def __init__(self):
        self.call = None

    def character(self, byte, marks):
        self.call = "character", (byte, marks)

    def gap(self, buffer):
        self.call = "gap", (len(buffer),)

    def sample(self, channel, flow, temperature):
        self.call = "sample", (channel, flow, temperature)

    def key(self, channel, is_open):
        self.call = "key", (channel, is_open)

    def look(self, channel, buffer):
        self.call = "look", (channel,)

    def set_up(self, supply):
        self.call = "set_up", (supply,)


def call_of(event, program):
    """The call with its values; None for an event that is out of form or cut off."""
    noting = Noting()
    line_of = supplyevents.line_of if program == "supplyrun" else events.line_of
    line_of(noting, event)
    return noting.call


def cut(given):
    return [given[at:at + LENGTH] for at in range(0, len(given), LENGTH)]


def trace_of(recording, lines_by_number):
    """Each call of a recording with its result; None for what is no call."""
    for number, event in enumerate(cut(recording.events)):
        call = call_of(event, recording.program)
        line = lines_by_number.get(number)
        yield None if call is None else Event(*call, result(line))


def result(line):
    """What a line tells: a refusal's number, `silent`, an answer, a record, `taken`."""
    if line is None or line == "set up":
        return "taken"
    if line.startswith("refused "):
        return int(line.split(" ")[1])
    if line == "silent":
        return line
    *number, some = line.split(" ")
    return (int(number[0]), bytes.fromhex(some)) if number else bytes.fromhex(some)
