"""A recording as it went: each event with its line, what was heard, and the answer."""

from collections import namedtuple

import frames
from refusal import Refused

from hall.commands import COMMANDS
from hall.events import MOST_MARKS, Character, Look, SetUp, is_gap
from hall.printed import beside
from hall.wrong import Wrong

WIDTH_OF_REPLY = {0x06: 1, 0x86: 5}

# Of a gap that is taken: the characters before it, the number of the first event of
# them, the whole request, and the answer; None for what there is not. Of a set-up that
# is taken, and of the end (an event None), the characters that no gap has ended.
Step = namedtuple("Step", "number event line heard first request answer",
                  defaults=(None, None, None, None))
Answer = namedtuple("Answer", "channel command code second data")


def steps(events, lines, fit, standing=None):
    """Step by step; what is known of the channels, if anything, follows."""
    pending, first, number = [], None, -1
    for number, (event, line) in enumerate(beside(events, lines, *fit)):
        step = Step(number, event, line)
        if isinstance(event, Character) and event.marks <= MOST_MARKS:
            first = first if pending else number
            pending.append(event)
        if is_gap(event) and line not in ("refused 102", "refused 110"):
            step = exchange(step._replace(heard=pending, first=first if pending else number))
            pending = []
        if is_taken_set_up(step):
            step = step._replace(heard=pending)
            pending = []
        if standing:
            follow(standing, step)
        yield step
    if pending:
        yield Step(number, None, None, pending, first)


def is_taken_set_up(step):
    return isinstance(step.event, SetUp) and step.line == "set up"


def exchange(step):
    step = step._replace(request=whole(bytes(one.byte for one in step.heard)))
    if step.line == "silent":
        return step
    answer = answer_of(step.line)
    if answer is None or step.request is None or answer.command != step.request.command:
        raise Wrong(f"what event {step.number} printed is no reply to what was heard: {step.line}")
    return step._replace(answer=answer)


def whole(transmission):
    """The request of a whole transmission, None where it is not whole."""
    preambles = frames.count_preambles(transmission)
    try:
        return frames.whole_after(preambles, transmission[preambles:])
    except Refused:
        return None


def answer_of(line):
    """The answer that a line tells; None where it is no reply."""
    channel, _, some = line.partition(" ")
    some = bytes.fromhex(some)
    frame = some[frames.count_preambles(some):]
    width = WIDTH_OF_REPLY.get(frame[0] if frame else None)
    # Start, address, command, count, two status bytes and a check.
    if width is None or len(frame) < width + 6 or len(frame) != width + 4 + frame[width + 2]:
        return None
    command, _, code, second = frame[width + 1:width + 5]
    data = frame[width + 5:-1]
    length = COMMANDS[command].told if code == 0 and command in COMMANDS else 0
    if len(data) != length or frames.exclusive_or(frame) != 0:
        return None
    return Answer(int(channel), command, code, second, data)


def follow(standing, step):
    if step.answer and step.answer.channel >= len(standing.records):
        raise Wrong(f"event {step.number} is answered by channel {step.answer.channel},"
                    " which the rack does not have")
    if step.answer and step.answer.code == 0:
        standing.accepted(step.answer)
    if isinstance(step.event, Look) and not step.line.startswith("refused"):
        standing.records[step.event.channel] = bytes.fromhex(step.line)
    if is_taken_set_up(step):
        standing.supply = step.event.supply
