"""What a program printed of a recording, in words beside the events."""

from replies import PERCENT
from setpoints import units

from hall import words
from hall.binary32 import text_of
from hall.events import Key, Look, Sample, SetUp, cut, event_of, is_gap, number
from hall.exchanges import steps
from hall.printed import OF_REFUSED_SET_UP, Unfit, fitting
from hall.showing import line_of, marks_text
from hall.standing import WRITE_SETPOINT
from hall.wrong import Wrong

MOST_BYTES = 40
OVER_SUPPLY = 16


def explained(recording, lines, standing=None):
    """The explanation, line by line."""
    events = list(map(event_of, cut(recording)))
    try:
        fit = fitting(events, lines, len(standing.records) if standing else None)
    except Unfit:
        if len(lines) != 1 or not OF_REFUSED_SET_UP.fullmatch(lines[0]):
            raise
        yield f"the first set-up is {lines[0]}: {words.SET_UP_REFUSALS[int(lines[0][8:])]};"
        yield "no event is worked"
        return
    for step in steps(events, lines, fit, standing):
        said = [one for one in said_of(step, standing) if one]
        if said:
            yield head(step)
            yield from (f"    {one}" for one in said)


def head(step):
    last = [] if step.event is None else [line_of(step.event)]
    if step.event is None or is_gap(step.event) and step.heard:
        return f"events {step.first} to {step.number}: {', '.join([heard_text(step.heard), *last])}"
    return f"event {step.number}: {last[0]}"


def heard_text(heard):
    """The bytes of characters, each with its marks."""
    some = [f"{one.byte:02X}" + (f"({marks_text(one.marks)})" if one.marks else "")
            for one in heard[:MOST_BYTES]]
    more = len(heard) - MOST_BYTES
    return " ".join(some) + (f" and {more} more" if more > 0 else "")


def said_of(step, standing):
    """What is to be said of a step; nothing of a character, which its gap tells of."""
    if step.event is None:
        yield "no gap ends these characters, so nobody answers"
        return
    if step.line is not None:
        yield f"printed: {step.line}"
    if step.line is not None and step.line.startswith("refused"):
        yield words.REFUSALS[int(step.line[8:])]
    elif is_gap(step.event):
        yield from said_of_gap(step, standing)
    elif isinstance(step.event, SetUp):
        yield f"the supply is {step.event.supply:,} mL/min from now on"
        if step.heard:
            yield f"the {len(step.heard)} characters before it are forgotten"
    elif isinstance(step.event, Look):
        yield words.record(bytes.fromhex(step.line))
    elif isinstance(step.event, Key):
        yield f"taken: the key of channel {step.event.channel} is {key_text(step.event)}"
    elif isinstance(step.event, Sample):
        yield f"taken: channel {step.event.channel} measures flow {text_of(step.event.flow)}," \
              f" temperature {text_of(step.event.temperature)}"


def key_text(event):
    return "open" if event.is_open else "shut"


def said_of_gap(step, standing):
    transmission = bytes(one.byte for one in step.heard)
    if step.request is None:
        yield words.unwhole(transmission)
        return
    yield words.request(step.request) + asked_flow(step, standing)
    if step.answer is None:
        meant = standing.meant(step.request) if standing else None
        if meant is not None and len(meant) == 1:
            raise Wrong(f"event {step.number} is silent, and the request means channel {meant[0]}:"
                        " are these the lines of this recording and rack?")
        yield words.nobody(step.request, transmission.lstrip(b"\xff"), meant)
        return
    yield f"channel {step.answer.channel}: {words.answer(step.answer)}"
    if step.answer.code == OVER_SUPPLY and standing:
        yield weighed(step, standing)


def asked_flow(step, standing):
    """A setpoint that is asked for, in mL/min, where it is known whose it is to be."""
    is_setpoint = step.request.command == WRITE_SETPOINT and len(step.request.data) == 5
    if not (standing and step.answer and is_setpoint and step.request.data[0] == PERCENT):
        return ""
    in_units = units(number(step.request.data[1:]), standing.full_scale(step.answer.channel))
    return "" if in_units is None else f", {text_of(in_units)} mL/min"


def weighed(step, standing):
    """Why a setpoint was not granted."""
    channel, pattern = step.answer.channel, number(step.request.data[1:])
    total = standing.asked_total(channel, pattern)
    others = sum(standing.shares()) - standing.shares()[channel]
    supply = "" if standing.supply is None else f" of {standing.supply:,}"
    return (f"{text_of(pattern)} percent of {standing.full_scale(channel):,} mL/min beside the"
            f" others' {words.flow(others)} is {words.flow(total)}, above the supply{supply}")
