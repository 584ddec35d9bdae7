"""Panels to try, and calls on them in a row."""

from panel import Panel
from refusal import Refused
from some_records import record

UNTOUCHED = 0xA5


def channel(number, polling, assembly=0, **more):
    """A channel with its key open and a full scale of 1,000, but for what is given."""
    plain = dict(device=70, identification=number, polling=polling, preambles=2,
                 assembly=assembly, flags=2, setpoint=0, ceiling=100, unit=0,
                 full_scale=1000, flow=0, temperature=0, text=bytes(45))
    return record(**{**plain, **more})


def outcome(call, *arguments):
    """The refusal's number, or `taken` where the call answers nothing."""
    try:
        found = call(*arguments)
    except Refused as refused:
        return refused.code
    return "taken" if found is None else found


def gap(panel, room=64):
    """The refusal's number, `silent`, or the channel and its answer; the buffer."""
    buffer = bytearray([UNTOUCHED]) * room
    try:
        found = panel.gap(buffer)
    except Refused as refused:
        return refused.code, bytes(buffer)
    if found is None:
        return "silent", bytes(buffer)
    number, length = found
    return (number, bytes(buffer[:length])), bytes(buffer)


def tell(panel, some, marks=b""):
    """A transmission without its gap; marks left out at the end are 0."""
    for one in zip(some, marks.ljust(len(some), b"\x00")):
        panel.character(*one)


def ask(panel, some, marks=b"", room=64):
    """A transmission and a gap: its outcome, without the buffer."""
    tell(panel, some, marks)
    return gap(panel, room)[0]


def state(panel):
    """All that a panel holds, to be compared."""
    kept = panel.receiver
    return (list(panel.rack), panel.supply, kept.preambles, kept.span, kept.marks,
            kept.is_overlong)


def ready(rack, supply=15_000_000):
    panel = Panel(rack)
    panel.set_up(supply)
    return panel
