"""The lone run of one channel, and whether it is what the channel did in a run."""

from history import content
from recording import Recording
from some_events import character, gap, key, sample
from some_supply_events import gap_of, look

OVER_SUPPLY = 16


def lone_difference(channel, trace, first, after, supply, play):
    """In words, what the channel does alone and did not in the run; None for nothing.

    `first` is its record at set-up, `after` the one in the end, and None where that
    is not known: then only answers and results are compared. `supply` is None where
    the program is linerun.
    """
    program = "linerun" if supply is None else "supplyrun"
    events, wanted = lone(channel, trace, gap() if supply is None else gap_of(64))
    if after is not None:
        events.append(look(0))
        wanted.append(after.hex().upper())
    # All of it is heard, so nothing answers at one gap more.
    events.append(gap())
    wanted.append("silent")
    found = play(Recording(program, supply, first, b"".join(events)))
    found = found.decode("ascii").splitlines()
    if found == wanted:
        return None
    at = 0
    while found[at:at + 1] == wanted[at:at + 1]:
        at += 1
    return (f"channel {channel} alone, line {at}:"
            f"\n  alone      {(found + ['nothing'])[at] if at <= len(found) else 'nothing'}"
            f"\n  in the run {(wanted + ['nothing'])[at] if at <= len(wanted) else 'nothing'}")


def lone(channel, trace, some_gap):
    """The events of the lone run, and the lines that the run had for them."""
    events, wanted, line = [], [], []
    for event in trace:
        if event.call == "character" and event.result == "taken":
            line.append(event.values)
        if event.call in ("sample", "key") and event.values[0] == channel:
            events.append(operation(event))
            if event.result != "taken":
                wanted.append(f"refused {event.result}")
        if event.call == "gap" and event.result != 102:
            if answers(event.result, channel):
                events += [character(*one) for one in line] + [some_gap]
                wanted.append(f"0 {event.result[1].hex().upper()}")
            line = []
    return events, wanted


def operation(event):
    _, *values = event.values
    return sample(0, *values) if event.call == "sample" else key(0, *values)


def answers(result, channel):
    """Whether the channel answers, and not with code 16."""
    if result == "silent" or result[0] != channel:
        return False
    _, status, *_ = content(result[1])
    return status != OVER_SUPPLY
