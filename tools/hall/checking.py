"""A record file weighed against a supply: each channel's share, their sum, the head room."""

from records import FULL_SCALE, SETPOINT
from set_up import identity
from setpoints import load
from shares import SUPPLY_PARTS, share_of

from hall.events import MOST_SUPPLY
from hall.recordfiles import value
from hall.words import flow
from hall.wrong import Wrong

HEADS = ("channel", "tag", "setpoint %", "full scale", "load", "share", "share in mL/min")


def weighed(records, supply):
    """The table, line by line; refused at its end as a set-up would be."""
    rows = [row(channel, record) for channel, record in enumerate(records)]
    widths = [max(map(len, column)) for column in zip(HEADS, *rows)]
    for one in (HEADS, *rows):
        yield "  ".join(cell.rjust(width) for cell, width in zip(one, widths)).rstrip()
    total, room = sum(map(share_of, records)), supply * SUPPLY_PARTS
    yield ""
    yield f"sum of the shares  {total:>21,}  {flow(total)} mL/min"
    yield f"the supply         {room:>21,}  {flow(room)} mL/min"
    yield f"head room          {room - total:>21,}  {flow(room - total)} mL/min"
    yield from verdict(records, supply, total, room)


def row(channel, record):
    share = share_of(record)
    return (str(channel), value(record, "tag"), value(record, "setpoint"),
            f"{FULL_SCALE.of(record):,}", f"{load(SETPOINT.of(record)):,}", f"{share:,}",
            flow(share))


def verdict(records, supply, total, room):
    """In the order in which a set-up refuses."""
    if supply > MOST_SUPPLY:
        raise Wrong(f"refused 107: the supply is above {MOST_SUPPLY:,} mL/min")
    seen = {}
    for channel, record in enumerate(records):
        first = seen.setdefault(identity(record), channel)
        if first != channel:
            raise Wrong(f"refused 105: channels {first} and {channel} have the same device type"
                        " and identification number")
    if total > room:
        raise Wrong("refused 106: the shares do not fit the supply")
    yield "a set-up under this supply is taken"
