"""Requests to a panel by chance, most of them in order."""

from kinds import TAG_QUESTION
from rows_address import turned
from rows_command import READING, TAKEN, UNTABLED
from rows_make import some_data
from rows_read import request
from some_channels import EVERY, EVERY_SECONDARY, PRIMARY, SECONDARY, long, short, tag
from some_setpoints import by_supply, some_setpoint

SETPOINT = 236
COMMANDS = (READING + tuple(TAKEN) * 2 + (TAG_QUESTION, TAG_QUESTION, SETPOINT, SETPOINT,
                                          SETPOINT, None))
MASTERS = ((PRIMARY, "primary"), (SECONDARY, "secondary"))


def some_request(chance, panel, note, preambles=None):
    command = some_command(chance, note)
    channel = some_channel(chance, panel, command)
    address = some_address(chance, panel.rack, channel, command, note)
    data = some_request_data(chance, panel, channel, command, note)
    if preambles is None:
        preambles = 2 + chance.below(chance.one_of((1, 1, 4)))
    return request(address, command, data, preambles)


def some_channel(chance, panel, command):
    """Any; for a write mostly one whose key is open, if there is one."""
    every = range(len(panel.rack))
    if command in TAKEN and chance.below(3) > 0:
        is_open = [at for at in every if panel.rack[at][9] & 2]
        every = is_open or every
    return chance.one_of(every)


def edge_request(chance, panel, note):
    """A setpoint that the supply just has room for or not; None where it is no edge."""
    channel = some_channel(chance, panel, SETPOINT)
    edges = by_supply(panel, channel)
    if not edges:
        return None
    kind, pattern = chance.one_of(edges)
    note(kind)
    address = long(panel.rack[channel], chance.one_of(MASTERS)[0])
    return request(address, SETPOINT, b"\x39" + pattern.to_bytes(4, "big"))


def some_command(chance, note):
    command = chance.one_of(COMMANDS)
    if command is None:
        note("command not tabled")
        return chance.one_of(UNTABLED)
    note(f"command {command}")
    return command


def some_address(chance, rack, channel, command, note):
    one = rack[channel]
    if chance.below(8) == 0:
        return wrong_address(chance, one, note)
    master, name = chance.one_of(MASTERS)
    kind = chance.one_of(address_kinds(chance, rack, one, command))
    note(f"{kind} address, {name} master")
    if kind == "every":
        return EVERY if master == PRIMARY else EVERY_SECONDARY
    return short(one, master) if kind == "short" else long(one, master)


def address_kinds(chance, rack, one, command):
    """Mostly such as mean one channel alone, for others are met by silence."""
    if chance.below(6) == 0:
        return "short", "long", "every"
    kinds = ["long"]
    if sum(other[4] == one[4] for other in rack) == 1:
        kinds.append("short")
    if len(rack) == 1 or command == TAG_QUESTION:
        kinds.append("every")
    return kinds


def wrong_address(chance, one, note):
    master, _ = chance.one_of(MASTERS)
    kind, address = chance.one_of((
        ("short address with a bit of 6 to 4",
         turned(short(one, master), 0, 4 + chance.below(3))),
        ("another short address", turned(short(one, master), 0, chance.below(4))),
        ("long address with bit 6", turned(long(one, master), 0, 6)),
        ("another manufacturer", turned(long(one, master), 0, chance.below(6))),
        ("another long address", turned(long(one, master), 1 + chance.below(4),
                                        chance.below(8))),
        ("that of every channel but a bit",
         turned(EVERY, chance.below(5), chance.below(7))),
    ))
    note(kind)
    return address


def some_request_data(chance, panel, channel, command, note):
    if command == TAG_QUESTION:
        return tag_data(chance, panel, channel, note)
    if command not in TAKEN:
        if chance.below(4) > 0:
            return b""
        note("data that is disregarded")
        return some_data(chance.one_of((1, 5, 24, 24, 255)), chance.below(256))
    data = write_data(chance, panel, channel, command, note)
    if chance.below(8) > 0:
        return data
    return wrong_count(chance, data, note)


def tag_data(chance, panel, channel, note):
    own = tag(panel.rack[channel])
    turn = chance.below(8)
    if turn == 0:
        note("tag question of another count")
        return chance.one_of((b"", own[:5], own + b"\x00"))
    if turn == 1:
        note("tag of nobody")
        return turned(own, chance.below(6), chance.below(8))
    several = sum(tag(one) == own for one in panel.rack) > 1
    note("tag of several" if several else "tag of one")
    return own


def write_data(chance, panel, channel, command, note):
    other = chance.one_of(panel.rack)
    if command == 6:
        return chance.one_of((other[4:5], bytes([chance.below(16)]),
                              chance.one_of((b"\x0f", b"\x10", b"\xff"))))
    if command == 59:
        return bytes([chance.one_of((2, 5, 14, 15, 0, 1, 16, 255))])
    if command == 18:
        # The tag of another, so that several have it then.
        return chance.one_of((tag(other), chance.bytes(6))) + chance.bytes(15)
    if command == SETPOINT:
        kind, pattern = some_setpoint(chance, panel, channel)
        note(kind)
        unit = 0x39
        if chance.below(10) == 0:
            note("setpoint in another unit")
            unit = chance.one_of((0x00, 0x38, 0xFA, 0xFF))
        return bytes([unit]) + pattern.to_bytes(4, "big")
    return chance.bytes(len(TAKEN[command]))


def wrong_count(chance, data, note):
    kind, other = chance.one_of((
        ("a data byte too few", data[:-1]), ("a data byte too many", data + b"\x00"),
        ("no data", b""), ("255 data bytes", (data + bytes(255))[:255]),
    ))
    if len(other) != len(data):
        note(kind)
    return other
