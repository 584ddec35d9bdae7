"""The fourteen tabled commands: their names, and what their requests ask with."""

from collections import namedtuple

from hall.fields import Date, Letters, Percent, Whole

# The name in a recording's text, the name in words, the fields of the request's data,
# and how many bytes of data a reply without an error has.
Command = namedtuple("Command", "name words asks told")

COMMANDS = {
    0: Command("identify", "read unique identifier", (), 12),
    1: Command("read-flow", "read primary variable", (), 5),
    6: Command("write-polling-address", "write polling address", (Whole(1, 0, 255),), 1),
    11: Command("tag-question", "read unique identifier associated with tag", (Letters(8),), 12),
    12: Command("read-message", "read message", (), 24),
    13: Command("read-tag", "read tag, descriptor, date", (), 21),
    16: Command("read-assembly-number", "read final assembly number", (), 3),
    17: Command("write-message", "write message", (Letters(32),), 24),
    18: Command("write-tag", "write tag, descriptor, date", (Letters(8), Letters(16), Date()), 21),
    19: Command("write-assembly-number", "write final assembly number",
                (Whole(3, 0, 0xFFFFFF),), 3),
    38: Command("reset-changed-flag", "reset configuration changed flag", (), 0),
    59: Command("write-preambles", "write number of response preambles", (Whole(1, 0, 255),), 1),
    235: Command("read-setpoint", "read setpoint in percent and in units", (), 10),
    236: Command("write-setpoint", "write setpoint in percent", (Percent(),), 10),
}
NUMBERS = {command.name: number for number, command in COMMANDS.items()}


def asked(number, data):
    """The texts of a request's data, field by field; None where they do not make it again."""
    kinds = COMMANDS[number].asks if number in COMMANDS else ()
    if len(data) != sum(kind.length for kind in kinds):
        return None
    texts, at = [], 0
    for kind in kinds:
        texts.append(kind.show(data[at:at + kind.length]))
        at += kind.length
    made = [kind.make(text) for kind, text in zip(kinds, texts)]
    return texts if None not in made and b"".join(made) == data else None


def in_words(number):
    name = COMMANDS[number].words if number in COMMANDS else "not tabled"
    return f"{name} (command {number})"
