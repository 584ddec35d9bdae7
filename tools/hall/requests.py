"""A request's transmission as a readable line, and back.

    COMMAND VALUES to ADDRESS [by secondary] [preambles N]
"""

import re

import frames
from refusal import Refused

from hall.commands import COMMANDS, NUMBERS, asked
from hall.fields import Date, Letters
from hall.wrong import Wrong

MASTER = 0x80
MANUFACTURER = 10
PREAMBLES = 2
MOST_PREAMBLES = 20
EVERY = bytes(5)
BYTE = "[0-9A-Fa-f]{2}"


def whole_number(text, low, high, what):
    if not re.fullmatch("[0-9]{1,10}", text) or not low <= int(text) <= high:
        raise Wrong(f"{what} wants a number from {low} to {high}; not '{text}'")
    return int(text)


def address_of(text):
    """The address bytes of a text, without the master's bit."""
    if text == "all":
        return EVERY
    device, colon, identification = text.partition(":")
    if not colon:
        return bytes([whole_number(text, 0, 15, "a polling address")])
    return (bytes([MANUFACTURER, whole_number(device, 0, 255, "a device type")])
            + whole_number(identification, 0, 0xFFFFFF, "an identification").to_bytes(3, "big"))


def address_text(address):
    """The text of an address; None where a bit of it is set that no text sets."""
    called = bytes([address[0] & ~MASTER]) + address[1:]
    if called == EVERY:
        return "all"
    if len(called) == 1 and called[0] <= 15:
        return str(called[0])
    if len(called) == 5 and called[0] == MANUFACTURER:
        return f"{called[1]}:{int.from_bytes(called[2:], 'big')}"
    return None


def sent(words):
    """The transmission of a request's words."""
    number, words = command_of(words[0]), list(words[1:])
    data, words = data_of(number, words)
    said = {"by": "primary", "preambles": str(PREAMBLES), **options(words)}
    if "to" not in said:
        raise Wrong("the request wants an address: to 1, to 70:1 or to all")
    if said["by"] not in ("primary", "secondary"):
        raise Wrong(f"by wants primary or secondary; not '{said['by']}'")
    address = bytearray(address_of(said["to"]))
    address[0] |= MASTER if said["by"] == "primary" else 0
    preambles = whole_number(said["preambles"], PREAMBLES, MOST_PREAMBLES, "preambles")
    buffer = bytearray(300)
    return bytes(buffer[:frames.make(preambles, bytes(address), number, data, buffer)])


def command_of(name):
    if name in NUMBERS:
        return NUMBERS[name]
    if re.fullmatch("command-[0-9]{1,3}", name) and int(name[8:]) <= 255:
        return int(name[8:])
    raise Wrong(f"'{name}' is neither a byte nor a command; commands are"
                f" {', '.join(NUMBERS)}, command-0 to command-255")


def data_of(number, words):
    """The data that a request's words give, and the words behind them."""
    if words[:1] == ["data"]:
        count = 1
        while count < len(words) and re.fullmatch(BYTE, words[count]):
            count += 1
        if count > 256:
            raise Wrong(f"a request has at most 255 data bytes; not {count - 1}")
        return bytes.fromhex("".join(words[1:count])), words[count:]
    kinds = COMMANDS[number].asks if number in COMMANDS else ()
    data = b""
    for kind in kinds:
        some = kind.make(words[0]) if words else None
        if some is None:
            raise Wrong(f"{COMMANDS[number].name} wants {kind.wants}, or data and bytes;"
                        f" not '{words[0] if words else ''}'")
        data, words = data + some, words[1:]
    return data, words


def options(words):
    if len(words) % 2 or not set(words[::2]) <= {"to", "by", "preambles"}:
        raise Wrong("behind a request's values stand: to ADDRESS, by primary or secondary,"
                    f" preambles NUMBER; not '{' '.join(words)}'")
    if len(set(words[::2])) < len(words) // 2:
        raise Wrong(f"'{' '.join(words)}' says one thing twice")
    return dict(zip(words[::2], words[1::2]))


def readable(transmission):
    """The line that makes a transmission again; None where there is none."""
    try:
        request = frames.read(transmission)
    except Refused:
        return None
    address = address_text(request.address)
    if address is None or request.preambles > MOST_PREAMBLES:
        return None
    words = [name_of(request.command), *data_words(request), "to", address]
    if not frames.is_primary(request.address):
        words += ["by", "secondary"]
    if request.preambles != PREAMBLES:
        words += ["preambles", str(request.preambles)]
    return " ".join(words)


def name_of(number):
    return COMMANDS[number].name if number in COMMANDS else f"command-{number}"


def data_words(request):
    texts = asked(request.command, request.data)
    # A quotation mark is a letter, but would end the word that it stands in.
    if texts is None or any('"' in text for text in texts):
        return ["data", *request.data.hex(" ").upper().split()]
    if request.command not in COMMANDS:
        return []
    kinds = COMMANDS[request.command].asks
    return [f'"{text}"' if isinstance(kind, (Letters, Date)) else text
            for kind, text in zip(kinds, texts)]
