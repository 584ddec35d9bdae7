"""The manuals' figures as recordings, as far as they can be put as such."""

import figures
from recording import Recording
from rows_read import request
from some_channels import EVERY, long, short
from some_events import key, sample, sent
from some_records import record
from some_setpoints import MINUS_ZERO

SUPPLY = 15_000_000


def recordings():
    return (examples() + errors() + numbers() + not_a_number() + units() + texts()
            + flow_units())


def linerun(some, *events):
    return Recording("linerun", None, b"".join(some), b"".join(events))


def device(device_type, polling=1, **more):
    """An instrument as in the examples, with its key open."""
    plain = dict(device=device_type, identification=1, polling=polling, preambles=5,
                 flags=2, setpoint=0, ceiling=100, unit=figures.LITRES_PER_MINUTE,
                 full_scale=figures.FULL_SCALE, flow=figures.FLOW[1], temperature=0,
                 text=figures.TAG_PACKED + bytes(39))
    return record(**{**plain, **more})


def asked(address, command, data=b"", marks=b""):
    """With five preambles, as a master should send."""
    return sent(request(address, command, data, 5), marks)


def percent(pattern):
    return bytes([figures.PERCENT]) + pattern.to_bytes(4, "big")


def examples():
    """Of each series: who has the tag, its flow, a setpoint of 85 percent."""
    some = []
    for device_type in figures.DEVICE_TYPES.values():
        one = device(device_type)
        for address in (long(one), short(one)):
            some.append(linerun(
                [one], asked(EVERY, 11, figures.TAG_PACKED), asked(address, 0),
                asked(address, 1), asked(address, 236, percent(figures.SETPOINT[1])),
                asked(address, 235)))
    # All three on one line.
    all_three = [device(device_type, polling, text=bytes(45)) for polling, device_type
                 in enumerate(figures.DEVICE_TYPES.values())]
    some.append(linerun(all_three, *(asked(long(one), 0) for one in all_three)))
    return some


def errors():
    """Parity, overrun, framing, checksum: each alone, and all of them."""
    one = device(100)
    good = request(long(one), 1, b"", 5)
    bad = good[:-1] + bytes([good[-1] ^ 1])
    marks = [bytes(len(good) - 1) + bytes([mark]) for mark in (1, 2, 4)]
    return [linerun([one], *(sent(good, mark) for mark in marks), sent(bad),
                    sent(bad, bytes(5) + b"\x01\x02\x04"))]


def numbers():
    """Each command error that is given, and the flag of a changed configuration."""
    one = device(70)
    address = long(one)
    denied = Recording("supplyrun", 850, one, asked(address, 236, percent(0x42AA0001))
                       + asked(address, 236, percent(figures.SETPOINT[1])))
    return [denied, linerun(
        [one], asked(address, 235), asked(address, 6, b"\x10"), asked(address, 6, b"\x0f"),
        asked(address, 59, b"\x10"), asked(address, 59, b"\x01"),
        asked(address, 59, b"\x02"), asked(address, 59, b"\x0f"),
        asked(address, 236, percent(0x42C80001)), asked(address, 236, percent(0x80000001)),
        asked(address, 236, percent(MINUS_ZERO)), asked(address, 19, b"\x00\x01"),
        asked(address, 19, b"\x00\x01\x02"), asked(address, 38), asked(address, 2),
        asked(address, 128), key(0, 0), asked(address, 38), asked(address, 16))]


def not_a_number():
    """As a setpoint, and as a flow and a temperature."""
    one = device(90)
    pattern = int.from_bytes(figures.NOT_USED_NUMBER, "big")
    return [linerun([one], asked(long(one), 236, percent(pattern)),
                    sample(0, pattern, 0), sample(0, 0, pattern), asked(long(one), 1))]


def units():
    """Percent, and the two codes that mean the selected unit."""
    one = device(100)
    data = [bytes([unit]) + figures.SETPOINT[1].to_bytes(4, "big")
            for unit in (figures.PERCENT, *figures.NOT_USED)]
    return [linerun([one], *(asked(long(one), 236, some) for some in data))]


def texts():
    """All codes of packed text in two messages, and back."""
    one = device(100)
    codes = packed_codes()
    tag = figures.TAG_PACKED + codes[:12] + bytes([15, 8, 115])
    return [linerun([one], asked(long(one), 17, codes[:24]), asked(long(one), 12),
                    asked(long(one), 17, codes[24:]), asked(long(one), 12),
                    asked(long(one), 18, tag), asked(long(one), 13))]


def packed_codes():
    """The codes 00 to 3F in a row, four in three bytes."""
    bits = "".join(f"{code:06b}" for code in range(64))
    return int(bits, 2).to_bytes(48, "big")


def flow_units():
    """Each is passed on as it is held."""
    some = [device(100, at % 15, identification=unit, unit=unit, text=bytes(45))
            for at, unit in enumerate(figures.FLOW_UNITS)]
    racks = [some[at:at + 15] for at in range(0, len(some), 15)]
    return [linerun(rack, *(sent(request(short(one), 1, b"")) for one in rack))
            for rack in racks]
