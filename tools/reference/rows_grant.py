"""Table rows for command 236: unit bytes, setpoints by ceilings, units, supply."""

from chance import Chance
from setpoints import load, share
from some_channels import EVERY, OPEN, SUPPLY, ask, long
from some_patterns import exactly, lawful
from some_records import record

EDGES = (0x00000000, 0x80000000, 0x00000001, 0x80000001, 0x42C80000, 0x42C80001,
         0x7F7FFFFF, 0x7F800000, 0xFF800000, 0x7FC00000, 0xFFC00000)
MORE_EDGES = (0x00800000, 0x80800000, 0x3A800001, 0x437F0000, 0x4A7FFFFF, 0x4A800000,
              0x7F800001, 0xFF7FFFFF, 0xFF800001, 0xFFFFFFFF)
CAPACITY = 102_400  # shares for each mL/min of supply


def rows():
    return (by_ceiling() + unit_bytes() + in_units() + told_in_units() + on_the_edge()
            + one_more() + out_of_order() + any_numbers() + weighed_alone())


def asked(pattern, unit=0x39):
    return bytes([unit]) + pattern.to_bytes(4, "big")


def grant(one, pattern, supply=SUPPLY, others=0, **more):
    return ask(one, 236, asked(pattern), supply=supply, others=others, **more)


def by_ceiling():
    lines = []
    for ceiling, edges in ((0, EDGES), (80, EDGES), (100, EDGES), (1, ()), (50, ())):
        one = record(flags=2 + ceiling % 2, ceiling=ceiling, setpoint=0x41200000)
        own = exactly(ceiling)
        for pattern in dict.fromkeys(edges + (own, own + 1, max(own, 1) - 1)):
            lines.append(grant(one, pattern))
    lines += [grant(record(flags=2, ceiling=100), pattern) for pattern in MORE_EDGES]
    return lines


def unit_bytes():
    lines = []
    for unit in (0x00, 0x38, 0x3A, 0x11, 0x39, 0x79, 0xB9, 0xFA, 0xFF):
        lines.append(ask(OPEN, 236, asked(0x42480000, unit)))
    # The unit is tried before the setpoint.
    for pattern in (0x7FC00000, 0x80000001, 0x7F800000, 0x42A00001):
        lines.append(ask(OPEN, 236, asked(pattern, 0xFA)))
    # The flow unit of the record is passed on, and is not asked for.
    for unit in (0x39, 0xFA):
        lines.append(ask(record(flags=2, unit=unit), 236, asked(0x42480000)))
        lines.append(ask(record(flags=2, unit=unit), 236, asked(0x42480000, unit)))
    return lines


def in_units():
    """The answer tells the new setpoint in units, rounded twice."""
    lines = []
    for pattern, full_scale in (
        (0x00000001, 1), (0x00000032, 1), (0x00000033, 1), (0x00000096, 1),
        (0x42C80000, 1), (0x42C80000, 1_000_000), (0x3DCCCCCD, 1000), (0x42480001, 1000),
        (0x41C80001, 999_999), (0x3F800000, 999_999), (0x00800000, 1_000_000),
        (0x80000000, 1_000_000), (0x42C7FFFF, 777_777), (0x40490FDB, 123_457),
    ):
        lines.append(grant(record(flags=2, ceiling=100, full_scale=full_scale), pattern))
    return lines


def told_in_units():
    """As the record holds it: above its ceiling too, and with the key shut."""
    chance = Chance(51)
    lines = []
    for ceiling, setpoint, full_scale in (
        (0, 0x42C80000, 1_000_000), (80, 0x42A00001, 1000), (25, 0x42480001, 1000),
        (100, 0x00000001, 3),
    ):
        one = record(ceiling=ceiling, setpoint=setpoint, full_scale=full_scale)
        lines.append(ask(one, 235))
    for _ in range(8):
        one = record(flags=chance.below(4), ceiling=chance.below(101),
                     setpoint=lawful(chance), unit=chance.below(256),
                     full_scale=1 + chance.below(1_000_000))
        lines.append(ask(one, 235, address=long(one)))
    return lines


def edge(old, pattern, full_scale, supply):
    """Others that leave just enough room, and one less, for the new share."""
    one = record(flags=2, ceiling=100, setpoint=old, full_scale=full_scale)
    room = supply * CAPACITY - share(load(pattern), full_scale)
    return [grant(one, pattern, supply, others)
            for others in (room, room + 1) if 0 <= others]


def on_the_edge():
    lines = []
    # The old share is mostly large: beside the new one it would not fit.
    for old, pattern, full_scale, supply in (
        (0x42C80000, 0x42480000, 1000, 1500), (0x42C80000, 0x42480001, 1000, 1500),
        (0x42C80000, 0x42C80000, 1000, 1000), (0x42C80000, 0x42C7FFFF, 1000, 1000),
        (0x42C80000, 0x00000001, 1_000_000, 10), (0x42C80000, 0x3DCCCCCD, 999, 77),
        (0x42C80000, 0x42C80000, 1_000_000, 15_000_000),
        (0x42C80000, 0x00000000, 1_000_000, 0), (0x42C80000, 0x80000000, 1_000_000, 0),
        (0x00000000, 0x41C80000, 400, 100), (0x00000000, 0x41C80001, 400, 101),
        (0x42480000, 0x42C80000, 5, 4_294_967_295), (0x3F800000, 0x3F800001, 123_457, 2000),
        (0x42C80000, 0x42480000, 1, 1),
    ):
        lines += edge(old, pattern, full_scale, supply)
    return lines


def one_more():
    """A header of 1,500, another channel of 1,000 at 100 percent."""
    one = record(flags=2, ceiling=100, setpoint=0)
    lines = [grant(one, pattern, 1500, 102_400_000)
             for pattern in (0x4247FFFF, 0x42480000, 0x42480001, 0x42C80000)]
    lines.append(grant(one, 0x42480001, 1500, 102_400_000, address=long(one)))
    lines.append(grant(one, 0x42480000, 1499, 102_400_000))
    lines.append(grant(record(flags=3, ceiling=100), 0x42480001, 1500, 102_400_000))
    # By chance, now on one side of the edge and now on the other.
    chance = Chance(52)
    for _ in range(8):
        full_scale = 1 + chance.below(1_000_000)
        pattern = lawful(chance)
        supply = 1 + chance.below(15_000_000)
        new = share(load(pattern), full_scale)
        others = max(0, supply * CAPACITY - new + chance.one_of((-1000, -1, 0, 1, 1000)))
        one = record(flags=2 + chance.below(2), ceiling=100, setpoint=lawful(chance),
                     full_scale=full_scale)
        lines.append(grant(one, pattern, supply, others))
    return lines


def out_of_order():
    """No room in the header, and something else against it that is tried first."""
    over = {"supply": 0, "others": 1}
    lines = [grant(record(flags=2, ceiling=80), pattern, **over)
             for pattern in (0x42A00000, 0x42A00001, 0x7F800000, 0x80000001, 0xFF800000,
                             0x7FC00000, 0x80000000)]
    lines.append(grant(record(flags=0), 0x41200000, **over))
    lines.append(ask(OPEN, 236, asked(0x41200000, 0xFA), **over))
    lines.append(ask(OPEN, 236, asked(0x41200000)[:4], **over))
    lines.append(ask(OPEN, 236, asked(0x41200000) + b"\x00", **over))
    # No other command asks for room.
    for command, data in ((0, b""), (6, b"\x09"), (17, bytes(24)), (38, b""),
                          (59, b"\x02"), (235, b""), (237, b"")):
        lines.append(ask(OPEN, command, data, **over))
    return lines


def any_numbers():
    """Sums that leave 32 and 64 bits: cut off there, they would fit."""
    one = record(flags=2, ceiling=100, setpoint=0x42C80000, full_scale=1_000_000)
    most = share(102_400, 1_000_000)
    lines = [grant(one, 0x42C80000, supply, others) for supply, others in (
        (1_000_000, 0), (999_999, 0), (1_000_000, 1), (4_294_967_295, 0),
        (15_000_000, 2**64 - 1), (15_000_000, 2**64 - most), (0, 2**64 - most),
        (4_294_967_295, 2**64 - most - 1), (4_294_967_295, 2**63), (15_000_000, 2**32),
        (1_000_001, 102_400), (1_000_001, 102_401), (4_294_967_295, 4_294_967_295),
        (41_943, 0))]
    lines.append(grant(one, 0x00000000, 4_294_967_295, 4_294_967_295 * CAPACITY))
    lines.append(grant(one, 0x00000000, 4_294_967_295, 4_294_967_295 * CAPACITY + 1))
    lines.append(grant(one, 0x00000000, 0, 2**64 - 1))
    lines.append(grant(one, 0x00000001, 0, 0))
    return lines


def weighed_alone():
    """Neither the flow nor the ceiling nor the unit code has part in the sum."""
    lines = []
    for flow in (0x00000000, 0x7F7FFFFF, 0xFF7FFFFF):
        one = record(flags=2, ceiling=100, flow=flow, full_scale=100)
        lines.append(grant(one, 0x42480000, 50, 0))
        lines.append(grant(one, 0x42480001, 50, 0))
    # The old setpoint stands above the ceiling; a lower one is granted or not.
    one = record(flags=2, ceiling=10, setpoint=0x42C80000, full_scale=100)
    for pattern in (0x41200000, 0x41200001, 0x41100000):
        lines.append(grant(one, pattern, 10, 0, address=EVERY))
        lines.append(grant(one, pattern, 9, 0, address=EVERY))
    return lines
