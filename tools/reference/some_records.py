"""Records to try, put together byte by byte."""

import some_patterns

ZEROS = bytes(7)

# No two of the text's bytes are alike, so a wrong place shows.
TEXT = bytes((0x41 + 37 * at) % 256 for at in range(45))


def record(device=0x5A, identification=0x123456, polling=3, preambles=5,
           assembly=0x789ABC, flags=0, setpoint=0x41C80000, ceiling=80, unit=0x11,
           full_scale=1000, flow=0x43790000, temperature=0x41B40000, text=TEXT,
           rest=ZEROS):
    """A lawful record but for what is given."""
    some = (device.to_bytes(1, "big") + identification.to_bytes(3, "big")
            + bytes([polling, preambles]) + assembly.to_bytes(3, "big")
            + bytes([flags]) + setpoint.to_bytes(4, "big") + bytes([ceiling, unit])
            + full_scale.to_bytes(4, "big") + flow.to_bytes(4, "big")
            + temperature.to_bytes(4, "big") + text + rest)
    if len(some) != 80:
        raise ValueError(f"{len(some)} bytes")
    return some


PLAIN = record()

LEAST = record(device=0, identification=0, polling=0, preambles=2, assembly=0,
               setpoint=0, ceiling=0, unit=0, full_scale=1, flow=0, temperature=0,
               text=bytes(45))

MOST = record(device=0xFF, identification=0xFFFFFF, polling=15, preambles=15,
              assembly=0xFFFFFF, flags=3, setpoint=0x42C80000, ceiling=100, unit=0xFF,
              full_scale=1000000, flow=0x7F7FFFFF, temperature=0xFF7FFFFF,
              text=b"\xff" * 45)


def any_record(chance):
    """A lawful record by chance."""
    return record(
        device=chance.below(256), identification=chance.below(2**24),
        polling=chance.below(16), preambles=2 + chance.below(14),
        assembly=chance.below(2**24), flags=chance.below(4),
        setpoint=some_patterns.lawful(chance), ceiling=chance.below(101),
        unit=chance.below(256), full_scale=1 + chance.below(1000000),
        flow=finite(chance), temperature=finite(chance), text=chance.bytes(45))


def finite(chance):
    """A finite pattern by chance, of either sign."""
    return 0x80000000 * chance.below(2) + chance.below(0x7F800000)
