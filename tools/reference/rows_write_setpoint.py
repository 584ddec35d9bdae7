"""Table rows for the writes of a setpoint, under two ceilings."""

from chance import Chance
from racktable import write_line
from some_patterns import any_pattern, beside, edges, exactly, lawful
from some_records import LEAST, MOST, PLAIN, any_record, record


def rows():
    return named() + two_ceilings() + random_rows()


def setpoint_line(one, ceiling, pattern):
    return write_line(one, ceiling, f"setpoint {pattern:08X}")


def named():
    lines = [setpoint_line(MOST, 255, pattern) for pattern in edges()]
    lines += [setpoint_line(one, 100, pattern) for one in (PLAIN, LEAST)
              for pattern in (0x00000000, 0x00000001, 0x80000000, 0x80000001,
                              0x3A800000, 0x42A00000, 0x42A00001, 0x7F800000,
                              0x7FC00000, 0xFF800000)]
    return lines


def two_ceilings():
    """Around the smaller of the two, and at the larger."""
    lines = []
    for own in (0, 1, 50, 80, 100):
        for other in (0, 1, 50, 99, 100, 101, 255):
            # The setpoint before may stand above both.
            one = record(ceiling=own, setpoint=exactly(100 - own // 2))
            for pattern in beside([exactly(min(own, other))]) + [exactly(max(own, other))]:
                lines.append(setpoint_line(one, other, pattern))
    return lines


def random_rows():
    chance = Chance(38)
    lines = [setpoint_line(any_record(chance), chance.below(120), lawful(chance))
             for _ in range(30)]
    lines += [setpoint_line(any_record(chance), chance.below(256), any_pattern(chance))
              for _ in range(15)]
    return lines
