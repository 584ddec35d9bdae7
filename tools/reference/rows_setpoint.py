"""Table rows for loads, what a ceiling admits, and lawful setpoints."""

from chance import Chance
from racktable import admitted_line, lawful_line, load_line
from some_patterns import (any_pattern, beside, edges, exactly, lawful, percents,
                           powers, whole_loads)

CEILINGS = (0, 1, 50, 99, 100, 101, 255)


def rows():
    return loads() + ceilings() + lawfuls() + random_rows()


def loads():
    patterns = (edges() + powers() + beside(powers(-12, 24)) + percents(110)
                + whole_loads())
    return [load_line(pattern) for pattern in patterns]


def ceilings():
    lines = [admitted_line(pattern, ceiling)
             for pattern in edges() for ceiling in (0, 100, 255)]
    # The last pattern under each ceiling and the first above it.
    for ceiling in CEILINGS + (2, 49, 51, 98, 127, 128, 254):
        for pattern in beside([exactly(ceiling)]):
            lines += [admitted_line(pattern, near)
                      for near in (ceiling - 1, ceiling, ceiling + 1)
                      if 0 <= near <= 255]
    lines += [admitted_line(pattern, 100) for pattern in whole_loads()]
    # 256 would be 0 if it were held in one byte.
    lines += [admitted_line(exactly(256), ceiling) for ceiling in CEILINGS]
    # Loads that would come round to small ones in 32 bits.
    lines += [admitted_line(pattern, ceiling)
              for pattern in powers(21, 24) + [exactly(2.0**22 + 25)]
              for ceiling in (0, 100, 255)]
    return lines


def lawfuls():
    patterns = (edges() + powers(-149, -120) + powers(-12, 12) + powers(120, 127)
                + percents(110) + beside([exactly(101), exactly(99)]))
    return [lawful_line(pattern) for pattern in patterns]


def random_rows():
    chance = Chance(30)
    lines = [load_line(any_pattern(chance)) for _ in range(80)]
    lines += [load_line(lawful(chance)) for _ in range(60)]
    lines += [admitted_line(any_pattern(chance), chance.below(256)) for _ in range(80)]
    lines += [admitted_line(lawful(chance), chance.below(101)) for _ in range(80)]
    lines += [lawful_line(any_pattern(chance)) for _ in range(60)]
    lines += [lawful_line(lawful(chance)) for _ in range(20)]
    return lines
