"""Recordings at the edges of what is taken and what is refused, each on both sides."""

from chance import Chance
from recording import Recording
from records import RULES
from rows_command import TAKEN
from rows_make import some_data
from rows_read import request
from some_channels import EVERY, OPEN, WORKED, long, short, tag
from some_events import character, characters, gap, key, sample, sent
from some_forms import OTHER_KINDS, UNUSED, UNUSED_ALSO, changed, some_event
from some_patterns import exactly
from some_racks import NOT_FINITE, VALUES
from some_records import LEAST, MOST, record
from some_supply_events import gap_of, look, set_up

SUPPLY = 15_000_000
CEILINGS = (0, 50, 100)


def recordings():
    return [*files(), *forms(), *transmissions(), *requests(), *operations(), *set_ups()]


def linerun(file, *events):
    return Recording("linerun", None, file, b"".join(events))


def supplyrun(file, *events, supply=SUPPLY):
    return Recording("supplyrun", supply, file, b"".join(events))


def files():
    """Of each field the values that are refused; and the ends of all fields."""
    for (field, _), values in zip(RULES, VALUES):
        for value in values:
            yield linerun(field.put(OPEN, value), gap())
    two = OPEN[:1] + bytes(3) + OPEN[4:] + OPEN
    for place in (4, 5, 9, 14, 79):
        yield linerun(two[:80 + place] + b"\xff" + two[81 + place:])
    for one in (LEAST, MOST, record(flags=3, setpoint=1, flow=0x80000000, temperature=1)):
        yield supplyrun(one, look(0), sent(request(long(one), 235, b"")))
    for length in (0, 1, 79, 81, 159, 161, 1199, 1201):
        yield linerun((OPEN * 16)[:length])


def forms():
    """Each unused byte of each kind, and other kinds; nothing of it is heard."""
    chance = Chance(81)
    some = [changed(some_event(chance, kind), place, 1 << place % 8)
            for kind, places in {**UNUSED, **UNUSED_ALSO}.items() for place in places]
    some += [changed(gap(), 0, kind) for kind in OTHER_KINDS]
    some += [changed(key(0, 0), 2, value) for value in (2, 3, 255)]
    yield supplyrun(OPEN, *some, gap(), look(0))
    yield linerun(OPEN, *some, *(some_event(chance, kind) for kind in UNUSED_ALSO), gap())
    for length in range(1, 12):
        yield linerun(OPEN, gap(), look(0)[:length])


def transmissions():
    """Preambles and lengths, and rooms of a gap."""
    for preambles in (0, 1, 2, 40):
        yield linerun(OPEN, sent(request(short(OPEN), 16, b"", preambles)))
    longest = request(long(OPEN), 16, some_data(255))
    yield linerun(OPEN, sent(longest))
    yield linerun(OPEN, sent(longest + b"\x00"), sent(request(short(OPEN), 16, b"")))
    yield supplyrun(OPEN, characters(request(short(OPEN), 16, b"")),
                    *(gap_of(room) for room in (0, 1, 62, 63, 64)))
    good = request(short(OPEN), 16, b"")
    for place in range(len(good)):
        marks = [bytes(place) + bytes([mark]) for mark in (1, 2, 4, 7)]
        yield linerun(OPEN, *(sent(good, mark) for mark in marks))
    yield linerun(OPEN, *(character(0xFF, marks) for marks in (7, 8, 9, 128, 255)), gap())


def requests():
    """Tag questions, counts, values and setpoints."""
    tags = tag(OPEN) + b"\x00"
    yield linerun(OPEN, *(sent(request(EVERY, 11, tags[:count])) for count in range(8)))
    for command, data in TAKEN.items():
        others = {data[:-1], data, data + b"\x00"}
        yield linerun(OPEN, *(sent(request(long(OPEN), command, other))
                              for other in sorted(others)))
    yield linerun(OPEN, *(sent(request(long(OPEN), command, bytes([value])))
                          for command, values in ((6, (0, 15, 16, 255)),
                                                  (59, (0, 1, 2, 15, 16, 255)))
                          for value in values))
    for ceiling in CEILINGS:
        yield linerun(record(flags=2, ceiling=ceiling),
                      *(sent(request(b"\x83", 236, b"\x39" + pattern.to_bytes(4, "big")))
                        for pattern in setpoints(ceiling)))


def setpoints(ceiling):
    own = exactly(ceiling)
    return (own, own + 1, max(own, 1) - 1, 0, 0x80000000, 1, 0x80000001, 0x7F7FFFFF,
            0xFF7FFFFF, *NOT_FINITE)


def operations():
    """Channels that are and are not there, and every reading that is refused."""
    numbers = (0, 1, 2, 14, 15, 255)
    two = OPEN + WORKED
    yield supplyrun(two, *(call for number in numbers for call in (
        sample(number, 0, 0), key(number, 1), look(number))))
    yield linerun(two, *(sample(0, *pair) for pattern in NOT_FINITE
                         for pair in ((pattern, 0), (0, pattern))),
                  sample(0, 0x7F7FFFFF, 0xFF7FFFFF), sent(request(long(OPEN), 1, b"")))


def set_ups():
    """Before, amid and after a transmission: taken, and refused 106 and 107."""
    one = record(flags=2, setpoint=exactly(50), ceiling=100, full_scale=1000)
    good = request(long(one), 16, b"")
    most = request(long(one), 236, b"\x39" + exactly(100).to_bytes(4, "big"))
    for supply in (499, 500, 1000, SUPPLY, SUPPLY + 1, 2**32 - 1):
        yield supplyrun(one, look(0), supply=supply)
        for at in (0, 5, len(good)):
            yield supplyrun(one, characters(good[:at]), set_up(supply), characters(good[at:]),
                            gap(), supply=500)
        yield supplyrun(one, set_up(supply), sent(most), set_up(999), look(0), supply=500)
