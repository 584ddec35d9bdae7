"""Events out of form: of each kind each unused byte, and other kinds."""

from events import CHARACTER, GAP, KEY, SAMPLE
from some_events import character, gap, key, sample
from some_supply_events import gap_of, look, set_up
from supplyevents import GAP_OF, LOOK, SET_UP

# Of each kind, the bytes that it does not use.
UNUSED = {CHARACTER: range(3, 12), GAP: range(1, 12), SAMPLE: (2, 3), KEY: range(3, 12)}
UNUSED_ALSO = {GAP_OF: range(2, 12), LOOK: range(2, 12), SET_UP: (1, 2, 3, 8, 9, 10, 11)}
OTHER_KINDS = (0, 8, 255)


def unused(is_supplyrun):
    return {**UNUSED, **UNUSED_ALSO} if is_supplyrun else UNUSED


def some_event(chance, kind):
    """One in form, most often one that would be taken."""
    channel = chance.below(3)
    return {
        CHARACTER: character(chance.below(256), chance.one_of((0, 0, 8))), GAP: gap(),
        SAMPLE: sample(channel, chance.below(2**32), 0), KEY: key(channel, chance.below(2)),
        GAP_OF: gap_of(64), LOOK: look(channel), SET_UP: set_up(chance.below(15_000_001)),
    }[kind]


def changed(event, place, byte):
    return event[:place] + bytes([byte]) + event[place + 1:]


def out_of_form(chance, is_supplyrun, note):
    places = unused(is_supplyrun)
    turn = chance.below(8)
    if turn == 0:
        kind = chance.one_of(OTHER_KINDS + (() if is_supplyrun else tuple(UNUSED_ALSO)))
        note(f"kind {kind}" if is_supplyrun else f"kind {kind} of linerun")
        form = chance.one_of((*UNUSED, *UNUSED_ALSO))
        return changed(some_event(chance, form), 0, kind)
    if turn == 1:
        note("neither open nor shut")
        return changed(some_event(chance, KEY), 2, chance.one_of((2, 3, 255)))
    if is_supplyrun and chance.below(2) == 0:
        places = UNUSED_ALSO
    # Kinds with many unused bytes more often, so that each of them comes about.
    kind, place = chance.one_of([(kind, place) for kind in places for place in places[kind]])
    note(f"kind {kind} with byte {place}")
    return changed(some_event(chance, kind), place, chance.one_of((1, 0x80, 255)))
