"""Printed lines beside the events that printed them."""

import re

from hall.events import (LEAST_ROOM, MOST_MARKS, MOST_SUPPLY, OF_SUPPLYRUN, Character, GapOf, Key,
                         Look, OutOfForm, Rest, Sample, SetUp, is_finite_sample, is_gap)
from hall.recordfiles import MOST_RECORDS
from hall.wrong import Wrong

OF_GAP = re.compile("silent|[0-9]{1,2} (?:[0-9A-F]{2})+")
OF_LOOK = re.compile("[0-9A-F]{160}")
OF_SET_UP = re.compile("set up|refused 106")
OF_REFUSED_SET_UP = re.compile("refused 10[34567]")


class Unfit(Wrong):
    """Lines that are not those of the events; `at` says how far they are."""

    def __init__(self, at, words):
        super().__init__(words)
        self.at = at


def lines_of(text):
    try:
        return text.decode("ascii").splitlines()
    except UnicodeDecodeError:
        raise Wrong("what was printed is no text") from None


def fitting(events, lines, channels=None):
    """How many channels there are, and whether supplyrun printed the lines.

    Where the channels are not known, it is the most that the lines allow for.
    """
    counts = range(MOST_RECORDS, 0, -1) if channels is None else (channels,)
    furthest = None
    for count in counts:
        for is_supplyrun in (True, False):
            try:
                for _ in beside(events, lines, count, is_supplyrun):
                    pass
                return count, is_supplyrun
            except Unfit as unfit:
                furthest = unfit if furthest is None or unfit.at > furthest.at else furthest
    raise furthest


def beside(events, lines, channels, is_supplyrun):
    """Each event with the line that it printed, None for none."""
    at = 0
    for number, event in enumerate(events):
        form = form_of(event, channels, is_supplyrun)
        if form is None:
            yield event, None
            continue
        if at == len(lines):
            raise Unfit(at, f"what was printed ends before event {number}")
        if not re.fullmatch(form, lines[at]):
            raise Unfit(at, f"printed line {at + 1}, '{lines[at][:40]}', is not what event"
                        f" {number} prints: are these the lines of this recording and rack?")
        yield event, lines[at]
        at += 1
    if at < len(lines):
        raise Unfit(at, f"printed line {at + 1} is behind that of the last event")


def form_of(event, channels, is_supplyrun):
    """The form of the line that an event prints; None where it prints none."""
    if isinstance(event, Rest):
        return "refused 104"
    if isinstance(event, OutOfForm) or isinstance(event, OF_SUPPLYRUN) and not is_supplyrun:
        return "refused 110"
    if isinstance(event, Character):
        return None if event.marks <= MOST_MARKS else "refused 109"
    if is_gap(event):
        is_short = isinstance(event, GapOf) and event.room < LEAST_ROOM
        return "refused 102" if is_short else OF_GAP
    if isinstance(event, SetUp):
        return "refused 107" if event.supply > MOST_SUPPLY else OF_SET_UP
    if event.channel >= channels:
        return "refused 101"
    if isinstance(event, Sample):
        return None if is_finite_sample(event) else "refused 108"
    return {Key: None, Look: OF_LOOK}[type(event)]
