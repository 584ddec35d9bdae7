"""The shares that stand granted over the events of a recording, and what was refused."""

from collections import namedtuple

from hall.events import Look, SetUp, cut, event_of, number
from hall.exchanges import is_taken_set_up, steps
from hall.printed import OF_REFUSED_SET_UP, Unfit, fitting
from hall.words import SET_UP_REFUSALS
from hall.wrong import Wrong

OVER_SUPPLY = 16

# From so many events played on: the share of each channel, and the supply.
Point = namedtuple("Point", "played shares supply")
# Code 16: the channel, and the sum of shares that it asked for.
Refusal = namedtuple("Refusal", "played channel total")
# A set-up that was refused, under this supply.
RefusedSetUp = namedtuple("RefusedSetUp", "played supply")
History = namedtuple("History", "played points refusals set_ups")


def history(recording, lines, standing):
    """From the first set-up to the end; a point for each time that something changes."""
    events = list(map(event_of, cut(recording)))
    fit = fit_of(events, lines, len(standing.records))
    points, refusals, set_ups = [Point(0, standing.shares(), standing.supply)], [], []
    for step in steps(events, lines, fit, standing):
        played = step.number + 1
        if step.answer and step.answer.code == OVER_SUPPLY:
            channel = step.answer.channel
            total = standing.asked_total(channel, number(step.request.data[1:]))
            refusals.append(Refusal(played, channel, total))
        if isinstance(step.event, SetUp) and step.line == "refused 106":
            set_ups.append(RefusedSetUp(played, step.event.supply))
        if step.answer or is_taken_set_up(step) or isinstance(step.event, Look):
            point = Point(played, standing.shares(), standing.supply)
            if point[1:] != points[-1][1:]:
                points.append(point)
    return History(len(events), points, refusals, set_ups)


def fit_of(events, lines, channels):
    try:
        return fitting(events, lines, channels)
    except Unfit:
        if len(lines) == 1 and OF_REFUSED_SET_UP.fullmatch(lines[0]):
            raise Wrong(f"the first set-up is {lines[0]}, so there is nothing to draw:"
                        f" {SET_UP_REFUSALS[int(lines[0][8:])]}") from None
        raise
