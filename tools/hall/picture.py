"""A picture of a hall: the granted shares over the events, against the supply."""

from collections import namedtuple
from math import floor, log10

from shares import SUPPLY_PARTS

from hall import svg
from hall.legend import COLOURS, SUPPLY_COLOUR, WRONG_COLOUR, cross, diamond, legend, name_of
from hall.words import flow

WIDTH, HEIGHT = 1200, 600
LEFT, RIGHT, TOP, BOTTOM = 110, 905, 84, 532
FONT = "DejaVu Sans, Verdana, Arial, sans-serif"
INK, GREY, GRID = "#222222", "#5c5c5c", "#e4e4e4"
TICKS = 8
# Beside so many marks there is room for the numbers of their channels.
MOST_LABELS = 12

Scales = namedtuple("Scales", "x y most_x most_y supply_is_seen")


def picture(history, records, title):
    """The whole file, as text."""
    scales = scales_of(history)
    inside = svg.element("clipPath", svg.element("rect", x=LEFT, y=TOP, width=RIGHT - LEFT,
                                                 height=BOTTOM - TOP), id="inside")
    parts = [
        svg.titled(title),
        svg.element("defs", inside),
        svg.element("rect", width=WIDTH, height=HEIGHT, fill="#ffffff"),
        svg.text(title, LEFT, 34, font_size=20, font_weight="bold", fill=INK),
        svg.text(summary(history), LEFT, 58, font_size=13, fill=GREY),
        *axes(scales),
        svg.element("g", "\n".join(drawn(history, records, scales)), clip_path="url(#inside)"),
        *marks(history, records, scales),
        *legend(history, records, scales.supply_is_seen),
    ]
    return svg.element("svg", "\n".join(["", *parts, ""]), xmlns="http://www.w3.org/2000/svg",
                       width=WIDTH, height=HEIGHT, viewBox=f"0 0 {WIDTH} {HEIGHT}",
                       font_family=FONT, role="img") + "\n"


def summary(history):
    last = history.points[-1]
    granted = f"{flow(sum(last.shares))} of {last.supply:,} mL/min granted at the end"
    count = len(history.refusals)
    refused = f"{count} setpoint{'s' * (count != 1)} refused with code 16"
    return f"{history.played:,} events; {granted}; {refused}"


def scales_of(history):
    """The supply is in the picture unless the shares would be too small to be seen then."""
    asked = [one.total for one in history.refusals]
    most = max([sum(point.shares) for point in history.points] + asked) / SUPPLY_PARTS
    supplies = [point.supply for point in history.points]
    is_seen = most == 0 or max(supplies) <= 3 * most
    most = max(most, *supplies) if is_seen else most
    most_x, most_y = end_of(history), max(most * 1.06, 1)
    return Scales(lambda played: LEFT + (RIGHT - LEFT) * played / most_x,
                  lambda rate: BOTTOM - (BOTTOM - TOP) * rate / most_y,
                  most_x, most_y, is_seen)


def end_of(history):
    """A little behind the last event, so that what it changed is seen."""
    return history.played + max(history.played // 40, 1)


def ticks(most):
    """Round numbers from 0 on, some eight of them."""
    step = 10 ** floor(log10(max(most / TICKS, 1)))
    step *= next(times for times in (1, 2, 5, 10) if most / (step * times) <= TICKS)
    return range(0, floor(most) + 1, step)


def axes(scales):
    for rate in ticks(scales.most_y):
        y = svg.tenth(scales.y(rate))
        yield svg.element("line", x1=LEFT, x2=RIGHT, y1=y, y2=y, stroke=GRID)
        yield svg.text(f"{rate:,}", LEFT - 10, scales.y(rate) + 4.5, text_anchor="end",
                       font_size=13, fill=INK)
    for played in ticks(scales.most_x):
        x = svg.tenth(scales.x(played))
        yield svg.element("line", x1=x, x2=x, y1=BOTTOM, y2=BOTTOM + 6, stroke=GREY)
        yield svg.text(f"{played:,}", scales.x(played), BOTTOM + 23, text_anchor="middle",
                       font_size=13, fill=INK)
    yield svg.text("events played, of 12 bytes each", (LEFT + RIGHT) / 2, BOTTOM + 50,
                   text_anchor="middle", font_size=14, fill=INK)
    middle = (TOP + BOTTOM) / 2
    yield svg.text("granted shares in mL/min", 26, middle, text_anchor="middle", font_size=14,
                   fill=INK, transform=f"rotate(-90 26 {middle})")
    yield svg.element("path", d=f"M{LEFT},{TOP}V{BOTTOM}H{RIGHT}", fill="none", stroke=GREY)


def drawn(history, records, scales):
    """A band for each channel, their sum, the supply."""
    for channel, record in enumerate(records):
        yield band(history, channel, record, scales)
    sums = [sum(point.shares) / SUPPLY_PARTS for point in history.points]
    yield line(history, sums, scales, INK, 1.5, "the sum of the granted shares")
    if scales.supply_is_seen:
        supplies = [point.supply for point in history.points]
        yield line(history, supplies, scales, SUPPLY_COLOUR, 3, "the supply",
                   stroke_dasharray="9 4")


def band(history, channel, record, scales):
    """From the sum of the channels below to that with this one's share."""
    lower = [sum(point.shares[:channel]) / SUPPLY_PARTS for point in history.points]
    upper = [sum(point.shares[:channel + 1]) / SUPPLY_PARTS for point in history.points]
    there, back = places(history, upper, scales), places(history, lower, scales)
    down = "".join(f"V{svg.tenth(y)}H{svg.tenth(x)}" for x, y in reversed(back[:-1]))
    shares = [point.shares[channel] for point in history.points]
    said = f"{name_of(channel, record)}: {flow(min(shares))} to {flow(max(shares))} mL/min"
    return svg.element("path", svg.titled(said), class_="band", data_channel=channel,
                       d=f"{svg.steps(there)}{down}Z", fill=COLOURS[channel], stroke="#ffffff",
                       stroke_width=0.7)


def places(history, rates, scales):
    """Where the rates of the points lie, and the last one's at the end."""
    played = [point.played for point in history.points] + [end_of(history)]
    return [(scales.x(at), scales.y(rate)) for at, rate in zip(played, [*rates, rates[-1]])]


def line(history, rates, scales, colour, width, said, **more):
    return svg.element("path", svg.titled(said), d=svg.steps(places(history, rates, scales)),
                       fill="none", stroke=colour, stroke_width=width, **more)


def marks(history, records, scales):
    """Of each code 16 and each set-up that was refused."""
    for one in history.set_ups:
        y = max(scales.y(one.supply), TOP)
        said = f"after {one.played} events: a set-up under {one.supply:,} mL/min, refused 106"
        yield diamond(scales.x(one.played), y, said, class_="refused-set-up")
    for one in history.refusals:
        x, y = scales.x(one.played), max(scales.y(one.total / SUPPLY_PARTS), TOP)
        supply = supply_at(history, one.played)
        said = (f"after {one.played} events: {name_of(one.channel, records[one.channel])} asks,"
                f" the sum would be {flow(one.total)} of {supply:,} mL/min: code 16")
        if scales.supply_is_seen:
            yield svg.element("line", x1=svg.tenth(x), x2=svg.tenth(x), y1=svg.tenth(y),
                              y2=svg.tenth(scales.y(supply)), stroke=WRONG_COLOUR)
        yield cross(x, y, said, class_="code16", data_event=one.played - 1,
                    data_channel=one.channel)
        if len(history.refusals) <= MOST_LABELS:
            yield svg.text(f"{one.channel}", x + 10, y - 4, font_size=12, fill=WRONG_COLOUR)


def supply_at(history, played):
    return [point.supply for point in history.points if point.played <= played][-1]
