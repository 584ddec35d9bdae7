"""What the colours and marks of a picture stand for."""

from hall import svg
from hall.recordfiles import value
from hall.words import flow

LEFT, TOP = 930, 84
BOX = 16
INK, GREY = "#222222", "#5c5c5c"
SUPPLY_COLOUR, WRONG_COLOUR = "#111111", "#c1121f"
COLOURS = ("#4e79a7", "#f2a541", "#59a14f", "#b07aa1", "#76b7b2", "#edc948", "#9c755f", "#a0cbe8",
           "#ff9da7", "#8cd17d", "#d4a6c8", "#499894", "#d7b5a6", "#79706e", "#5f5f9e")
NO_LETTERS = {"", "@" * 8, "@" * 16}


def name_of(channel, record):
    """Its number, and its tag and descriptor or else its identity."""
    letters = [value(record, name) for name in ("tag", "descriptor")]
    said = [text for text in letters if text not in NO_LETTERS and not text.startswith("hex")]
    identity = f"{value(record, 'type')}:{value(record, 'identification')}"
    return f"{channel}: {', '.join(said) or identity}"


def legend(history, records, supply_is_seen):
    """The channels as their bands lie, the highest first, and then lines and marks."""
    last, height = history.points[-1], 34 if len(records) <= 9 else 24
    yield svg.text("channels, and their shares at the end", LEFT, TOP, font_size=13, fill=INK)
    y = TOP + 26
    for channel in reversed(range(len(records))):
        yield from channel_row(channel, records[channel], last.shares[channel], y, height)
        y += height
    y += 10
    if supply_is_seen:
        yield svg.element("path", d=f"M{LEFT},{y - 5}h{BOX + 8}", stroke=SUPPLY_COLOUR,
                          stroke_width=3, stroke_dasharray="9 4")
        said = "supply"
    else:
        said = f"supply, above: {last.supply:,} mL/min"
    yield svg.text(said, LEFT + 34 if supply_is_seen else LEFT, y, font_size=13, fill=INK)
    rows = [(cross, "code 16, at the sum asked for")] if history.refusals else []
    rows += [(diamond, "set-up refused, 106")] if history.set_ups else []
    for mark, said in rows:
        y += 26
        yield mark(LEFT + 12, y - 5, said)
        yield svg.text(said, LEFT + 34, y, font_size=13, fill=INK)


def channel_row(channel, record, share, y, height):
    yield svg.element("rect", x=LEFT, y=y - 13, width=BOX, height=BOX, fill=COLOURS[channel])
    yield svg.text(name_of(channel, record), LEFT + 24, y, font_size=13, fill=INK)
    if height > 30:
        said = f"{flow(share)} of {int(value(record, 'full scale')):,} mL/min"
        yield svg.text(said, LEFT + 24, y + 14, font_size=11, fill=GREY)


def cross(x, y, said, **values):
    """White below, so that it stands out of the bands."""
    arms = f"M{svg.tenth(x - 6)},{svg.tenth(y - 6)}l12,12m0,-12l-12,12"
    lines = "".join(svg.element("path", d=arms, fill="none", stroke=colour, stroke_width=width)
                    for colour, width in (("#ffffff", 6), (WRONG_COLOUR, 3)))
    return svg.element("g", svg.titled(said) + lines, **values)


def diamond(x, y, said, **values):
    shape = f"M{svg.tenth(x)},{svg.tenth(y - 7)}l7,7l-7,7l-7,-7Z"
    return svg.element("path", svg.titled(said), d=shape, fill="#ffffff", stroke=WRONG_COLOUR,
                       stroke_width=2, **values)
