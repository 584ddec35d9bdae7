"""Recordings with looks put in between, so that what they print shows the records.

A look changes nothing, so the other lines are those of the recording without.
"""

from calls import call_of, cut
from events import LENGTH
from some_supply_events import look

LEAST_BUFFER = 64


def with_looks(recording):
    """The recording, and which of its events are looks that were put in.

    All channels are looked at before and after each gap that is taken, after each
    set-up, and in the end; what is cut off stays the last.
    """
    count = len(recording.file) // 80
    looks = [(look(channel), True) for channel in range(count)]
    some = []
    for event in cut(recording.events):
        call, values = call_of(event, recording.program) or (None, ())
        is_taken_gap = call == "gap" and values[0] >= LEAST_BUFFER
        if is_taken_gap or len(event) < LENGTH:
            some += looks
        some.append((event, False))
        if is_taken_gap or call == "set_up":
            some += looks
    if len(recording.events) % LENGTH == 0:
        some += looks
    given = b"".join(event for event, _ in some)
    return recording._replace(events=given), [is_put for _, is_put in some]
