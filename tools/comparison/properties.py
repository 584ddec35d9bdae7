"""What is promised of every run, checked on what the built programs print.

Isolation by lone runs: of each channel there is one with its record alone, and
only what it answered and what was done at it. Damage and the header's two
clauses by the history that calls and results tell. Records are seen by looks,
which supplyrun alone has.
"""

from calls import trace_of
from damaged import is_damaged
from differences import lines_of
from events import LENGTH
from history import History, content
from isolation import OVER_SUPPLY, lone_difference
from linerun import SUPPLY
from looking import with_looks

RECORD = 80
SUPPLY_PARTS = 102_400


class Broken(Exception):
    """What does not hold."""


def broken(recording, play):
    """What does not hold of a recording, in words; None where all holds.

    `play` gives what a built program prints of a recording. What it prints of this
    one was compared with the reference, so it is known which line is whose.
    """
    try:
        check(recording, play)
    except Broken as found:
        return str(found)
    return None


def check(recording, play):
    looked, is_put = recording, [False] * (len(recording.events) // LENGTH + 1)
    if recording.program == "supplyrun":
        looked, is_put = with_looks(recording)
    numbers = [number for number, _ in lines_of(looked)]
    if numbers[:1] == [None]:
        return
    found = play(looked).decode("ascii").splitlines()
    if len(found) != len(numbers):
        raise Broken(f"with looks: {len(found)} lines in the place of {len(numbers)}")
    without = [line for number, line in zip(numbers, found) if not is_put[number]]
    if without != play(recording).decode("ascii").splitlines():
        raise Broken("other lines where there are looks between")
    Checked(looked, play).run(trace_of(looked, dict(zip(numbers, found))), is_put)


class Checked:
    """A run from set-up to set-up, and what is known of it so far."""

    def __init__(self, recording, play):
        self.play = play
        self.supply = recording.supply
        file = recording.file
        self.begin([file[at:at + RECORD] for at in range(0, len(file), RECORD)])

    def begin(self, records):
        self.first = records
        self.records = list(records)
        self.history = History(records)
        self.trace = []
        self.fits()

    def run(self, events, is_put):
        last, looked = None, []
        for self.number, event in enumerate(events):
            if event is None:
                continue
            if is_put[self.number]:
                looked.append(event.result)
                if len(looked) == len(self.records):
                    self.seen(looked, last)
                    last, looked = None, []
                continue
            last = event
            if event.call == "look":
                self.looked(event)
            elif event.call != "set_up":
                self.event(event)
        self.isolated()

    def expect(self, what, holds):
        if not holds:
            raise Broken(f"{what}, at event {self.number} of the run with looks"
                         if self.supply is not None else f"{what}, at event {self.number}")

    def capacity(self):
        return (SUPPLY if self.supply is None else self.supply) * SUPPLY_PARTS

    def fits(self):
        self.expect("the setpoints granted do not fit",
                    self.history.total() <= self.capacity())

    def event(self, event):
        if event.call == "gap" and event.result != 102:
            self.gap(event.result)
        elif event.result == "taken" and event.call in ("sample", "key"):
            self.operated(event)
        self.history.note(event)
        self.trace.append(event)
        self.fits()

    def gap(self, result):
        """Code 16 exactly where it is due; damage is answered by no other than an error."""
        denied = self.history.denied(self.capacity())
        channel, answer = (None, None) if result == "silent" else result
        _, status, second, data = content(answer) if answer else (None, None, None, None)
        self.expect("code 16 or its absence",
                    (channel if status == OVER_SUPPLY else None) == denied)
        self.may_write = channel if status == 0 else None
        if is_damaged(self.history.line):
            self.expect("an answer to a damaged transmission",
                        answer is None or (status >= 128 and second == 0 and data == b""))

    def operated(self, event):
        """A sample or a key turn that was taken, as the record has it."""
        channel, *values = event.values
        one = self.records[channel]
        if event.call == "sample":
            one = one[:20] + b"".join(value.to_bytes(4, "big") for value in values) + one[28:]
        else:
            one = one[:9] + bytes([one[9] & 1 | 2 * values[0]]) + one[10:]
        self.records[channel] = one

    def looked(self, event):
        if event.result != 101:
            self.expect("a look", event.result == self.records[event.values[0]])

    def seen(self, looked, last):
        """All records, after this event or before a gap."""
        is_gap = last is not None and last.call == "gap" and last.result != 102
        for channel, (old, new) in enumerate(zip(self.records, looked)):
            if not is_gap or channel != self.may_write:
                self.expect(f"record of channel {channel}", old == new)
        self.records = looked
        self.told()
        if last is not None and last.call == "set_up" and last.result == "taken":
            self.isolated()
            self.supply, = last.values
            self.begin(looked)

    def told(self):
        """Records hold what the history tells, and keep what is to stay."""
        for channel, (old, new) in enumerate(zip(self.first, self.records)):
            self.expect(f"what was granted to channel {channel}",
                        (new[10:14], new[4], new[9] & 2)
                        == (self.history.setpoints[channel], self.history.pollings[channel],
                            self.history.keys[channel]))
            self.expect(f"what stays of channel {channel}",
                        (new[:4], new[14:20]) == (old[:4], old[14:20]))

    def isolated(self):
        for channel, first in enumerate(self.first):
            after = None if self.supply is None else self.records[channel]
            found = lone_difference(channel, self.trace, first, after, self.supply, self.play)
            if found:
                raise Broken(found)
