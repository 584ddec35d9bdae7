"""Tests of what holds of every run of a panel, run by selftest.py."""

from chance import Chance
from expectation import expect
from frames import exclusive_or
from history import History, content
from some_panels import ask, channel, ready, state
from some_runs import some_calls, some_rack, some_request, work

RUNS = 60
CALLS = 400


def one_run(chance, seen):
    rack = some_rack(chance)
    history = History(rack)
    # Room for what stands at set-up, and for a little or much more.
    supply = int(-(-history.total() // 102_400)) + chance.one_of((0, 0, 1, 500, 4000))
    panel = ready(rack, supply)
    trace = []
    calls = some_calls(chance, rack)
    for _ in range(CALLS):
        before = list(panel.rack)
        denied = history.denied(supply * 102_400)
        event = work(panel, *next(calls))
        if event.call == "character":
            expect("nothing written", panel.rack, before)
        if event.call == "gap" and event.result != 102:
            seen.add(at_gap(event.result, denied, panel.rack == before))
        history.note(event)
        trace.append(event)
        expect("fits", history.total() <= supply * 102_400, True)
        told(rack, panel.rack, history)
    for number in range(len(rack)):
        isolation(rack, supply, trace, number, panel.rack[number])


def at_gap(result, denied, is_same):
    """The first status of a taken gap's answer; None of silence."""
    if result == "silent":
        expect("16 was due", denied, None)
        expect("nothing written", is_same, True)
        return None
    number, answer = result
    _, status, second, data = content(answer)
    expect("16 exactly", number if status == 16 else None, denied)
    if status != 0:
        expect("no data, no change", (data, is_same), (b"", True))
    if status >= 128:
        expect("second status", second, 0)
    return status


def told(rack, after, history):
    """Records hold what the history tells, and keep what is to stay."""
    for at, (old, new) in enumerate(zip(rack, after)):
        expect("granted", (new[10:14], new[4], new[9] & 2),
               (history.setpoints[at], history.pollings[at], history.keys[at]))
        expect("kept", (new[:4], new[14:20]), (old[:4], old[14:20]))


def isolation(rack, supply, trace, number, record_after):
    lone = ready([rack[number]], supply)
    line = []
    for event in trace:
        if event.call == "character" and event.result == "taken":
            line.append(event.values)
        if event.call in ("sample", "key") and event.values[0] == number:
            own = work(lone, event.call, (0, *event.values[1:]))
            expect("operation alone", own.result, event.result)
        if event.call != "gap" or event.result == 102:
            continue
        if event.result != "silent" and event.result[0] == number:
            answer = event.result[1]
            if content(answer)[1] != 16:
                for one in line:
                    expect("taken alone", work(lone, "character", one).result, "taken")
                own = work(lone, "gap", (64,))
                expect("answer alone", own.result, (0, answer))
        line = []
    expect("record alone", lone.rack, [record_after])
    expect("nothing heard", state(lone)[2:], (0, b"", 0, False))


def damage():
    """A sound transmission with one character taken as another."""
    chance = Chance(64)
    answered = 0
    for _ in range(1500):
        rack = some_rack(chance)
        panel = ready(rack)
        for one in damaged(chance, some_request(chance, rack)):
            expect("taken", work(panel, "character", one).result, "taken")
        event = work(panel, "gap", (64,))
        expect("nothing written", panel.rack, rack)
        if event.result != "silent":
            answered += 1
            _, status, second, data = content(event.result[1])
            expect("communication error", (status >= 128, second, data), (True, 0, b""))
    expect("many answered", answered > 200, True)


def damaged(chance, some):
    start = len(some) - len(some.lstrip(b"\xff"))
    line = [(byte, 0) for byte in some]
    place = chance.below(len(some))
    if place >= start and chance.below(2):
        line[place] = (some[place], 1 + chance.below(7))
    else:
        # Among preambles and starts these change the one into the other.
        other = some[place] ^ chance.one_of((1 + chance.below(255), 0x80, 0xFD, 0x7D))
        line[place] = (other, chance.one_of((0, 0, chance.below(8))))
    return line


def moved_frames():
    """Whole again although one byte, which moved the frame, is another."""
    for sent, got, number, polling, answer in (
        # A preamble becomes a start.
        ("FFFFFF0281010082", "FFFF020281010082", 1, 2, "FFFF0602810288000F"),
        # A start becomes a preamble.
        ("FFFF020201010000", "FFFFFF0201010000", 1, 1, "FFFF0601010288008C"),
        # A short start becomes a long one.
        ("FFFF028A460400011000DB", "FFFF828A460400011000DB", 0x040001, 10,
         "FFFF868A4604000110028800D5"),
    ):
        sent, got = bytes.fromhex(sent), bytes.fromhex(got)
        expect("sound", exclusive_or(sent.lstrip(b"\xff")), 0)
        expect("one byte", sum(one != other for one, other in zip(sent, got)), 1)
        panel = ready([channel(number, polling)])
        expect("communication error", ask(panel, got), (0, bytes.fromhex(answer)))


def run():
    chance = Chance(63)
    seen = set()
    for _ in range(RUNS):
        one_run(chance, seen)
    expect("codes met", {0, 2, 3, 4, 7, 16, 64} <= seen, True)
    damage()
    moved_frames()
