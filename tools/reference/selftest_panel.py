"""Tests of the receiver and of a panel's calls, run by selftest.py."""

from chance import Chance
from expectation import expect
from hearing import hear
from panel import Panel
from receiver import Receiver
from rows_read import request
from some_channels import WORKED, long
from some_panels import ask, channel, gap, outcome, ready, state, tell
from some_patterns import any_pattern
from some_records import MOST, record

READ_AT_1 = bytes.fromhex("FFFF0281100093")
INFINITE = 0x7F800000


def hexes(text):
    return bytes.fromhex(text)


def exchange():
    """A panel from before its set-up on, worked by hand."""
    panel = Panel([channel(1, 1, 7, setpoint=0x42C80000), channel(2, 2, 8)])
    expect("key before set-up", outcome(panel.key, 0, 0), 101)
    expect("large supply", outcome(panel.set_up, 15_000_001), 107)
    expect("small supply", outcome(panel.set_up, 999), 106)
    expect("set-up", outcome(panel.set_up, 1500), "taken")
    # Half of 1,000 is what the first channel leaves.
    expect("above half", ask(panel, hexes("FFFF0282EC0539424800015B")),
           (1, hexes("FFFF0682EC0210007A")))
    expect("short buffer", ask(panel, hexes("FFFF0282EC0539424800005A"), room=63), 102)
    expect("half", gap(panel)[0],
           (1, hexes("FFFF0682EC0C000039424800000043FA0000EE")))
    expect("nothing heard", gap(panel)[0], "silent")
    expect("supply too small now", outcome(panel.set_up, 1499), 106)
    tell(panel, hexes("FFFF028110"))
    expect("marks 8", outcome(panel.character, 0, 8), 109)
    expect("without it", ask(panel, hexes("0093")),
           (0, hexes("FFFF06811005000000000795")))
    expect("polling address 2", ask(panel, hexes("FFFF028106010286")),
           (0, hexes("FFFF06810603004002C0")))
    expect("two at one address", ask(panel, hexes("FFFF0282100090")), "silent")
    expect("its own address", ask(panel, hexes("FFFF828A4600000210005C")),
           (1, hexes("FFFF868A460000021005000000000855")))
    expect("key shut", outcome(panel.key, 1, 0), "taken")
    expect("infinite", outcome(panel.sample, 1, INFINITE, 0), 108)
    expect("no channel first", outcome(panel.sample, 2, INFINITE, 0), 101)
    expect("under the key", ask(panel, hexes("FFFF828A46000002EC0539000000009C")),
           (1, hexes("FFFF868A46000002EC020700A1")))
    expect("look, 79 bytes", outcome(panel.look, 1, bytearray(79)), 102)
    expect("look, no channel", outcome(panel.look, 2, bytearray(79)), 101)


def edges():
    """Worked examples, one call each."""
    panel = ready([WORKED])
    expect("assembly number", ask(panel, READ_AT_1),
           (0, hexes("FFFF06811005000000000795")))
    expect("wrong check", ask(panel, hexes("FFFF0281100092")),
           (0, hexes("FFFF0681100288001D")))
    expect("identifier", ask(panel, hexes("FFFF828A4600000100004F")),
           (0, hexes("FFFF868A46000001000E0000FE0A46020501010800000001F9")))
    twins = ready([channel(1, 1, 7, flags=0), channel(2, 1, 8, flags=0)])
    expect("two at polling address 1", ask(twins, READ_AT_1), "silent")
    for pattern, status in (("42480000", 0), ("42480001", 16)):
        panel = ready([channel(1, 1, 7, setpoint=0x42C80000), channel(2, 2, 8)], 1500)
        number, answer = ask(panel, request(b"\x82", 236, hexes("39" + pattern)))
        expect(f"{pattern} of the second", (number, answer[6]), (1, status))


def before_set_up():
    panel = Panel([WORKED])
    for number in (0, 1, 14, 15, 255):
        expect("sample", outcome(panel.sample, number, INFINITE, 0), 101)
        expect("key", outcome(panel.key, number, 1), 101)
        expect("look", outcome(panel.look, number, bytearray(80)), 101)
    expect("silent", ask(panel, READ_AT_1), "silent")
    expect("short buffer", ask(panel, READ_AT_1, room=63), 102)
    # The half-heard transmission outlives a set-up that is refused.
    expect("refused", outcome(panel.set_up, 15_000_001), 107)
    expect("goes on", panel.receiver.span, READ_AT_1[2:])
    expect("taken", outcome(panel.set_up, 0), "taken")
    expect("a new transmission", gap(panel)[0], "silent")
    expect("served", ask(panel, READ_AT_1), (0, hexes("FFFF06811005000000000795")))


def set_ups():
    """Each refusal alone and before those behind it."""
    def code(rack, supply):
        panel = Panel(rack)
        before = state(panel)
        found = outcome(panel.set_up, supply)
        if found != "taken":
            expect("as it was", state(panel), before)
        return found

    full = [channel(number, 1, setpoint=0x42C80000) for number in range(15)]
    twice = full[:14] + [channel(0, 9, full_scale=2000)]
    expect("no records", code([], 0), "taken")
    expect("15 records", code(full, 15_000), "taken")
    expect("15 records, less", code(full, 14_999), 106)
    expect("16 records", code(full + [channel(15, 1)], 15_000), 104)
    expect("30 records", code(full * 2, 15_000), 104)
    expect("same identity", code(twice, 15_000_000), 105)
    expect("105 before 106", code(twice, 0), 105)
    expect("104 before 105", code(full + full[:1], 0), 104)
    expect("107 before 104", code(full * 2, 15_000_001), 107)
    expect("another type", code([channel(1, 1), channel(1, 1, device=71)], 0), "taken")
    expect("most of all", code([record(**most(number)) for number in range(15)],
                               15_000_000), "taken")
    # Above its ceiling a setpoint counts in full.
    above = channel(1, 1, setpoint=0x42C80000, ceiling=10)
    expect("above its ceiling", code([above], 999), 106)
    expect("above its ceiling, room", code([above], 1000), "taken")


def most(number):
    return dict(identification=number, setpoint=0x42C80000, full_scale=1_000_000)


def receivers():
    """What is kept tells the same as all characters do."""
    chance = Chance(61)
    for _ in range(1500):
        some, marks = characters(chance)
        receiver = Receiver()
        for one in zip(some, marks):
            receiver.take(*one)
        expect("heard", receiver.heard(), hear(some, marks))
        expect("at most 264", len(receiver.span) <= 264, True)
    longest = request(long(MOST), 33, bytes(255), 2)
    for more, whole in ((b"", True), (b"\x00", False), (bytes(5000), False)):
        receiver = Receiver()
        for byte in longest + more:
            receiver.take(byte, 0)
        expect("264 bytes", (len(receiver.span), receiver.heard() is not None), (264, whole))


def characters(chance):
    """Mostly a request with a little wrong."""
    address = chance.bytes(chance.one_of((1, 5)))
    data = chance.bytes(chance.one_of((0, 1, 5, 24, 254, 255)))
    some = bytearray(request(address, chance.below(256), data, chance.below(5)))
    for _ in range(chance.below(3)):
        some[chance.below(len(some))] = chance.one_of((0x02, 0x82, 0xFF, chance.below(256)))
    some += chance.bytes(chance.one_of((0, 0, 0, 1, 2)))
    marks = bytearray(len(some))
    for _ in range(chance.below(3)):
        marks[chance.below(len(some))] = chance.below(8)
    return bytes(some), bytes(marks)


def refused_calls():
    """A call that is refused leaves everything, whatever was half heard."""
    chance = Chance(62)
    panel = ready([channel(1, 1), channel(2, 1)])
    tell(panel, READ_AT_1[:5], b"\x01\x02\x04")
    before = state(panel)
    for _ in range(300):
        pattern = any_pattern(chance)
        for call, arguments, code in (
            (panel.set_up, (15_000_001 + chance.below(9),), 107),
            (panel.character, (chance.below(256), 8 + chance.below(248)), 109),
            (panel.sample, (2 + chance.below(254), pattern, pattern), 101),
            (panel.sample, (chance.below(2), 0, INFINITE + chance.below(9)), 108),
            (panel.sample, (chance.below(2), 0xFF800000 + chance.below(9), 0), 108),
            (panel.key, (2 + chance.below(254), chance.below(2)), 101),
            (panel.look, (2 + chance.below(254), bytearray(chance.below(100))), 101),
        ):
            expect("refused", outcome(call, *arguments), code)
        room = chance.below(64)
        expect("gap", gap(panel, room), (102, b"\xa5" * room))
        looked = bytearray(b"\xa5" * chance.below(80))
        expect("look", outcome(panel.look, 0, looked), 102)
        expect("buffer", bytes(looked), b"\xa5" * len(looked))
    expect("as it was", state(panel), before)


def buffers():
    panel = ready([channel(1, 1, 7)])
    for room in (64, 65, 300):
        tell(panel, READ_AT_1)
        (_, answer), buffer = gap(panel, room)
        expect("past the answer", buffer, answer + b"\xa5" * (room - len(answer)))
        expect("silence", gap(panel, room), ("silent", b"\xa5" * room))
        looked = bytearray(b"\xa5" * (room + 16))
        expect("look", outcome(panel.look, 0, looked), "taken")
        expect("looked at", bytes(looked), channel(1, 1, 7) + b"\xa5" * (room - 64))


def transmissions():
    """A gap that is refused ends nothing; every other one does."""
    panel = ready([channel(1, 1, 7)])
    answer = (0, hexes("FFFF06811005000000000795"))
    for end in range(len(READ_AT_1)):
        expect("refused in between", ask(panel, READ_AT_1[:end], room=63), 102)
        expect("goes on", ask(panel, READ_AT_1[end:]), answer)
        expect("ended", ask(panel, READ_AT_1[:end]), "silent")
        found = ask(panel, READ_AT_1[end:])
        expect("the rest of it", found, answer if end == 0 else "silent")
    # Nothing is written before the gap, and nothing where a byte follows.
    write = request(b"\x81", 19, b"\x01\x02\x03")
    tell(panel, write)
    expect("not yet", panel.rack, [channel(1, 1, 7)])
    expect("a byte more", ask(panel, b"\x00"), "silent")
    expect("never", panel.rack, [channel(1, 1, 7)])
    expect("written", ask(panel, write), (0, hexes("FFFF068113050040010203D1")))
    expect("there", panel.rack, [channel(1, 1, 0x010203, flags=3)])


def operators():
    panel = ready([channel(1, 1), channel(2, 2)])
    tell(panel, READ_AT_1[:4])
    kept = panel.receiver.span
    expect("sample", outcome(panel.sample, 1, 0x3F800000, 0x80000000), "taken")
    expect("key", outcome(panel.key, 1, 0), "taken")
    expect("key again", outcome(panel.key, 1, 0), "taken")
    expect("one channel", panel.rack, [channel(1, 1), channel(
        2, 2, flow=0x3F800000, temperature=0x80000000, flags=0)])
    expect("the line goes on", panel.receiver.span, kept)


def run():
    exchange()
    edges()
    before_set_up()
    set_ups()
    receivers()
    refused_calls()
    buffers()
    transmissions()
    operators()
