"""Tests of supplyrun, run by selftest.py."""

import events
import linerun
import recording_mixed
import supplyevents
from expectation import expect
from some_channels import WORKED
from some_events import character, characters, gap, key, sample, sent
from some_panels import channel, ready, state
from some_records import MOST, record
from some_supply_events import gap_of, look, set_up
from supplyrun import output, supply_of

READ_AT_1 = bytes.fromhex("FFFF0281100093")
TWO = channel(1, 1, 7, setpoint=0x42C80000) + channel(2, 2, 8)
HALF = bytes.fromhex("FFFF0282EC0539424800005A")
ABOVE_HALF = bytes.fromhex("FFFF0282EC0539424800015B")
LATER = bytes.fromhex("00000000 00000000")


def shown(some):
    return some.hex().upper()


def by_hand():
    """The exchange of the panel's own example, but for what this program has not."""
    given = (set_up(15_000_001) + set_up(999) + sent(ABOVE_HALF)
             + characters(HALF) + gap_of(63) + gap_of(64) + gap_of(80) + set_up(1499)
             + characters(READ_AT_1[:5]) + character(0, 8) + characters(READ_AT_1[5:])
             + gap_of(255) + look(2) + look(255))
    expect("exchange", output(1500, TWO, given), (
        b"refused 107\nrefused 106\n1 FFFF0682EC0210007A\n"
        b"refused 102\n1 FFFF0682EC0C000039424800000043FA0000EE\nsilent\nrefused 106\n"
        b"refused 109\n0 FFFF06811005000000000795\nrefused 101\nrefused 101\n"))


def looks():
    """The record as it is told, before and after what writes it."""
    expect("look", output(0, WORKED, look(0)), f"{shown(WORKED)}\n".encode("ascii"))
    turned = WORKED[:9] + b"\x02" + WORKED[10:20] + LATER + WORKED[28:]
    given = key(0, 1) + sample(0, 0, 0) + look(0) + look(1)
    expect("key turned", output(0, WORKED, given),
           f"{shown(turned)}\nrefused 101\n".encode("ascii"))
    fifteen = [channel(number, number) for number in range(15)]
    expect("all of them", output(0, b"".join(fifteen),
                                 b"".join(look(number) for number in range(16))),
           "".join(f"{shown(one)}\n" for one in fifteen).encode("ascii")
           + b"refused 101\n")
    # Between the characters of a transmission.
    given = characters(READ_AT_1[:4]) + look(0) + characters(READ_AT_1[4:]) + gap()
    expect("nothing ended", output(0, WORKED, given),
           f"{shown(WORKED)}\n0 FFFF06811005000000000795\n".encode("ascii"))


def rooms():
    """Every length of a gap's buffer; a refused gap ends nothing."""
    given = characters(READ_AT_1) + b"".join(gap_of(room) for room in range(256))
    expect("every room", output(0, WORKED, given),
           b"refused 102\n" * 64 + b"0 FFFF06811005000000000795\n" + b"silent\n" * 191)


def set_up_again():
    """In the middle of a transmission: refused, it goes on; taken, it is gone."""
    front, back = characters(READ_AT_1[:4]), characters(READ_AT_1[4:]) + gap()
    answer = b"0 FFFF06811005000000000795\n"
    for supply, line in ((15_000_001, b"refused 107\n"), (2**32 - 1, b"refused 107\n"),
                         (999, b"refused 106\n"), (0, b"refused 106\n")):
        expect("refused", output(1000, TWO[:80], front + set_up(supply) + back),
               line + answer)
    for supply in (1000, 1001, 15_000_000):
        expect("taken", output(1000, TWO[:80], front + set_up(supply) + back),
               b"set up\nsilent\n")
    # It judges the setpoints as they are now, and the new supply judges from now on.
    granted = b"1 FFFF0682EC0C000039424800000043FA0000EE\n"
    denied = b"1 FFFF0682EC0210007A\n"
    expect("less", output(15_000_000, TWO,
                          sent(HALF) + set_up(1499) + set_up(1500) + sent(ABOVE_HALF)),
           granted + b"refused 106\nset up\n" + denied)
    expect("more", output(1000, TWO, sent(HALF) + set_up(1500) + sent(HALF)),
           denied + b"set up\n" + granted)
    # The rack's records stay: the polling address that was written, the key.
    given = (sent(bytes.fromhex("FFFF028106010387")) + key(0, 0) + set_up(1000)
             + look(0))
    expect("records stay", output(1000, TWO, given).splitlines()[-1][:20],
           shown(TWO[:4] + b"\x03\x02\x00\x00\x07\x01").encode("ascii"))


def begins():
    """A refused file or set-up is all that is printed."""
    given = sent(READ_AT_1) + set_up(1000) + b"\x00"
    for supply, file, wanted in (
        (0, b"", 104), (2**32 - 1, b"", 104), (0, WORKED * 16, 104),
        (15_000_001, record(polling=16), 103), (15_000_001, WORKED, 107),
        (15_000_001, WORKED * 2, 107), (2**32 - 1, WORKED, 107), (0, WORKED * 2, 105),
        (999, TWO, 106), (0, TWO, 106), (0, channel(1, 1, setpoint=1), 106),
        (14_999_999, most_of_all(), 106),
    ):
        expect("refused", output(supply, file, given), f"refused {wanted}\n".encode("ascii"))
    for supply, file in ((0, WORKED), (1000, TWO), (15_000_000, most_of_all()),
                         (1, channel(1, 1, setpoint=1))):
        expect("taken", output(supply, file, gap()), b"silent\n")


def most_of_all():
    """A rack that asks for all that a supply can be."""
    return b"".join(MOST[:1] + bytes([0, 0, number]) + MOST[4:] for number in range(15))


def forms():
    """Its own kinds, and each of their bytes with some values."""
    used = {5: (1,), 6: (1,), 7: (4, 5, 6, 7)}
    for kind in range(256):
        for place in range(1, 12):
            for value in (0, 1, 2, 7, 8, 64, 255):
                event = bytes([kind]) + bytes(place - 1) + bytes([value]) + bytes(11 - place)
                panel = ready([WORKED])
                before = state(panel)
                found = supplyevents.line_of(panel, event)
                if kind in used:
                    in_form = value == 0 or place in used[kind]
                    expect(f"event {event.hex()}", found == "refused 110", not in_form)
                    expect("not linerun's", events.line_of(panel, event), "refused 110")
                else:
                    expect("as linerun", found, events.line_of(ready([WORKED]), event))
                if found is not None and found.startswith("refused"):
                    expect("as it was", state(panel), before)
    for length in range(1, 12):
        for kind in range(9):
            expect("cut off", output(0, WORKED, bytes([kind]) * length), b"refused 104\n")


def as_linerun():
    """Under linerun's supply, events of linerun's kinds print what linerun prints."""
    rack, given = recording_mixed.rack(), recording_mixed.events()
    # One of its events is out of form by its kind, which this program has.
    given = given.replace(b"\x05" + gap()[1:], b"\x08" + gap()[1:])
    expect("mixed", output(15_000_000, rack, given), linerun.output(rack, given))


def supplies():
    """What a supply may be written as."""
    for word, wanted in (("0", 0), ("1", 1), ("15000000", 15_000_000),
                         ("4294967295", 2**32 - 1), ("00", 0), ("007", 7),
                         ("0" * 5000 + "4294967295", 2**32 - 1)):
        expect(word, supply_of(word), wanted)
    for word in ("", "4294967296", "42949672950", "9" * 5000, "-1", "+1", "-0", " 1", "1 ",
                 "1_0", "1.0", "1e3", "0x10", "A", "1A", "\u0661", "\u00b2", "1\n", "\x001"):
        expect(f"{word!r}", supply_of(word), None)


def run():
    by_hand()
    looks()
    rooms()
    set_up_again()
    begins()
    forms()
    as_linerun()
    supplies()
