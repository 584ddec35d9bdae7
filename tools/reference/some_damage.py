"""Transmissions spoilt by chance: bytes, marks, and what is missing or too many."""

from frames import PREAMBLE, WIDTH_OF_START, count_preambles


def part_of(some, place):
    """Which part of a request's transmission is at a place."""
    start = count_preambles(some)
    if place < start:
        return "preamble"
    # Behind the start stand address, command and count.
    width = WIDTH_OF_START[some[start]]
    at = place - start
    if at == 0:
        return "start"
    if at <= width:
        return f"address byte {at}"
    if at <= width + 2:
        return ("command", "count")[at - width - 1]
    return "check" if place == len(some) - 1 else "data"


def some_place(chance, some):
    """A place in it; of long data no more often than of the rest."""
    start = count_preambles(some)
    if chance.below(3) == 0:
        return chance.below(start + 1)
    if chance.below(4) == 0:
        return len(some) - 1
    return start + chance.below(len(some) - start)


def one_byte(chance, some, note):
    """One byte is another; among preambles and starts, mostly one that tells."""
    place = some_place(chance, some)
    part = part_of(some, place)
    other = some[place] ^ chance.one_of((1 << chance.below(8), 1 + chance.below(255)))
    if part in ("preamble", "start"):
        other = chance.one_of((0x02, 0x82, PREAMBLE, PREAMBLE, other))
    if other == some[place]:
        other ^= 0x80
    note(f"damaged {part}")
    note_moved(some, place, other, note)
    return some[:place] + bytes([other]) + some[place + 1:]


def note_moved(some, place, other, note):
    """What moves the frame, or its end."""
    part, was = part_of(some, place), some[place]
    if part == "preamble" and other in WIDTH_OF_START:
        note(f"preamble taken as {other:02X}")
    if part == "start" and other in WIDTH_OF_START:
        note(f"start {was:02X} taken as {other:02X}")
    if part == "start" and other == PREAMBLE and some[place + 1] in WIDTH_OF_START:
        note(f"start taken as FF before {some[place + 1]:02X}")


def some_marks(chance, some, note):
    """Marks of one character, or of several."""
    marks = bytearray(len(some))
    for _ in range(chance.one_of((1, 1, 1, 2, 3))):
        place = some_place(chance, some)
        marks[place] = 1 + chance.below(7)
        note(f"marked {part_of(some, place)}")
    return bytes(marks)


def other_length(chance, some, note):
    """Bytes missing, or too many."""
    start = count_preambles(some)
    place = chance.below(len(some))
    kind, other = chance.one_of((
        ("byte too many behind", some + chance.one_of((b"\x00", b"\xff", b"\x5a"))),
        ("byte too many in front", b"\x00" + some),
        ("byte too many within", some[:place] + chance.bytes(1) + some[place:]),
        ("byte missing", some[:place] + some[place + 1:]),
        ("end missing", some[:start + chance.below(len(some) - start)]),
        ("check missing", some[:-1]),
        ("one preamble", some[start - 1:]),
        ("no preamble", some[start:]),
        ("two in a row", some + some),
    ))
    note(kind)
    return other
