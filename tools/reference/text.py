"""Packed text: four letters of 20 to 5F (hexadecimal) in three bytes."""

from lent import fill
from refusal import out_of_form


def pack(text, buffer):
    if len(text) % 4 != 0:
        raise out_of_form()
    for letter in text:
        if letter < 0x20 or letter > 0x5F:
            raise out_of_form()
    packed = bytearray()
    for at in range(0, len(text), 4):
        bits = 0
        for letter in text[at:at + 4]:
            bits = bits * 64 + letter % 64
        packed += bits.to_bytes(3, "big")
    return fill(buffer, packed)


def unpack(packed, buffer):
    if len(packed) % 3 != 0:
        raise out_of_form()
    text = bytearray()
    for at in range(0, len(packed), 3):
        bits = int.from_bytes(packed[at:at + 3], "big")
        for shift in (18, 12, 6, 0):
            text.append(letter_of((bits >> shift) % 64))
    return fill(buffer, text)


def letter_of(six):
    """Bit 6 is not carried: it is the complement of bit 5."""
    if six & 0x20:
        return six
    return six | 0x40
