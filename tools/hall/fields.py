"""Kinds of field: bytes from a text, and the text that they are made from.

A kind has a length in bytes, a form in words, as the documents have it, and says what
it wants to a text out of form. It makes its bytes from a text, None from a text out of
form, and shows bytes as the text that they are made from; bytes out of range it shows
as a text out of form.
"""

import re

from hall import binary32


class Whole:
    def __init__(self, length, low, high):
        self.length, self.low, self.high = length, low, high
        self.form = f"{low} to {high}"
        self.wants = f"a whole number, {self.form}"

    def make(self, text):
        in_range = re.fullmatch("[0-9]{1,10}", text) and self.low <= int(text) <= self.high
        return int(text).to_bytes(self.length, "big") if in_range else None

    def show(self, some):
        return str(int.from_bytes(some, "big"))


class Flag:
    """One bit of the flags byte, with a word for 0 and a word for 1."""

    def __init__(self, bit, words):
        self.length, self.bit, self.words = 1, bit, words
        self.form = f"`{words[1]}` or `{words[0]}`"
        self.wants = f"{words[1]} or {words[0]}"

    def make(self, text):
        return bytes([self.words.index(text) << self.bit]) if text in self.words else None

    def show(self, some):
        return self.words[some[0] >> self.bit & 1] if some[0] <= 3 else some.hex()


class Binary32:
    """A decimal number, or a pattern, of some range."""

    length = 4

    def __init__(self, is_in_range, form):
        self.is_in_range, self.form = is_in_range, form
        self.wants = f"a decimal number or a pattern such as 0x41C80000: {form}"

    def make(self, text):
        pattern = binary32.pattern_of(text)
        if pattern is None or not self.is_in_range(pattern):
            return None
        return pattern.to_bytes(4, "big")

    def show(self, some):
        return binary32.text_of(int.from_bytes(some, "big"))


class Letters:
    """Packed text: of each four letters the six low bits, in three bytes."""

    def __init__(self, count):
        self.count, self.length = count, count // 4 * 3
        self.form = f"at most {count} letters"
        self.wants = (f"at most {count} capitals, digits and signs, or hex and the"
                      f" {self.length} packed bytes")

    def make(self, text):
        if re.fullmatch("hex( [0-9A-Fa-f]{2}){%d}" % self.length, text):
            return bytes.fromhex(text[3:])
        if len(text) > self.count or not all(" " <= letter <= "_" for letter in text):
            return None
        bits = 0
        for letter in text.ljust(self.count):
            bits = bits * 64 + ord(letter) % 64
        return bits.to_bytes(self.length, "big")

    def show(self, some):
        text = self.letters(some)
        # A space in front would be lost on the way back.
        return "hex " + some.hex(" ").upper() if text.startswith(" ") else text

    def letters(self, some):
        """Without the spaces that pad them."""
        bits = int.from_bytes(some, "big")
        sixes = [bits >> 6 * place & 63 for place in reversed(range(self.count))]
        return "".join(chr(six if six & 32 else six | 64) for six in sixes).rstrip(" ")


class Date:
    length = 3
    form = "day and month, 0 to 255 each, and year, 1900 to 2155: `17 11 2026`"
    wants = form.replace("`", "")

    def make(self, text):
        if re.fullmatch("[0-9]{1,3} +[0-9]{1,3} +[0-9]{4}", text):
            day, month, year = map(int, text.split())
            if max(day, month) <= 255 and 1900 <= year <= 2155:
                return bytes([day, month, year - 1900])
        return None

    def show(self, some):
        return f"{some[0]} {some[1]} {1900 + some[2]}"


class Percent:
    """The unit code of percent, and any pattern."""

    length = 5
    unit = b"\x39"
    form = wants = "a decimal number of percent or a pattern such as 0x41C80000"

    def make(self, text):
        pattern = binary32.pattern_of(text)
        return None if pattern is None else self.unit + pattern.to_bytes(4, "big")

    def show(self, some):
        is_percent = some[:1] == self.unit
        return binary32.text_of(int.from_bytes(some[1:], "big")) if is_percent else some.hex()
