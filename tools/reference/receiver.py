"""What is kept of a transmission that has not ended."""

from frames import PREAMBLE
from hearing import hear_span
from refusal import too_many_marks

MOST_MARKS = 7
LONGEST_SPAN = 264


class Receiver:
    """Bounded: it holds no more of a long transmission than of a short one."""

    def __init__(self):
        self.preambles = 0
        self.span = b""
        self.marks = 0
        self.is_overlong = False

    def take(self, byte, marks):
        if marks > MOST_MARKS:
            raise too_many_marks()
        if self.span == b"" and byte == PREAMBLE:
            self.preambles += 1
        elif len(self.span) < LONGEST_SPAN:
            self.span += bytes([byte])
            self.marks |= marks
        else:
            self.is_overlong = True

    def heard(self):
        """The whole transmission, if it is one."""
        if self.is_overlong:
            return None
        return hear_span(self.preambles, self.span, [self.marks])
