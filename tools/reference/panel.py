"""A panel: the calls of a line and of its operators on the channels of a rack."""

import set_up
import writes
from addressing import means
from answers import LEAST_BUFFER, reply
from channels import record_of
from codes import Header
from lent import fill
from receiver import Receiver
from refusal import short_buffer
from shares import total


class Panel:
    """Each call is refused before it has changed anything, or is not refused."""

    def __init__(self, rack):
        self.rack = list(rack)
        self.supply = None  # until a set-up is taken
        self.receiver = Receiver()

    def channels(self):
        return [] if self.supply is None else self.rack

    def set_up(self, supply):
        set_up.judge(self.rack, supply)
        self.supply = supply
        self.receiver = Receiver()

    def character(self, byte, marks):
        self.receiver.take(byte, marks)

    def gap(self, buffer):
        """The channel that answers and its answer's length; None is silence."""
        if len(buffer) < LEAST_BUFFER:
            raise short_buffer()
        heard = self.receiver.heard()
        self.receiver = Receiver()
        meant = self.meant_by(heard)
        if len(meant) != 1:
            return None
        channel, = meant
        others = self.rack[:channel] + self.rack[channel + 1:]
        answer, self.rack[channel] = reply(heard, self.rack[channel],
                                           Header(self.supply, total(others)))
        return channel, fill(buffer, answer)

    def meant_by(self, heard):
        if heard is None:
            return []
        return [channel for channel, record in enumerate(self.channels())
                if means(heard.request, record)]

    def sample(self, channel, flow, temperature):
        record = record_of(self.channels(), channel)
        self.rack[channel] = writes.sample(record, flow, temperature)

    def key(self, channel, is_open):
        record = record_of(self.channels(), channel)
        self.rack[channel] = writes.key(record, is_open)

    def look(self, channel, buffer):
        fill(buffer, record_of(self.channels(), channel))
