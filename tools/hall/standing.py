"""What is known of a hall's channels while a recording goes on: from answers and looks."""

from addressing import means
from records import FULL_SCALE, SETPOINT
from setpoints import load
from shares import share_of

WRITE_SETPOINT = 236
# Of commands that answer what they wrote, the offset of it in the record.
WRITTEN_AT = {6: 4, 17: 49, 18: 28, 19: 6, 59: 5}
SETPOINT_AT = 10


class Standing:
    def __init__(self, records, supply):
        self.records, self.supply = [bytes(record) for record in records], supply

    def meant(self, request):
        """The channels that a whole request means."""
        return [channel for channel, record in enumerate(self.records) if means(request, record)]

    def accepted(self, answer):
        """After an answer without an error."""
        if answer.command in WRITTEN_AT:
            self.put(answer.channel, WRITTEN_AT[answer.command], answer.data)
        elif answer.command == WRITE_SETPOINT:
            self.put(answer.channel, SETPOINT_AT, answer.data[1:5])

    def put(self, channel, at, some):
        record = self.records[channel]
        self.records[channel] = record[:at] + some + record[at + len(some):]

    def shares(self):
        return [share_of(record) for record in self.records]

    def asked_total(self, channel, pattern):
        """The sum of shares with a setpoint in the place of the channel's own."""
        others = sum(self.shares()) - share_of(self.records[channel])
        return others + load(pattern) * FULL_SCALE.of(self.records[channel])

    def setpoint(self, channel):
        return SETPOINT.of(self.records[channel])

    def full_scale(self, channel):
        return FULL_SCALE.of(self.records[channel])
