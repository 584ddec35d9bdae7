"""A recording in the making: it is played as it grows.

So what comes next can be chosen by what the panel then holds, such as a
setpoint that just fits the supply.
"""

import events
import linerun
import racks
import supplyevents
from panel import Panel
from recording import Recording
from refusal import Refused
from some_channels import OPEN
from some_panels import ready


class Making:
    def __init__(self, program, supply, file):
        self.program = program
        self.supply = supply
        self.file = file
        self.is_supplyrun = program == "supplyrun"
        self.events = []
        self.kinds = set()
        self.is_refused = False
        self.panel = self.begun()

    def begun(self):
        """The panel; where the program ends at once, any other, to go by."""
        try:
            panel = Panel(racks.shelf(self.file))
            panel.set_up(self.supply if self.is_supplyrun else linerun.SUPPLY)
        except Refused as refused:
            self.is_refused = True
            self.kinds.add(f"begins refused {refused.code}")
            return ready([OPEN])
        return panel

    def note(self, kind):
        """Of which kind something in it is, in words; what is not worked is of none."""
        if not self.is_refused:
            self.kinds.add(kind)

    def put(self, event):
        line_of = supplyevents.line_of if self.is_supplyrun else events.line_of
        self.events.append(event)
        return line_of(self.panel, event)

    def done(self):
        supply = self.supply if self.is_supplyrun else None
        return Recording(self.program, supply, self.file, b"".join(self.events))
