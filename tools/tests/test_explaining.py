"""What was printed, in words: known exchanges, and every generated one."""

import unittest

from support import ASK, ASKED, RECORDINGS, WORKED, made

import generator
import linerun
from recording import expected
from some_panels import channel

from hall.explaining import explained
from hall.printed import lines_of
from hall.recordfiles import records_of
from hall.standing import Standing
from hall.wrong import Wrong

TWO = channel(1, 1, 7, setpoint=0x42C80000) + channel(2, 2, 8)
SENT = "FF FF 02 81 10 00 93"


def played(text, file=WORKED, supply=None, program="linerun", knows=True):
    """The explanation of a recording's text, played by the reference."""
    recording = made(text)
    one = generator.Making(program, supply, file).done()._replace(events=recording)
    standing = Standing(records_of(file), supply) if knows else None
    return "\n".join(explained(recording, lines_of(expected(one)), standing))


class KnownExchanges(unittest.TestCase):
    def test_worked_request(self):
        self.assertEqual(list(explained(made(ASK), ASKED)), [
            f"events 0 to 7: {SENT}, gap",
            "    printed: 0 FFFF06811005000000000795",
            "    primary master to polling address 1: read final assembly number (command 16)",
            "    channel 0: no error; final assembly number 7"])

    def check(self, text, *wanted, **how):
        found = played(text, **how)
        for words in wanted:
            self.assertIn(words, found)

    def test_communication_errors_by_their_parts(self):
        self.check("send FF FF 02 81\nmark parity 10\nsend 00 93\ngap", "10(parity)",
                   "channel 0: communication error: parity; nothing is done")
        self.check("send FF FF 02 81 10 00 92\ngap", "communication error: wrong check;")
        self.check("send FF FF 02\nmark parity framing 81\nmark overrun 10\nsend 00 92\ngap",
                   "communication error: parity, overrun, framing, wrong check;")

    def test_silence_with_its_reason(self):
        for text, wanted in (
            ("gap", "nothing was heard"),
            ("send FF FF\ngap", "not whole: preambles alone"),
            ("send FF 02 81 10 00 93\ngap", "not whole: one preamble, where two are wanted"),
            ("send 02 81 10 00 93\ngap", "not whole: no preambles, where two"),
            ("send FF FF 06 81 10 00 97\ngap", "not whole: no request starts with 06"),
            ("send FF FF 02 81 10\ngap", "not whole: it ends before its count"),
            ("send FF FF 02 81 10 00\ngap", "not whole: 1 of the frame's 5 bytes are missing"),
            (f"send {SENT} 00\ngap", "not whole: 1 bytes stand behind the check"),
            ("send read-flow to 2\ngap", "it means no channel"),
            ("send FF FF 02 82 10 00 91\ngap",
             "it means no channel (wrong check too: 91 in the place of 90)"),
            ("send FF FF 02 91 10 00 83\ngap", "address 91, which no channel has"),
        ):
            self.check(text, wanted)

    def test_silence_without_the_record_file(self):
        self.check("send read-flow to 2\ngap", "it means no channel, or several", knows=False)

    def test_several_channels(self):
        self.check("send read-flow to all\ngap", "it means several channels: 0, 1", file=TWO)
        # The second channel takes the address of the first.
        self.check("send write-polling-address 1 to 2\ngap\nsend read-flow to 1\ngap",
                   "polling address 1 from now on", "it means several channels: 0, 1", file=TWO)

    def test_code_16_is_weighed(self):
        self.check("send write-setpoint 60 to 2 by secondary\ngap",
                   "secondary master to polling address 2: write setpoint in percent (command 236):"
                   " 60 percent, 600 mL/min",
                   "channel 1: code 16, access restricted; nothing is done",
                   "60 percent of 1,000 mL/min beside the others' 1,000 is 1,600, above the supply"
                   " of 1,500", file=TWO, supply=1500, program="supplyrun")

    def test_set_up_again(self):
        self.check("send FF\nsupply 999\nsupply 1000\nsupply 15000001\nlook 1", "refused 106",
                   "the supply is 1,000 mL/min from now on", "the 1 characters before it",
                   "refused 107", "setpoint 0 percent of 1,000 mL/min",
                   file=TWO, supply=1500, program="supplyrun")

    def test_other_events(self):
        self.check("key 0 open\nkey 1 open\nsample 0 1 2\nsample 0 0x7F800000 2\nmark 8 FF\nlook 0"
                   "\nsend FF\nrest 02", "the key of channel 0 is open", "refused 101",
                   "channel 0 measures flow 1, temperature 2", "refused 108", "refused 109",
                   "refused 110", "events 6 to 7: FF", "refused 104")

    def test_refused_set_up(self):
        self.check("gap", "the first set-up is refused 106", file=TWO, supply=999,
                   program="supplyrun")


class Lines(unittest.TestCase):
    def check(self, text, lines, message):
        with self.assertRaisesRegex(Wrong, message):
            list(explained(made(text), lines, Standing([WORKED], None)))

    def test_lines_of_another_recording(self):
        self.check(ASK, [], "ends before event 7")
        self.check(ASK, ["set up"], "printed line 1, 'set up', is not what event 7 prints")
        self.check(ASK, ASKED * 2, "printed line 2 is behind that of the last event")
        self.check(ASK, ["0 00"], "no reply to what was heard")
        self.check(ASK, ["1" + ASKED[0][1:]], "channel 1, which the rack does not have")
        self.check("gap", ASKED, "no reply to what was heard")
        self.check(ASK, ["silent"], "event 7 is silent, and the request means channel 0")

    def test_lines_that_are_no_text(self):
        with self.assertRaisesRegex(Wrong, "no text"):
            lines_of(b"\xff\n")


class GeneratedRecordings(unittest.TestCase):
    def test_every_event_is_explained(self):
        for seed in range(150):
            one = generator.recording(seed)
            lines = lines_of(expected(one))
            supply = linerun.SUPPLY if one.supply is None else one.supply
            try:
                standing = Standing(records_of(one.file), supply)
            except Wrong:
                standing = None
            for known in (standing, None):
                said = list(explained(one.events, lines, known))
                if not said[0].startswith("the first set-up"):
                    found = [line[13:] for line in said if line.startswith("    printed: ")]
                    self.assertEqual(found, lines, seed)

    def test_the_recordings_of_the_reference(self):
        for name in ("example", "mixed", "exchange"):
            recording, file, lines = ((RECORDINGS / name / one).read_bytes()
                                      for one in ("stdin", "rack.rec", "stdout"))
            said = list(explained(recording, lines_of(lines), Standing(records_of(file), None)))
            self.assertEqual(sum(line.startswith("    printed") for line in said),
                             len(lines_of(lines)))


if __name__ == "__main__":
    unittest.main()
