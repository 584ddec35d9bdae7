"""Each form of a line, and each error of one."""

import unittest

from support import made, shown

from hall.wrong import Wrong

ZEROS = " 00 00 00 00 00 00 00 00"

FORMS = {
    "send FF": "01 FF 00 00" + ZEROS,
    "send ff 02  # a comment": "01 FF 00 00" + ZEROS + "01 02 00 00" + ZEROS,
    "mark parity 10": "01 10 01 00" + ZEROS,
    "mark parity overrun framing 10": "01 10 07 00" + ZEROS,
    "mark 8 10": "01 10 08 00" + ZEROS,
    "gap": "02 00 00 00" + ZEROS,
    "gap 63": "05 3F 00 00" + ZEROS,
    "sample 1 12.5 21": "03 01 00 00 41 48 00 00 41 A8 00 00",
    "sample 255 -0 0x7FC00001": "03 FF 00 00 80 00 00 00 7F C0 00 01",
    "key 2 open": "04 02 01 00" + ZEROS,
    "key 2 shut": "04 02 00 00" + ZEROS,
    "look 1": "06 01 00 00" + ZEROS,
    "supply 1500": "07 00 00 00 00 00 05 DC 00 00 00 00",
    "event 01 FF 00 00 00 00 00 00 00 00 00 01": "01 FF 00 00 00 00 00 00 00 00 00 01",
    "rest 02 00": "02 00",
    "": "",
    "# a comment": "",
}

REQUESTS = {
    "read-assembly-number to 1": "FF FF 02 81 10 00 93",
    "read-assembly-number to 1 by secondary preambles 3": "FF FF FF 02 01 10 00 13",
    "identify to 70:1": "FF FF 82 8A 46 00 00 01 00 00 4F",
    'tag-question "MFC-1234" to all preambles 5':
        "FF FF FF FF FF 82 80 00 00 00 00 0B 06 34 60 ED C7 2C F4 A9",
    "write-setpoint 50 to 1": "FF FF 02 81 EC 05 39 42 48 00 00 59",
    "write-setpoint 50.000004 to 1": "FF FF 02 81 EC 05 39 42 48 00 01 58",
    "write-setpoint data FA 42 48 00 00 to 1": "FF FF 02 81 EC 05 FA 42 48 00 00 9A",
    "write-setpoint 0x42C80001 to 1": "FF FF 02 81 EC 05 39 42 C8 00 01 D8",
    "write-preambles 5 to 1": "FF FF 02 81 3B 01 05 BC",
    "write-polling-address 2 to 1": "FF FF 02 81 06 01 02 86",
    "write-polling-address data to 1": "FF FF 02 81 06 00 85",
    "reset-changed-flag to 1": "FF FF 02 81 26 00 A5",
    "command-2 to 1": "FF FF 02 81 02 00 81",
    'write-tag "MFC-1234" "NITROGEN" "17 11 2026" to 1':
        "FF FF 02 81 12 15 34 60 ED C7 2C F4 38 95 12 3C 71 4E 82 08 20 82 08 20 11 0B 7E",
}

ERRORS = {
    "what": "'what' is no event; events are send, mark",
    "send": "wants send and bytes",
    "send FG": "'FG' is neither a byte nor a command",
    "send FF 0": "'FF' is neither a byte nor a command",
    "send command-256 to 1": "'command-256' is neither",
    "send identify": "the request wants an address",
    "send identify to": "behind a request's values stand",
    "send identify to 16": "a polling address wants a number from 0 to 15; not '16'",
    "send identify to 70:16777216": "an identification wants a number from 0 to 16777215",
    "send identify to 256:1": "a device type wants a number from 0 to 255",
    "send identify to 1 to 2": "says one thing twice",
    "send identify to 1 by nobody": "by wants primary or secondary; not 'nobody'",
    "send identify to 1 preambles 1": "preambles wants a number from 2 to 20",
    "send identify 5 to 1": "behind a request's values stand",
    "send write-setpoint to 1": "write-setpoint wants a decimal number of percent",
    "send write-setpoint": "write-setpoint wants a decimal number of percent",
    'send tag-question "mfc" to all': "tag-question wants at most 8 capitals",
    'send tag-question "MFC to all': "a quotation mark without its other one",
    'send tag-question "MFC"x to all': "a quotation mark without its other one, or",
    "send identify data " + "00 " * 256 + "to 1": "at most 255 data bytes; not 256",
    "mark parity": "wants mark, parity, overrun or framing, and a byte",
    "mark parity 1": "mark wants a byte such as 8A at its end; not '1'",
    "mark parity parity 10": "each once",
    "mark 256 10": "a number from 0 to 255",
    "gap 256": "the room of a gap wants a number from 0 to 255",
    "gap 1 2": "wants gap, or gap and its room",
    "sample 0 1": "wants sample, channel, flow, temperature",
    "sample 0 1e3 2": "sample wants decimal numbers or patterns",
    "sample 256 1 2": "a channel wants a number from 0 to 255",
    "key 0 ajar": "key wants open or shut; not 'ajar'",
    "look": "wants look and a channel",
    "supply 4294967296": "supply wants a number from 0 to 4294967295",
    "supply -1": "supply wants a number from",
    "event 01": "wants event and 12 bytes",
    "event 01 FF 00 00 00 00 00 00 00 00 00 1": "'1' is no byte",
    "rest": "wants rest and the 1 to 11 bytes",
    "rest 00 00 00 00 00 00 00 00 00 00 00 00": "wants rest and the 1 to 11 bytes",
}


class Making(unittest.TestCase):
    def test_forms(self):
        for line, wanted in FORMS.items():
            self.assertEqual(made(line), bytes.fromhex(wanted), line)

    def test_requests(self):
        for line, wanted in REQUESTS.items():
            found = made(f"send {line}")
            sent = found[1::12]
            self.assertTrue(sent.startswith(bytes.fromhex(wanted)), f"{line}: {sent.hex(' ')}")
            if "0x" not in line:  # a pattern whose decimal is short is shown as the decimal
                self.assertEqual(shown(found), f"send {line}\n")

    def test_errors_tell_their_line(self):
        for line, wanted in ERRORS.items():
            with self.assertRaises(Wrong, msg=line) as caught:
                made(f"gap\n# a comment\n{line}\ngap\n")
            self.assertTrue(str(caught.exception).startswith("line 3: "), caught.exception)
            self.assertIn(wanted, str(caught.exception))

    def test_nothing_stands_behind_the_rest(self):
        with self.assertRaisesRegex(Wrong, "line 3: behind the rest of an event in line 1"):
            made("rest 02\n# a comment\ngap\n")

    def test_lines_may_end_as_they_like(self):
        self.assertEqual(made("gap\r\n\r\n\tkey 0\topen \r\n"), made("gap\nkey 0 open"))


if __name__ == "__main__":
    unittest.main()
