"""Record files as text, and weighed against a supply."""

import re
import unittest

from support import TOP, WORKED, run

from chance import Chance
from some_panels import channel
from some_racks import some_record

from hall.checking import weighed
from hall.recordfiles import FIELDS, file_of, records_of, text_of
from hall.wrong import Wrong

WALKTHROUGH = TOP / "crates" / "walkthrough" / "data"
TWO = [channel(1, 1, 7, setpoint=0x42C80000), channel(2, 2, 8, setpoint=0x42480000)]


class Text(unittest.TestCase):
    def test_any_lawful_file_is_made_again(self):
        chance = Chance(4)
        for _ in range(60):
            file = b"".join(some_record(chance) for _ in range(1 + chance.below(15)))
            self.assertEqual(file_of(text_of(file).encode("ascii")), file)

    def test_the_sample_panel(self):
        text = (WALKTHROUGH / "rack.txt").read_bytes()
        file = (WALKTHROUGH / "rack.rec").read_bytes()
        self.assertEqual(file_of(text), file)
        self.assertEqual(text_of(file).encode("ascii"), text)

    def test_errors(self):
        for text, wanted in (
            ("tag MFC", "line 1: not of the form"),
            ("\n\nkey: open\nsize: 1", "line 4: no field is named 'size'; they are tag, type"),
            ("key: open\nkey: shut", "line 2: 'key' stands twice"),
            ("tag: mfc", "line 1: tag wants at most 8 capitals, digits and signs"),
            ("setpoint: 101", "line 1: setpoint wants a decimal number or a pattern"),
            ("ceiling: 101", "line 1: ceiling wants a whole number, 0 to 100; not '101'"),
            ("key: ajar", "line 1: key wants open or shut; not 'ajar'"),
            ("tag: \u00c4", "line 1: tag wants"),
            ("", "line 1: no channel"),
            ("type: 1\n\n" * 16, "line 31: more than 15 channels"),
        ):
            with self.assertRaises(Wrong) as caught:
                file_of(text.encode("utf-8"))
            self.assertIn(wanted, str(caught.exception))

    def test_refused_files(self):
        for file, wanted in ((b"", "refused 104: 0 bytes"), (WORKED[1:], "refused 104"),
                             (WORKED * 16, "refused 104"),
                             (WORKED + WORKED[:-1] + b"\x01", "refused 103: record 1, field out of"
                              " range at offset 73"),
                             (WORKED[:4] + b"\x10" + WORKED[5:], "record 0, field out of range at"
                              " offset 4")):
            with self.assertRaises(Wrong) as caught:
                records_of(file)
            self.assertIn(wanted, str(caught.exception))


class Help(unittest.TestCase):
    def test_it_agrees_with_the_page_of_records(self):
        page = (TOP / "docs" / "RECORDS.md").read_text(encoding="utf-8")
        table = page[page.index("| Name | Value | Default |"):].split("\n\n")[0].split("\n")[2:]
        wanted = {}
        for row in table:
            names, form, default = (cell.strip() for cell in row.strip("|").split("|"))
            wanted |= {name: (form, default) for name in re.findall("`([^`]*)`", names)}
        found = {name: (kind.form, said or default)
                 for name, (_, kind, default, said) in FIELDS.items()}
        self.assertEqual(found, wanted)
        status, said, _ = run("rackfile", "--help")
        self.assertEqual(status, 0)
        for form, default in wanted.values():
            self.assertIn(form, said)
            self.assertIn(default, said)


class Check(unittest.TestCase):
    def check(self, records, supply, message):
        with self.assertRaisesRegex(Wrong, message):
            list(weighed(records, supply))

    def test_it_fits_exactly(self):
        said = "\n".join(weighed(TWO, 1500))
        for wanted in ("102,400,000", "51,200,000", "153,600,000  1,500 mL/min", "  0 mL/min",
                       "a set-up under this supply is taken"):
            self.assertIn(wanted, said)

    def test_it_is_refused_as_a_set_up_would_be(self):
        self.check(TWO, 1499, "refused 106")
        self.check(TWO, 15_000_001, "refused 107")
        self.check(TWO + TWO[:1], 15_000_000, "refused 105: channels 0 and 2")
        self.check(TWO + TWO[:1], 0, "refused 105")

    def test_a_load_is_rounded_up(self):
        # 50 + 2^-18 percent: a load of 51,201.
        said = "\n".join(weighed([channel(1, 1, setpoint=0x42480001)], 1500))
        self.assertIn("51,201,000", said)


if __name__ == "__main__":
    unittest.main()
