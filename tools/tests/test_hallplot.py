"""The picture of a hall: well-formed, and its bands are the shares that a panel grants."""

import re
import unittest
from xml.etree import ElementTree

from support import EXAMPLES, made

import generator
import racks
from recording import expected
from refusal import Refused
from shares import SUPPLY_PARTS, share_of
from some_panels import channel
from supplyevents import line_of

from hall.events import cut
from hall.granting import history
from hall.picture import BOTTOM, HEIGHT, TOP, WIDTH, picture, scales_of
from hall.printed import lines_of
from hall.recordfiles import records_of
from hall.standing import Standing
from hall.wrong import Wrong
from panel import Panel

SVG = "{http://www.w3.org/2000/svg}"
TWO = channel(1, 1, 7, setpoint=0x42C80000) + channel(2, 2, 8)


def drawn(file, recording, lines, supply):
    found = history(recording, lines, Standing(records_of(file), supply))
    return found, ElementTree.fromstring(picture(found, records_of(file), "a <hall> & more"))


def marks(root, kind):
    return [one for one in root.iter() if one.get("class") == kind]


def edges(path):
    """The corners of a path of M, H and V."""
    x = y = None
    for command, numbers in re.findall("([MHV])([-0-9.,]+)", path):
        some = [float(number) for number in numbers.split(",")]
        x = some[0] if command != "V" else x
        y = some[-1] if command != "H" else y
        yield x, y


class Bands(unittest.TestCase):
    def levels(self, band, x):
        corners = list(edges(band.get("d")))
        found = [y for (left, y), (right, other) in zip(corners, corners[1:])
                 if y == other and min(left, right) < x < max(left, right)]
        return max(found) - min(found) if len(found) == 2 else self.fail(f"{found} at {x}")

    def check(self, file, recording, lines, supply):
        """Each band's height after each event, by a panel that plays along."""
        found, root = drawn(file, recording, lines, supply)
        scales = scales_of(found)
        bands = marks(root, "band")
        self.assertEqual([band.get("data-channel") for band in bands],
                         [str(number) for number in range(len(file) // 80)])
        panel = Panel(racks.shelf(file))
        panel.set_up(supply)
        codes = 0
        for played, event in enumerate([None, *cut(recording)]):
            line = line_of(panel, event) if event else None
            codes += bool(line and re.match("[0-9]+ (FF)+(06..|86.{10})EC0210", line))
            for band, record in zip(bands, panel.rack):
                wanted = (BOTTOM - TOP) * share_of(record) / SUPPLY_PARTS / scales.most_y
                height = self.levels(band, scales.x(played + 0.5))
                self.assertAlmostEqual(height, wanted, delta=0.11, msg=f"after {played} events")
        self.assertEqual(len(marks(root, "code16")), codes)
        return root

    def test_the_example(self):
        file, recording, lines = ((EXAMPLES / name).read_bytes()
                                  for name in ("rack.rec", "hall.rec", "hall.printed"))
        root = self.check(file, recording, lines_of(lines), 600_000)
        self.assertEqual((root.get("width"), root.get("height")), (str(WIDTH), str(HEIGHT)))
        self.assertEqual([mark.get("data-channel") for mark in marks(root, "code16")],
                         ["1", "2", "0"])
        self.assertEqual(len(marks(root, "refused-set-up")), 1)

    def test_generated_recordings(self):
        count = 0
        for seed in range(500, 600):
            one = generator.recording(seed, ("supplyrun",))
            try:
                Panel(racks.shelf(one.file)).set_up(one.supply)
            except Refused:
                continue
            if len(one.events) < 12 * 400:
                self.check(one.file, one.events, lines_of(expected(one)), one.supply)
                count += 1
        self.assertGreater(count, 20)


class Pictures(unittest.TestCase):
    def test_nothing_played(self):
        _, root = drawn(TWO, b"", [], 1500)
        self.assertEqual(len(marks(root, "band")), 2)

    def test_nothing_granted(self):
        _, root = drawn(channel(1, 1), b"", [], 0)
        self.assertEqual(len(marks(root, "band")), 1)

    def test_a_supply_far_above_is_told(self):
        _, root = drawn(TWO, b"", [], 15_000_000)
        words = [one.text for one in root.iter(f"{SVG}text")]
        self.assertIn("supply, above: 15,000,000 mL/min", words)

    def test_marks_lie_in_the_picture(self):
        recording = made("send write-setpoint 100 to 2\ngap\nsupply 999")
        lines = ["1 FFFF0682EC0210007A", "refused 106"]
        _, root = drawn(TWO, recording, lines, 1000)
        for path in [one.get("d") for one in root.iter(f"{SVG}path") if one.get("d")]:
            for x, y in edges(path):
                self.assertTrue(0 <= x <= WIDTH and 0 <= y <= HEIGHT, path)
        self.assertEqual(len(marks(root, "code16")), 1)

    def test_a_refused_set_up_draws_nothing(self):
        with self.assertRaisesRegex(Wrong, "the first set-up is refused 106"):
            drawn(TWO, made("gap"), ["refused 106"], 999)


if __name__ == "__main__":
    unittest.main()
