"""What the page of tools says is what the tools do."""

import re
import unittest

from support import EXAMPLES, TOP, made

from hall.commands import COMMANDS
from hall.explaining import explained
from hall.making import LINES
from hall.printed import lines_of
from hall.recordfiles import records_of
from hall.standing import Standing

PAGE = (TOP / "docs" / "TOOLS.md").read_text(encoding="utf-8")


class Documents(unittest.TestCase):
    def test_every_command_stands_there(self):
        found = dict(re.findall(r"^\| `([a-z-]+)` \| (\d+) \|", PAGE, re.M))
        self.assertEqual(found, {one.name: str(number) for number, one in COMMANDS.items()})

    def test_every_line_stands_there_and_is_in_form(self):
        table = PAGE[PAGE.index("| Line | Events |"):].split("\n\n")[0]
        firsts = "\n".join(re.findall(r"^\| (.*?) \|", table, re.M))
        lines = re.findall("`([a-z]+ [^`]*|gap)`", firsts)
        self.assertEqual({line.split()[0] for line in lines}, set(LINES))
        for line in lines:
            self.assertNotEqual(made(line), b"", line)

    def test_the_explanation_is_the_sample_halls(self):
        rack, recording, printed = ((EXAMPLES / name).read_bytes()
                                    for name in ("rack.rec", "hall.rec", "hall.printed"))
        standing = Standing(records_of(rack), 600_000)
        said = "\n".join(explained(recording, lines_of(printed), standing))
        shown = re.search(r"\n((?:    .*\n)+)", PAGE[PAGE.index("### explain"):]).group(1)
        self.assertIn("\n".join(line[4:] for line in shown.splitlines()), said)


if __name__ == "__main__":
    unittest.main()
