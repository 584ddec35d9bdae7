"""The tools as they are run: help, messages, exit status, and the sample hall."""

import subprocess
import sys
import unittest
from pathlib import Path
from tempfile import TemporaryDirectory

from support import ASK, ASKED, EXAMPLES, TOOLS, TOP, WORKED, made, run

import supplyrun

SUPPLY = 600_000
HELPFUL = ("rackfile", "recording", "hallplot", "compare", "bench", "test", "reference/linerun.py",
           "reference/supplyrun.py", "reference/generator.py")
BY_PYTHON = ("recordings", "vectors", "setpointvectors", "recordvectors", "rackvectors",
             "linevectors", "runvectors", "selftest")


class Commands(unittest.TestCase):
    def setUp(self):
        holder = TemporaryDirectory()
        self.addCleanup(holder.cleanup)
        self.folder = Path(holder.name)

    def file(self, name, some):
        (self.folder / name).write_bytes(some)
        return self.folder / name

    def fails(self, message, tool, *words):
        status, said, error = run(tool, *words)
        self.assertEqual(status, 1, error)
        self.assertIn(message, error)
        self.assertNotIn("Traceback", error)
        return said

    def test_help(self):
        for tool in HELPFUL:
            status, said, error = run(tool, "--help")
            self.assertEqual((status, error), (0, ""), tool)
            self.assertGreater(len(said.splitlines()), 4, tool)
        for verb in ("make", "show", "explain"):
            self.assertEqual(run("recording", verb, "--help")[0], 0)

    def test_help_of_what_python_runs(self):
        for name in BY_PYTHON:
            path = TOOLS / "reference" / f"{name}.py"
            done = subprocess.run([sys.executable, path, "--help"], capture_output=True)
            self.assertEqual(done.returncode, 0, name)
            self.assertIn(name.encode(), done.stdout)

    def test_recording(self):
        text, recording = self.file("text", ASK.encode()), self.folder / "recording"
        self.assertEqual(run("recording", "make", text, recording), (0, "", ""))
        self.assertEqual(recording.read_bytes(), made(ASK))
        self.assertEqual(run("recording", "show", recording), (0, ASK, ""))
        printed = self.file("printed", f"{ASKED[0]}\n".encode())
        for words in ((), ("--rack", self.file("rack.rec", WORKED)), ("--supply", 15_000_000)):
            status, said, error = run("recording", "explain", *words, recording, printed)
            self.assertEqual((status, error), (0, ""))
            self.assertIn("channel 0: no error; final assembly number 7", said)

    def test_standard_input_and_output(self):
        status, said, _ = run("recording", "show", "-", given=made(ASK))
        self.assertEqual((status, said), (0, ASK))
        status, said, _ = run("recording", "make", "-", "-", given=ASK.encode())
        self.assertEqual((status, said.encode("latin-1")), (0, made(ASK)))

    def test_missing_files_are_named(self):
        there, none = self.file("there", b"gap\n"), self.folder / "none"
        message = f"{none}: No such file or directory"
        for words in (("recording", "make", none, there), ("recording", "show", none),
                      ("recording", "explain", none, there), ("rackfile", "show", none),
                      ("recording", "explain", there, none), ("rackfile", "make", none, there),
                      ("recording", "explain", "--rack", none, there, there),
                      ("rackfile", "--check", "5", none),
                      ("hallplot", "--supply", "5", none, there, there, there)):
            self.fails(f"{words[0]}: {message}", *words)
        self.fails("none/x: No such file or directory", "recording", "make", there, none / "x")
        self.fails(f"{self.folder}: Is a directory", "recording", "show", self.folder)

    def test_errors_name_the_file_and_the_line(self):
        text, out = self.file("text", b"gap\ngap x\n"), self.folder / "out"
        self.fails(f"recording: {text}: line 2: the room of a gap wants", "recording", "make", text,
                   out)
        self.assertFalse(out.exists())
        text = self.file("text", b"tag: MFC\nkey: ajar\n")
        self.fails(f"rackfile: {text}: line 2: key wants", "rackfile", "make", text, out)
        self.fails(f"rackfile: {text}: refused 104", "rackfile", "show", text)
        self.fails(f"{text}: refused 104", "hallplot", "--supply", "5", text, text, text, out)

    def test_words_that_are_none(self):
        self.fails("see --help", "recording")
        self.fails("see --help", "recording", "mend", "x")
        self.fails("see --help", "recording", "make", "x")
        self.fails("see --help", "rackfile", "make", "x")
        self.fails("--supply", "hallplot", "a", "b", "c", "d")
        self.fails("--supply wants a number", "hallplot", "--supply", "x", "a", "b", "c", "d")
        self.fails("SUPPLY wants a number", "rackfile", "--check", "x", "a")

    def test_check(self):
        status, said, _ = run("rackfile", "--check", SUPPLY, EXAMPLES / "rack.rec")
        self.assertEqual(status, 0)
        self.assertIn("87,500 mL/min", said)
        said = self.fails("refused 106", "rackfile", "--check", 500_000, EXAMPLES / "rack.rec")
        self.assertIn("-12,500 mL/min", said)

    def test_hints_work_from_where_the_reader_stands(self):
        none = self.folder / "none"
        for tool, words in (("compare", ("1", "1", "--linerun", none)),
                            ("bench", ("--linerun", none))):
            status, _, error = run(tool, *words, folder=TOOLS)
            self.assertEqual(status, 1)
            if "cannot be found" not in error:
                self.assertIn("(cd ../crates/linerun && ", error)
                self.assertTrue((TOP / "crates" / "linerun" / "data" / "rack.rec").is_file())


class SampleHall(unittest.TestCase):
    """What stands in tools/examples is made by the tools, and printed by the reference."""

    def check(self, name, tool, *words):
        with TemporaryDirectory() as folder:
            out = Path(folder) / "out"
            self.assertEqual(run(tool, *words, out), (0, "", ""))
            self.assertEqual(out.read_bytes(), (EXAMPLES / name).read_bytes(), name)

    def test_files(self):
        self.check("rack.rec", "rackfile", "make", EXAMPLES / "rack.txt")
        self.check("hall.rec", "recording", "make", EXAMPLES / "hall.txt")
        self.check("hall.svg", "hallplot", "--supply", SUPPLY,
                   *(EXAMPLES / name for name in ("rack.rec", "hall.rec", "hall.printed")))

    def test_printed(self):
        rack, recording, printed = ((EXAMPLES / name).read_bytes()
                                    for name in ("rack.rec", "hall.rec", "hall.printed"))
        self.assertEqual(supplyrun.output(SUPPLY, rack, recording), printed)


if __name__ == "__main__":
    unittest.main()
