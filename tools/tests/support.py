"""What the tests of the tools share."""

import subprocess
import sys
from pathlib import Path

sys.dont_write_bytecode = True  # leaves no cache folder in the repository

TOOLS = Path(__file__).resolve().parents[1]
TOP = TOOLS.parent
EXAMPLES = TOOLS / "examples"
RECORDINGS = TOOLS / "reference" / "recordings"
sys.path.insert(0, str(TOOLS))

import hall  # it puts the reference in reach

from hall.making import recording_of
from hall.showing import lines_of

WORKED = bytes.fromhex("460000010102000007") + bytes(7) + bytes.fromhex("000003E8") + bytes(60)
ASK = "send read-assembly-number to 1\ngap\n"
ASKED = ["0 FFFF06811005000000000795"]


def made(text):
    return recording_of(text.encode("utf-8"))


def shown(recording, as_bytes=False):
    return "".join(f"{line}\n" for line in lines_of(recording, as_bytes))


def run(tool, *words, given=b"", folder=TOP):
    """A tool as a reader runs it: its exit status, its output, its message."""
    done = subprocess.run([TOOLS / tool, *map(str, words)], input=given, capture_output=True,
                          cwd=folder)
    return done.returncode, done.stdout.decode("latin-1"), done.stderr.decode("latin-1")
