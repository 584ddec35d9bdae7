"""Instructions that a program runs, as callgrind counts them."""

import re
import subprocess

COLLECTED = re.compile(rb"Collected : (\d+)")


class Failed(Exception):
    """A run that was not counted."""


def instructions(path, folder, file, given):
    """Of one whole run on a record file and events."""
    (folder / "rack.rec").write_bytes(file)
    done = subprocess.run(
        ["valgrind", "--tool=callgrind", "--callgrind-out-file=/dev/null", path],
        cwd=folder, input=given, capture_output=True, check=False)
    found = COLLECTED.search(done.stderr)
    if done.returncode != 0 or found is None:
        raise Failed(f"{path}: status {done.returncode}, {done.stderr!r}")
    return int(found[1])
