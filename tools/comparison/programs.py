"""The built programs: where they are, and a run of one."""

import os
import shlex
import subprocess
from pathlib import Path

CRATES = Path(__file__).resolve().parents[2] / "crates"
SECONDS = 60

# What the kit's `run` leaves in a crate.
BUILT = {name: CRATES / name / "out" / name for name in ("linerun", "supplyrun")}


def missing(path, name):
    """That there is no program, and the command that builds it from where the reader stands."""
    folder = os.path.relpath(CRATES / name)
    return f"no program at {path}; build it with\n    {build_command(folder, name)}"


def build_command(folder, name):
    """It proves the program first, with all that it stands on."""
    supply = " -- 1500" if name == "supplyrun" else ""
    return (f"(cd {shlex.quote(folder)} && trap 'rm -f rack.rec' EXIT && cp data/rack.rec . &&"
            f" rt run{supply} < stdin)")


class Failed(Exception):
    """A run that did not end as it should."""


def folder_of(folder, file):
    """A folder of this process alone, with a record file in it."""
    own = Path(folder) / str(os.getpid())
    own.mkdir(exist_ok=True)
    (own / "rack.rec").write_bytes(file)
    return own


def run(path, folder, words, file, given):
    """A whole run on a record file and an input."""
    return subprocess.run([path, *words], cwd=folder_of(folder, file), input=given,
                          capture_output=True, timeout=SECONDS)


def words_of(recording):
    return [] if recording.supply is None else [str(recording.supply)]


def printed(path, folder, recording):
    """What a recording prints, where the run ends with status 0 and no message."""
    try:
        done = run(path, folder, words_of(recording), recording.file, recording.events)
    except subprocess.TimeoutExpired:
        raise Failed(f"{path} did not end in {SECONDS} seconds") from None
    if done.returncode != 0 or done.stderr != b"":
        raise Failed(f"{path}: status {done.returncode}, {done.stderr!r}")
    return done.stdout
