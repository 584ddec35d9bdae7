"""How long a program takes for a long recording."""

import subprocess
import time

from chance import Chance
from making import Making
from some_racks import some_record
from some_turns import some_turn

RUNS = 5


def long_recording(seed, least):
    """A generated recording of linerun, 15 channels, of so many events or a few more."""
    chance = Chance(seed)
    rack = []
    while len(rack) < 15:
        one = some_record(chance)
        if one[:4] not in [other[:4] for other in rack]:
            rack.append(one)
    making = Making("linerun", None, b"".join(rack))
    while len(making.events) < least:
        some_turn(chance, making)
    return making.done()


def seconds(path, folder, recording):
    """The shortest of some runs, from file to file, and what was printed."""
    (folder / "rack.rec").write_bytes(recording.file)
    (folder / "stdin").write_bytes(recording.events)
    found = []
    for _ in range(RUNS):
        with open(folder / "stdin", "rb") as given, open(folder / "stdout", "wb") as printed:
            begun = time.perf_counter()
            subprocess.run([path], cwd=folder, stdin=given, stdout=printed, check=True)
            found.append(time.perf_counter() - begun)
    return min(found), (folder / "stdout").read_bytes()
