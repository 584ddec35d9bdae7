"""Write the recordings of linerun and of supplyrun, or check them.

    python3 tools/reference/recordings.py            writes all files anew
    python3 tools/reference/recordings.py --check    only compares
"""

import sys

sys.dont_write_bytecode = True  # leaves no cache folder in the repository

from pathlib import Path

import linerun
import recording_example
import recording_exchange
import recording_mixed
import supplyrun
from helping import is_helped

FOLDER = Path(__file__).resolve().parent / "recordings"
RECORDINGS = {"example": recording_example, "mixed": recording_mixed,
              "exchange": recording_exchange}


def files(recording):
    """The bytes of each file, by name."""
    rack, events = recording.rack(), recording.events()
    supply = getattr(recording, "SUPPLY", None)
    if supply is None:
        return {"rack.rec": rack, "stdin": events, "stdout": linerun.output(rack, events)}
    return {"args": f"{supply}\n".encode("ascii"), "rack.rec": rack, "stdin": events,
            "stdout": supplyrun.output(supply, rack, events)}


def every_file():
    """Each file's path, with its bytes."""
    return {FOLDER / name / file: wanted for name, recording in RECORDINGS.items()
            for file, wanted in files(recording).items()}


def main(words):
    if is_helped(words):
        return 0
    if words not in ([], ["--check"]):
        print("usage: recordings.py [--check]")
        return 2
    for path, wanted in every_file().items():
        if words == []:
            path.parent.mkdir(parents=True, exist_ok=True)
            path.write_bytes(wanted)
        elif not path.exists() or path.read_bytes() != wanted:
            print(f"{path}: not as the reference makes it")
            return 1
    print(f"{len(every_file())} files {'compared' if words else 'written'}")
    return 0


if __name__ == "__main__":
    sys.exit(main(sys.argv[1:]))
