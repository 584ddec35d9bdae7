#!/usr/bin/env python3
"""Recordings by chance, one for each seed.

    tools/reference/generator.py SEED FOLDER [PROGRAM]

writes the recording of a seed into a folder: its record file `rack.rec`, its
events `stdin`, what is printed of them `stdout`, and `args` with the supply
where the program is supplyrun. With PROGRAM it is one of that program alone.
"""

import sys

sys.dont_write_bytecode = True  # leaves no cache folder in the repository

from pathlib import Path

import some_racks
import some_supplies
from chance import Chance
from helping import is_helped
from making import Making
from recording import expected
from some_turns import some_end, some_turn

# supplyrun has all that linerun has, and more.
PROGRAMS = ("linerun", "supplyrun", "supplyrun")


def made(seed, programs=PROGRAMS):
    """The recording of a seed, and of which kinds its parts are."""
    chance = Chance(seed)
    making = begun(chance, chance.one_of(programs))
    # Where it ends at once, few events are enough to show that none is worked.
    most = 2 if making.is_refused else chance.one_of((3, 8, 24))
    for _ in range(1 + chance.below(most)):
        some_turn(chance, making)
    some_end(chance, making)
    return making.done(), making.kinds


def recording(seed, programs=PROGRAMS):
    return made(seed, programs)[0]


def begun(chance, program):
    """A program, its supply and its record file; some are refused."""
    kinds = {f"program {program}"}
    rack = some_racks.some_rack(chance, kinds.add)
    kind, supply = some_supplies.some_supply(chance, rack)
    file = b"".join(rack)
    turn = chance.below(20)
    if turn < 3:
        file = some_racks.refused_file(chance, kinds.add)
    if turn == 3:
        file = b"".join(some_racks.same_identity(rack, chance))
    if turn in (4, 5) and program == "supplyrun":
        kind, supply = some_supplies.refused_supply(chance, rack)
    if program == "supplyrun":
        kinds.add(kind)
    making = Making(program, supply, file)
    making.kinds |= kinds
    return making


def main(words):
    if is_helped(words):
        return 0
    seed, folder, *programs = words if len(words) in (2, 3) else ("", "")
    if not seed.isdigit() or not set(programs) <= set(PROGRAMS):
        print("usage: generator.py SEED FOLDER [PROGRAM]", file=sys.stderr)
        return 2
    one = recording(int(seed), programs or PROGRAMS)
    folder = Path(folder)
    folder.mkdir(parents=True, exist_ok=True)
    (folder / "rack.rec").write_bytes(one.file)
    (folder / "stdin").write_bytes(one.events)
    (folder / "stdout").write_bytes(expected(one))
    if one.supply is not None:
        (folder / "args").write_text(f"{one.supply}\n", encoding="ascii")
    print(f"{one.program}: {len(one.file) // 80} records, {len(one.events) // 12} events")
    return 0


if __name__ == "__main__":
    sys.exit(main(sys.argv[1:]))
