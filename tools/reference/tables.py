"""A table of operations and expected answers: write its files or check them."""

from collections import namedtuple
from pathlib import Path

from helping import is_helped

CRATES = Path(__file__).resolve().parents[2] / "crates"

# The folder's name, a call for the lines, one for the answer, and where the folder
# is, in crates unless another place is given.
Table = namedtuple("Table", "name operations answer place", defaults=[CRATES])


def distinct(lines):
    """Each line once: the edges of one list may stand in another too."""
    return list(dict.fromkeys(lines))


def files(table):
    """The bytes of each file, by name."""
    lines = table.operations()
    return {
        "stdin": as_bytes(lines),
        "stdout": as_bytes([table.answer(line) for line in lines]),
    }


def as_bytes(lines):
    return "".join(line + "\n" for line in lines).encode("ascii")


def first_difference(name, found, wanted):
    """The first line that differs, in words; None where none does."""
    if found == wanted:
        return None
    found_lines = found.split(b"\n")
    wanted_lines = wanted.split(b"\n")
    at = 0
    while found_lines[at:at + 1] == wanted_lines[at:at + 1]:
        at += 1
    return (f"{name} line {at + 1}:\n"
            f"  found  {shown(found_lines, at)}\n"
            f"  wanted {shown(wanted_lines, at)}")


def shown(lines, at):
    if at >= len(lines):
        return "nothing"
    # The text behind the last line feed is not a line of its own.
    if at == len(lines) - 1 and lines[at] == b"":
        return "the end"
    return lines[at].decode("ascii", "backslashreplace")


def check(table):
    folder = table.place / table.name
    for name, wanted in files(table).items():
        path = folder / name
        if not path.exists():
            return f"{name}: no such file in {folder}"
        difference = first_difference(name, path.read_bytes(), wanted)
        if difference:
            return difference
    return None


def write(table):
    folder = table.place / table.name
    folder.mkdir(parents=True, exist_ok=True)
    for name, wanted in files(table).items():
        (folder / name).write_bytes(wanted)


def main(table, words):
    if is_helped(words):
        return 0
    if words == ["--check"]:
        difference = check(table)
        if difference:
            print(difference)
            return 1
        print(f"{len(table.operations())} rows, no difference")
        return 0
    if words:
        print(f"usage: {table.name}.py [--check]")
        return 2
    write(table)
    print(f"{len(table.operations())} rows written")
    return 0
