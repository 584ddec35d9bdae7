"""A run whose input comes in pieces: each line has to come before the next piece."""

import os
import select
import subprocess

from differences import lines_of
from events import LENGTH
from programs import SECONDS, Failed, folder_of, words_of

LENGTHS = (1, 5, 11, 12, 13, 24, 100, 1000)


def pieces_of(chance, given):
    """The input cut by chance, mostly within events."""
    some, at = [], 0
    most = chance.one_of(LENGTHS)
    while at < len(given):
        end = at + 1 + chance.below(most)
        some.append(given[at:end])
        at = end
    return some


def due(recording):
    """How many bytes are to be printed once so many of the input are there.

    What is left over of an event counts only when the input has ended.
    """
    total, found = 0, {}
    for number, line in lines_of(recording):
        total += len(line)
        found[0 if number is None else (number + 1) * LENGTH] = total
    return found


def printed_in_pieces(path, folder, recording, chance):
    """What it prints; a line that is due and does not come is told."""
    marks = sorted(due(recording).items())
    done = subprocess.Popen([path, *words_of(recording)], stdin=subprocess.PIPE,
                            stdout=subprocess.PIPE, stderr=subprocess.PIPE,
                            cwd=folder_of(folder, recording.file), bufsize=0)
    given, found = 0, b""
    try:
        for piece in pieces_of(chance, recording.events):
            # A program that ends at once need not read.
            if marks[:1] == [] or marks[0][0] != 0:
                done.stdin.write(piece)
            given += len(piece)
            wanted = max((total for end, total in marks if end <= given), default=0)
            found += read(done, wanted - len(found), given, path)
        rest, message = done.communicate(timeout=SECONDS)
    except subprocess.TimeoutExpired:
        raise Failed(f"{path} did not end in {SECONDS} seconds") from None
    except BrokenPipeError:
        raise Failed(f"{path} does not read on after {given} bytes") from None
    finally:
        done.kill()
        done.wait()
    if done.returncode != 0 or message != b"":
        raise Failed(f"{path}: status {done.returncode}, {message!r}")
    return found + rest


def read(done, length, given, path):
    """So many bytes of what is printed, as far as the program goes on printing."""
    found = b""
    while len(found) < length:
        ready, _, _ = select.select([done.stdout], [], [], SECONDS)
        if not ready:
            raise Failed(f"{path}: a line is due after {given} bytes and does not come")
        some = os.read(done.stdout.fileno(), length - len(found))
        if some == b"":
            break
        found += some
    return found
