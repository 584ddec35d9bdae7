"""Tests of the table of recordings, run by selftest.py."""

import runvectors
import figure_recordings
import tables
from chosen import KINDS, chosen
from expectation import expect
from generator import made
from recording import Recording, expected
from runtable import answer, recording_of, run_line
from some_channels import WORKED

MOST_BYTES = 300_000
LONGEST_LINE = 20_000


def by_hand():
    line = "linerun - -"
    expect(line, answer(line), "refused 104/")
    line = "supplyrun 15000001 - 0200"
    expect(line, answer(line), "refused 104/")
    for one in (Recording("linerun", None, b"\x01", b""),
                Recording("supplyrun", 7, b"", b"\xab"), *figure_recordings.recordings()):
        expect("read back", recording_of(run_line(one)), one)
        expect("lines", answer(run_line(one)).replace("/", "\n").encode("ascii"), expected(one))
    expect("nothing printed", answer(run_line(Recording("linerun", None, WORKED, b""))), "-")


def covers():
    """What is chosen shows every kind that it is to show."""
    seeds = chosen()
    expect("each once", len(set(seeds)), len(seeds))
    expect("kinds", KINDS - set().union(*(made(seed)[1] for seed in seeds)), set())


def stored():
    lines = runvectors.operations()
    expect("size", len(tables.as_bytes(lines)) <= MOST_BYTES, True)
    expect("lines", max(len(line) for line in lines) <= LONGEST_LINE, True)
    expect("table", tables.check(runvectors.TABLE), None)


def run():
    by_hand()
    covers()
    stored()
