"""Tests of the generator of recordings, run by selftest.py."""

import events
from expectation import expect
from generated_kinds import every_kind
from generator import PROGRAMS, made, recording
from recording import expected
from shown_results import results

SEEDS = 900

CODES = {f"code {code}" for code in (0, 2, 3, 4, 5, 7, 16, 64)}
REFUSALS = {"linerun": (101, 103, 104, 105, 108, 109, 110),
            "supplyrun": (101, 102, 103, 104, 105, 106, 107, 108, 109, 110)}


def run():
    kinds, shown, lengths = set(), {name: set() for name in PROGRAMS}, set()
    for seed in range(SEEDS):
        one, its_kinds = made(seed)
        expect("the same again", recording(seed), one)
        kinds |= its_kinds
        shown[one.program] |= results(expected(one))
        lengths.add(len(one.events) % events.LENGTH)
    expect("kinds that are missing", sorted(every_kind() - kinds), [])
    expect("kinds that nobody knows", sorted(kinds - every_kind()), [])
    expect("lengths of last events", lengths, set(range(events.LENGTH)))
    for program, found in shown.items():
        of_results(program, found)


def of_results(program, found):
    """Every result that can come about does."""
    refused = {f"refused {code}" for code in REFUSALS[program]}
    codes = CODES - {"code 16"} if program == "linerun" else CODES
    own = {"silent"} | ({"set up", "record"} if program == "supplyrun" else set())
    # Marks come in every sum, but a rare sum need not be there.
    errors = {result for result in found if result.startswith("communication")}
    expect(f"results of {program}", found - errors, refused | codes | own)
    bits = [int(error.split(" ")[-1]) for error in errors]
    for bit in (64, 32, 16, 8):
        expect(f"bit {bit}", any(one & bit for one in bits), True)
        expect(f"bit {bit} alone", 128 + bit in bits, True)
    expect("no other bit", any(one & 0b0111 for one in bits), False)
