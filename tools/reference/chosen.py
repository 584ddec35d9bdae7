"""Few generated recordings that show what many of them do.

Refused files and events out of form are left out: there are recordings by hand that
have each of them.
"""

from functools import cache

from generated_kinds import every_kind, files, forms
from generator import made
from recording import expected
from runtable import run_line
from shown_results import results

SEEDS = 2000
RICHEST = 2
LONGEST = 15_000  # characters of a line
KINDS = every_kind() - {*files(), *forms()}


@cache
def chosen():
    """Seeds: a few that show most, and the shortest that show what these do not."""
    candidates = [one for one in map(candidate, range(SEEDS)) if one[2] <= LONGEST]
    richest = sorted(candidates, key=lambda one: (-len(one[1]), one[0]))[:RICHEST]
    found = [seed for seed, _, _ in richest]
    missing = set().union(*(shows for _, shows, _ in candidates))
    missing = missing.difference(*(shows for _, shows, _ in richest))
    while missing:
        seed, shows, _ = max(candidates, key=lambda one: worth(one, missing))
        missing -= shows
        found.append(seed)
    return found


def candidate(seed):
    """A seed, all that its recording shows, and the length of its line."""
    one, kinds = made(seed)
    shown = {f"{one.program}: {result}" for result in results(expected(one))}
    return seed, (kinds & KINDS) | shown, len(run_line(one))


def worth(one, missing):
    """How much of what is missing each byte of its line would show."""
    seed, shows, length = one
    return len(shows & missing) / length, -seed
