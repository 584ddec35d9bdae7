"""What a test expects; the first thing found to be otherwise ends the run."""

import sys

from refusal import Refused

checks = 0


def expect(what, found, wanted):
    global checks
    checks += 1
    if found != wanted:
        print(f"failed: {what}\n  found  {found!r}\n  wanted {wanted!r}")
        sys.exit(1)


def code_of(call, *arguments):
    """The code the call is refused with; None where it is not refused."""
    try:
        call(*arguments)
    except Refused as refused:
        return refused.code
    return None
