"""What supplyrun makes of the word that is to be its supply."""

from programs import run
from some_channels import WORKED
from some_events import gap
from supplyrun import output, supply_of

WORDS = ("0", "1", "00", "007", "15000000", "15000001", "4294967295", "0" * 300 + "42",
         "4294967296", "42949672950", "18446744073709551616", "18446744073709551617",
         "9" * 300, "", " ", " 1", "1 ", "+1", "-1", "-0", "+0", "--1", "1_000", "1,000", "1.0",
         "1e3", "0x10", "A", "1A", "a1", "\t1", "1\n", "\u0661", "\u00b2", "\uff11")


def word_difference(path, folder):
    """The first word of which it makes something else, in words; None for none."""
    for word in WORDS:
        done = run(path, folder, [word], WORKED, gap())
        supply = supply_of(word)
        wanted = b"" if supply is None else output(supply, WORKED, gap())
        # Of the message it is only known that there is one.
        found = done.returncode, done.stdout, done.stderr != b""
        if found != (int(supply is None), wanted, supply is None):
            return (f"supplyrun {word!r}: status {done.returncode},"
                    f" {done.stdout!r}, {done.stderr!r}")
    return None
