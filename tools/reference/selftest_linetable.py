"""Tests of the line's table, run by selftest.py."""

import records
from expectation import expect
from frames import exclusive_or
from linetable import answer, bytes_of
from linevectors import operations

WRITING = (6, 17, 18, 19, 38, 59, 236)
READING = (0, 1, 11, 12, 13, 16, 235)


def worked(polling="01", preambles="02", flags="00", setpoint="00000000", limits="0000"):
    """The record of the worked examples, but for what is given."""
    return (f"46000001{polling}{preambles}000007{flags}{setpoint}{limits}000003E8"
            + "00" * 60)


def opened(**more):
    """With its key open, a ceiling of 100, and the unit code AB."""
    return worked(**{"flags": "02", "limits": "64AB", **more})


def requests_by_hand():
    """Which requests commands with their data are, worked by hand."""
    for asked, wanted in (
        ("11 3460EDC72CF4", "tag 3460EDC72CF4"),
        ("11 3460EDC72C", "bare 11"),
        ("17 -", "text 17 -"),
        ("236 39", "number 236 39"),
        ("38 00", "bare 38"),
    ):
        line = f"request {asked}"
        expect(line, answer(line), wanted)


def shut_by_hand():
    """Answers of a channel with the key shut, worked by hand."""
    shut, bad = worked(), worked(flags="04")
    for line, wanted in (
        (f"respond {shut} 0 0 FFFF0281100093 - 64",
         f"answered FFFF06811005000000000795 {shut}"),
        (f"respond {shut} 0 0 FFFF0281100092 - 64", f"answered FFFF0681100288001D {shut}"),
        (f"respond {shut} 0 0 FFFF828A4600000100004F - 64",
         f"answered FFFF868A46000001000E0000FE0A46020501010800000001F9 {shut}"),
        (f"respond {shut} 0 0 FFFFFFFFFF8280000000000B060000000000000F - 64",
         f"answered FFFF8680000000000B0E0000FE0A46020501010800000001BF {shut}"),
        (f"respond {shut} 0 0 FFFF0281100093 0707 64",
         f"answered FFFF06811005000000000795 {shut}"),
        (f"respond {shut} 0 0 FFFF0281100093 0000000001 64",
         f"answered FFFF06811002C00055 {shut}"),
        (f"respond {shut} 0 0 FFFF0281100093 000002 64",
         f"answered FFFF06811002A00035 {shut}"),
        (f"respond {shut} 0 0 FFFF0281100092 0000000501 64",
         f"answered FFFF06811002D8004D {shut}"),
        (f"respond {shut} 0 0 FFFF0281020081 - 64", f"answered FFFF068102024000C7 {shut}"),
        (f"respond {shut} 0 0 FFFF0281060085 - 64", f"answered FFFF06810602050086 {shut}"),
        (f"respond {shut} 0 0 FFFF02812600A5 - 64", f"answered FFFF068126020700A4 {shut}"),
        (f"respond {shut} 0 0 FFFF0282100090 - 64", "silent"),
        (f"respond {shut} 0 0 FFFF0291100083 - 64", "silent"),
        (f"respond {shut} 0 0 FF0281100093 - 64", "silent"),
        (f"respond {shut} 0 0 FFFF028110009300 - 64", "silent"),
        (f"respond {shut} 0 0 - - 64", "silent"),
        (f"respond {shut} 0 0 FFFF0281100093 - 63", "refused 102"),
        (f"respond {bad} 0 0 - - 64", "refused 103"),
        (f"respond {bad} 0 0 - - 63", "refused 102"),
    ):
        expect(line, answer(line), wanted)


def opened_by_hand():
    """Answers of a channel with the key open, worked by hand."""
    held, changed = opened(), opened(flags="03")
    header = "1500 102400000"
    for line, wanted in (
        (f"respond {held} {header} FFFF0281EC05394248000059 - 64",
         f"answered FFFF0681EC0C00003942480000AB43FA000046 {opened(setpoint='42480000')}"),
        (f"respond {held} {header} FFFF0281EC05394248000158 - 64",
         f"answered FFFF0681EC02100079 {held}"),
        # In 64 bits this sum would be 0.
        (f"respond {held} 1500 18446744073658351616 FFFF0281EC05394248000059 - 64",
         f"answered FFFF0681EC02100079 {held}"),
        (f"respond {held} {header} FFFF0281EC053980000000D3 - 64",
         f"answered FFFF0681EC0C00003900000000AB00000000F5 {held}"),
        (f"respond {held} {header} FFFF0281EC05FA424800009A - 64",
         f"answered FFFF0681EC0202006B {held}"),
        (f"respond {held} {header} FFFF0281EC053980000001D2 - 64",
         f"answered FFFF0681EC0204006D {held}"),
        (f"respond {held} {header} FFFF0281EC053942C80001D8 - 64",
         f"answered FFFF0681EC0203006A {held}"),
        (f"respond {held} {header} FFFF02813B0105BC - 64",
         f"answered FFFFFFFFFF06813B03004005FA {opened(flags='03', preambles='05')}"),
        (f"respond {held} {header} FFFF028106010286 - 64",
         f"answered FFFF06810603004002C0 {opened(flags='03', polling='02')}"),
        (f"respond {held} {header} FFFF028106010185 - 64",
         f"answered FFFF06810603004001C3 {changed}"),
        (f"respond {changed} {header} FFFF02812600A5 - 64",
         f"answered FFFF068126020000A3 {held}"),
    ):
        expect(line, answer(line), wanted)


def command_and_status(reply):
    """Of an answer: command, first status, second status."""
    frame = reply.lstrip(b"\xff")
    at = 2 if frame[0] == 0x06 else 6
    return frame[at], frame[at + 2], frame[at + 3]


def table_covers():
    """No row twice, and every code of every command."""
    lines = operations()
    expect("rows that differ", len(set(lines)), len(lines))
    expect("400 to 900 rows", 400 <= len(lines) <= 900, True)
    seen, first, size = set(), set(), 0
    for line in lines:
        found = answer(line)
        size += len(line) + len(found) + 2
        expect("single spaces", line.split(" "), line.split())
        operation, *words = line.split(" ")
        if operation == "request":
            seen.add(found.split(" ")[0])
            continue
        received, marks = bytes_of(words[3]), bytes_of(words[4])
        expect("no more marks than characters", len(marks) <= len(received), True)
        expect("marks of 0 to 7", all(some < 8 for some in marks), True)
        if not found.startswith("answered"):
            seen.add(found)
            continue
        _, reply, after = found.split(" ")
        expect("sound", exclusive_or(bytes_of(reply).lstrip(b"\xff")), 0)
        expect("lawful", records.fault(bytes_of(after)), None)
        command, status, second = command_and_status(bytes_of(reply))
        if status < 128:
            seen.add(f"{command}: {status}, {second}")
        first.add(status)
    wanted = {"tag", "text", "number", "bare", "silent", "refused 102", "refused 103"}
    wanted |= {f"{command}: 0, {second}" for command in READING for second in (0, 64)}
    wanted |= {f"{command}: {code}, {second}" for command in WRITING for code in (5, 7)
               for second in (0, 64)}
    wanted |= {f"{command}: 0, 64" for command in WRITING if command != 38}
    wanted |= {"38: 0, 0", "236: 0, 0", "6: 2, 0", "6: 2, 64", "59: 3, 0", "59: 3, 64",
               "59: 4, 0", "59: 4, 64", "236: 2, 0", "236: 3, 0", "236: 4, 0",
               "236: 16, 0", "236: 16, 64"}
    expect("answers that no row has", sorted(wanted - seen), [])
    # Every set of marks with a right check and with a wrong one.
    expect("communication errors", {status for status in first if status >= 128},
           {128 + 8 * some for some in range(1, 16)})
    expect("under 350 KB", size < 350_000, True)


def run():
    requests_by_hand()
    shut_by_hand()
    opened_by_hand()
    table_covers()
