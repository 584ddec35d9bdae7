"""Tests of the tables of setpoints, records and racks, run by selftest.py."""

import rackvectors
import records
import recordvectors
import setpointvectors
from expectation import expect
from racktable import answer, bytes_of
from some_records import PLAIN

# The operations that each table has, since its program knows no other.
TABLES = (
    (setpointvectors, {"load", "admitted", "lawful", "units", "share"}),
    (recordvectors, {"record", "text", "shelf", "single"}),
    (rackvectors, {"write"}),
)

PLAIN_WORD = ("5A12345603" "05789ABC00" "41C80000" "5011" "000003E8" "43790000"
              "41B40000" + PLAIN[28:73].hex().upper() + "00000000000000")


def answers_are(rows):
    for line, wanted in rows:
        expect(line, answer(line), wanted)


def setpoints_by_hand():
    """Answers on setpoints, worked by hand."""
    answers_are((
        ("load 41C80000", "load 25600"),
        ("load 3DCCCCCD", "load 103"),
        ("load 00000000", "load 0"),
        ("load 80000000", "load 0"),
        ("load 00000001", "load 1"),
        ("load 3A800000", "load 1"),
        ("load 3A800001", "load 2"),
        ("load 42C80000", "load 102400"),
        ("load 4A7FFFFF", "load 4294967040"),
        ("load 4A800000", "overload"),
        ("load 7F7FFFFF", "overload"),
        ("load 7F800000", "infinite"),
        ("load FF800000", "below zero"),
        ("load 80000001", "below zero"),
        ("load FFC00000", "nan"),
        ("admitted 42C80000 100", "load 102400"),
        ("admitted 42C80001 100", "refused 3"),
        ("admitted 42C80001 101", "load 102401"),
        ("admitted 80000000 0", "load 0"),
        ("admitted 00000001 0", "refused 3"),
        ("admitted 7F800000 255", "refused 3"),
        ("admitted FF800000 255", "refused 4"),
        ("admitted 7F800001 255", "refused 2"),
        ("lawful 42C80000", "yes"),
        ("lawful 42C80001", "no"),
        ("lawful 80000000", "no"),
        ("units 41C80000 1000", "437A0000"),
        ("units 42C80000 1000000", "49742400"),
        ("units 00000032 1", "00000000"),
        ("units 00000033 1", "00000001"),
        ("units 00000096 1", "00000002"),
        ("units 42C80000 0", "none"),
        ("units 42C80000 1000001", "none"),
        ("share 4294967295 4294967295", "18446744065119617025"),
    ))


def records_by_hand():
    """Answers on records, files and texts, worked by hand."""
    told = PLAIN_WORD
    expect("the plain record", PLAIN.hex().upper(), told)
    answers_are((
        (f"record {told}", "lawful"),
        (f"record {told[:8]}10{told[10:]}", "refused 103 4"),
        (f"record {told[:-2]}01", "refused 103 73"),
        ("shelf -", "refused 104"),
        (f"shelf {told}{told}", "2 records"),
        (f"shelf {told}{told[:10]}01{told[12:]}", "refused 103 1 5"),
        (f"single {told}", "1 records"),
        (f"single {told}{told}", "refused 104"),
        (f"single {told[:18]}04{told[20:]}", "refused 103 0 9"),
        (f"text {told} 0", "41"),
        (f"text {told} 44", f"{(0x41 + 37 * 44) % 256:02X}"),
        (f"text {told} 45", "refused 110"),
    ))


def writes_by_hand():
    """Answers to writes, worked by hand."""
    told = PLAIN_WORD
    at_20 = told[:28] + "14" + told[30:]
    answers_are((
        (f"write {told} 255 polling 15", f"taken {told[:8]}0F{told[10:]}"),
        (f"write {told} 255 polling 16", f"refused 2 {told}"),
        (f"write {told} 20 polling 16", f"refused 2 {at_20}"),
        (f"write {told} 255 preambles 1", f"refused 4 {told}"),
        (f"write {told} 255 preambles 16", f"refused 3 {told}"),
        (f"write {told} 255 assembly 16777215", f"taken {told[:12]}FFFFFF{told[18:]}"),
        (f"write {told} 255 assembly 16777216", f"refused 3 {told}"),
        (f"write {told} 255 key 1", f"taken {told[:18]}02{told[20:]}"),
        (f"write {told} 255 sample 80000000 00000001",
         f"taken {told[:40]}8000000000000001{told[56:]}"),
        (f"write {told} 255 sample 00000000 7F800000", f"refused 108 {told}"),
        (f"write {told} 255 text 44 EE", f"taken {told[:144]}EE{told[146:]}"),
        (f"write {told} 255 text 45 -", f"taken {told}"),
        (f"write {told} 255 text 46 -", f"refused 110 {told}"),
        (f"write {told} 255 text 18446744073709551615 EE", f"refused 110 {told}"),
        (f"write {told} 255 setpoint 80000000",
         f"taken {told[:20]}00000000{told[28:]}"),
        (f"write {told} 20 setpoint 41A00000",
         f"taken {at_20[:20]}41A00000{at_20[28:]}"),
        (f"write {told} 20 setpoint 41A00001", f"refused 3 {at_20}"),
    ))


def each_has_its_own():
    for table, operations in TABLES:
        lines = table.operations()
        expect("rows that differ", len(set(lines)), len(lines))
        expect("operations", {line.split(" ")[0] for line in lines}, operations)


def answers_seen():
    """Every operation of the tables with its answer, and how long they are."""
    lines = [line for table, _ in TABLES for line in table.operations()]
    seen = set()
    size = 0
    for line in lines:
        found = answer(line)
        size += len(line) + len(found) + 2
        expect("single spaces", line.split(" "), line.split())
        operation, first, *words = line.split(" ")
        if operation in ("text", "write"):
            expect("lawful record", records.fault(bytes_of(first)), None)
        if operation == "write":
            operation = words[1]
            # The bytes told stand last.
            found = found.rsplit(" ", 1)[0]
        if operation == "text" and not words[1:]:
            operation = "text byte"
        seen.add(f"{operation}: {found}")
    return seen, size


def tables_cover():
    """Every answer to every operation."""
    seen, size = answers_seen()
    for operation, answers in (
        ("load", ("nan", "below zero", "infinite", "overload", "load 0", "load 25600")),
        ("admitted", ("refused 2", "refused 3", "refused 4", "load 0", "load 102400")),
        ("lawful", ("yes", "no")),
        ("units", ("none", "00000000", "00000001")),
        ("record", ["lawful"] + [f"refused 103 {offset}" for offset in
                                 (4, 5, 9, 10, 14, 16, 20, 24, 73)]),
        ("shelf", ("1 records", "15 records", "refused 104", "refused 103 0 14",
                   "refused 103 7 14", "refused 103 14 14")),
        ("single", ("1 records", "refused 104", "refused 103 0 14")),
        ("text byte", ("41", "refused 110")),
        ("polling", ("taken", "refused 2")),
        ("preambles", ("taken", "refused 3", "refused 4")),
        ("assembly", ("taken", "refused 3")),
        ("changed", ("taken",)),
        ("key", ("taken",)),
        ("sample", ("taken", "refused 108")),
        ("text", ("taken", "refused 110")),
        ("setpoint", ("taken", "refused 2", "refused 3", "refused 4")),
    ):
        for wanted in answers:
            expect(f"{operation}: {wanted}", f"{operation}: {wanted}" in seen, True)
    expect("under 900 KB", size < 900_000, True)


def run():
    setpoints_by_hand()
    records_by_hand()
    writes_by_hand()
    each_has_its_own()
    tables_cover()
