"""All kinds that the parts of generated recordings are of, in the generator's words."""

from kinds import TAG_QUESTION
from records import RULES
from rows_command import READING, TAKEN
from some_forms import UNUSED, UNUSED_ALSO
from some_turns import ROOMS

PARTS = ("preamble", "start", *(f"address byte {at}" for at in range(1, 6)), "command",
         "count", "data", "check")


def every_kind():
    return {*beginnings(), *files(), *requests(), *setpoints(), *spoilt(), *operations(),
            *forms(), *of_supplyrun()}


def beginnings():
    """Programs, racks, supplies."""
    yield from ("program linerun", "program supplyrun")
    yield from (f"{count} records" for count in range(1, 16))
    yield from ("equal polling addresses", "equal tags", "setpoint above its ceiling")
    yield from (f"begins refused {code}" for code in (103, 104, 105, 106, 107))
    yield from supplies()


def files():
    """Files that are refused."""
    yield from ("file of no bytes", "file a byte short", "file a byte longer",
                "file of 16 records", "several records offend")
    yield from (f"field {field.offset} in the {where} record"
                for field, _ in RULES for where in ("first", "last"))


def supplies():
    return ("least supply", "supply a little more", "supply some more", "largest supply",
            "any supply", "supply just too large", "supply of 32 bits",
            "one below the least supply", "supply 0 of none")


def requests():
    yield from (f"command {command}" for command in (*READING, *TAKEN, TAG_QUESTION))
    yield "command not tabled"
    yield from (f"{kind} address, {master} master" for kind in ("short", "long", "every")
                for master in ("primary", "secondary"))
    yield from ("short address with a bit of 6 to 4", "another short address",
                "long address with bit 6", "another manufacturer", "another long address",
                "that of every channel but a bit")
    yield from ("tag of one", "tag of several", "tag of nobody",
                "tag question of another count")
    yield from ("data that is disregarded", "a data byte too few", "a data byte too many",
                "no data", "255 data bytes")


def setpoints():
    yield from (f"setpoint {kind}" for kind in (
        "held already", "zero", "at the ceiling", "just above it", "just below it",
        "subnormal", "80000000", "below zero", "infinite", "minus infinite",
        "not a number", "42C80001", "7F7FFFFF", "that just fits", "that just does not fit",
        "in another unit"))
    yield from ("any lawful setpoint", "any pattern")


def spoilt():
    """Damaged, marked, too short and too long."""
    yield from (f"{how} {part}" for how in ("damaged", "marked") for part in PARTS)
    yield from ("preamble taken as 02", "preamble taken as 82", "start 02 taken as 82",
                "start 82 taken as 02", "start taken as FF before 02",
                "start taken as FF before 82")
    yield from (f"{moved}, and whole" for moved in (
        "preamble taken as 02", "preamble taken as 82", "start 02 taken as 82",
        "start 82 taken as 02", "start taken as FF before 02",
        "start taken as FF before 82"))
    yield from ("byte too many behind", "byte too many in front", "byte too many within",
                "byte missing", "end missing", "check missing", "one preamble",
                "no preamble", "two in a row", "forty preambles", "frame of 264 bytes",
                "more than 264 bytes", "empty gap", "gap within", "noise", "marks above 7")


def operations():
    yield from ("key opened", "key shut", "finite sample")
    yield from (f"{value} {kind}" for value in ("flow", "temperature")
                for kind in ("infinite", "not a number"))
    yield from (f"{call} of {channel}" for call in ("sample", "key", "look")
                for channel in ("the number of channels", "channel 14", "channel 15",
                                "channel 255"))


def forms():
    """Events out of form, and last ones that are cut off."""
    yield from (f"kind {kind} with byte {place}"
                for kind, places in {**UNUSED, **UNUSED_ALSO}.items() for place in places)
    yield from (f"kind {kind}" for kind in (0, 8, 255))
    yield from (f"kind {kind} of linerun" for kind in (0, 5, 6, 7, 8, 255))
    yield from ("neither open nor shut", "event out of form within")
    yield from (f"last event of {length} bytes" for length in range(1, 12))


def of_supplyrun():
    yield from (f"gap with {room} bytes" for room in ROOMS)
    yield from ("gap with others", "look")
    yield from (f"set-up again, {supply}, {where}" for supply in supplies()
                for where in ("between", "within"))
