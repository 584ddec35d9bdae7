"""Racks of records: the files they are read from, and a ceiling over them."""

from records import CEILING, LENGTH, fault
from refusal import bad_record, number_of_records

MOST_IN_A_SHELF = 15


def shelf(file):
    """The records of a shelf's file, from 1 to 15."""
    return records_of(file, MOST_IN_A_SHELF)


def single(file):
    return records_of(file, 1)


def records_of(file, most):
    count, rest = divmod(len(file), LENGTH)
    # The length is tried before any record.
    if rest != 0 or count < 1 or count > most:
        raise number_of_records()
    some = [bytes(file[at * LENGTH:(at + 1) * LENGTH]) for at in range(count)]
    for number, record in enumerate(some):
        if fault(record) is not None:
            raise bad_record(number, fault(record))
    return some


class Capped:
    """A rack under another ceiling; the smaller of each two counts."""

    def __init__(self, kept, ceiling):
        self.kept = kept
        self.ceiling = ceiling

    def told(self, number):
        record = self.kept[number]
        return CEILING.put(record, min(CEILING.of(record), self.ceiling))

    def write(self, number, kind, *values):
        after = kind(self.told(number), *values)
        # The record below keeps its own ceiling.
        own = CEILING.of(self.kept[number])
        self.kept[number] = CEILING.put(after, own)
