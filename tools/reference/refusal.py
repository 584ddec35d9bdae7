"""The ways a call is refused."""


class Refused(Exception):
    def __init__(self, code, words, where=()):
        super().__init__(f"refused {code} {words}")
        self.code = code
        self.where = where


def invalid_selection():
    return Refused(2, "invalid selection")


def too_large():
    return Refused(3, "too large")


def too_small():
    return Refused(4, "too small")


def no_channel():
    return Refused(101, "no channel")


def short_buffer():
    return Refused(102, "short buffer")


def bad_record(*where):
    return Refused(103, "bad record", where)


def number_of_records():
    return Refused(104, "number of records")


def same_identity():
    return Refused(105, "same identity")


def over_supply():
    return Refused(106, "over supply")


def supply_too_large():
    return Refused(107, "supply")


def not_finite():
    return Refused(108, "reading")


def too_many_marks():
    return Refused(109, "marks")


def out_of_form():
    return Refused(110, "out of form")
