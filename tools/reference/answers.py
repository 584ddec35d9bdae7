"""The answer of one channel to one transmission, or silence."""

import records
from addressing import means
from codes import Outcome, outcome
from frames import PREAMBLE, exclusive_or
from hearing import hear
from lent import fill
from refusal import bad_record, short_buffer

LEAST_BUFFER = 64
START_OF_ANSWER = {0x02: 0x06, 0x82: 0x86}
FLAG_SET = 64


def respond(received, marks, record, header, buffer):
    """The answer's length and the record after; None is silence."""
    if len(buffer) < LEAST_BUFFER:
        raise short_buffer()
    if records.fault(record) is not None:
        raise bad_record(records.fault(record))
    heard = hear(received, marks)
    if heard is None or not means(heard.request, record):
        return None
    answer, after = reply(heard, record, header)
    return fill(buffer, answer), after


def reply(heard, record, header):
    """The answer of the channel that is meant, and its record after."""
    if heard.error is not None:
        found, second = Outcome(heard.error, record, b""), 0
    else:
        found = outcome(heard.request.command, heard.request.data, record, header)
        second = second_status(found.record)
    return answer_bytes(heard, found, second), found.record


def second_status(after):
    return FLAG_SET if records.FLAGS.of(after) & records.CHANGED else 0


def answer_bytes(heard, found, second):
    frame = bytes([START_OF_ANSWER[heard.frame[0]]]) + heard.request.address
    frame += bytes([heard.request.command, 2 + len(found.data), found.code, second])
    frame += found.data
    frame += bytes([exclusive_or(frame)])
    return bytes([PREAMBLE]) * records.PREAMBLES.of(found.record) + frame
