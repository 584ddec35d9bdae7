//! The answer of the channel that is meant.

use crate::command::{carry_out, Header};
use crate::frame::{exclusive_or, Frame, PREAMBLE, SHORT_START};
use crate::receiver::{FRAMING, OVERRUN, PARITY};
use crate::record::Record;

const COMMUNICATION_ERROR: u8 = 128;
const WRONG_CHECK: u8 = 8;
const CHANGED: u8 = 64;

/// Writes the answer into `answer`, and what the command writes into the record.
pub fn respond(
    frame: &Frame,
    marks: u8,
    record: &mut Record,
    header: impl FnOnce() -> Header,
    answer: &mut Vec<u8>,
) {
    let mut data = Vec::with_capacity(24);
    let error = communication_error(frame, marks);
    let (first, second) = if error != 0 {
        (error, 0)
    } else {
        let code = match carry_out(frame, record, header, &mut data) {
            Ok(()) => 0,
            Err(code) => code as u8,
        };
        (code, if record.changed { CHANGED } else { 0 })
    };
    answer.clear();
    answer.extend(std::iter::repeat_n(PREAMBLE, usize::from(record.preambles)));
    let start = answer.len();
    answer.push(if frame.span[0] == SHORT_START { 0x06 } else { 0x86 });
    answer.extend(frame.address);
    answer.extend([frame.command, 2 + data.len() as u8, first, second]);
    answer.extend(data);
    answer.push(exclusive_or(&answer[start..]));
}

/// The first status of a frame that is not sound; 0 for a sound one.
fn communication_error(frame: &Frame, marks: u8) -> u8 {
    let mut error = 0;
    for (mark, added) in [(PARITY, 64), (OVERRUN, 32), (FRAMING, 16)] {
        if marks & mark != 0 {
            error |= added;
        }
    }
    if !frame.is_check_right() {
        error |= WRONG_CHECK;
    }
    if error == 0 {
        0
    } else {
        COMMUNICATION_ERROR | error
    }
}
