//! What is kept of a transmission that has not ended.

use crate::frame::{Frame, LONGEST, PREAMBLE};
use crate::refusal::Refusal;

pub const PARITY: u8 = 1;
pub const OVERRUN: u8 = 2;
pub const FRAMING: u8 = 4;

const MOST_MARKS: u8 = 7;

pub struct Receiver {
    preambles: usize,
    span: Vec<u8>,
    marks: u8,
    is_overlong: bool,
}

impl Receiver {
    pub fn new() -> Self {
        Receiver {
            preambles: 0,
            span: Vec::with_capacity(LONGEST),
            marks: 0,
            is_overlong: false,
        }
    }

    /// A new transmission begins.
    pub fn clear(&mut self) {
        self.preambles = 0;
        self.span.clear();
        self.marks = 0;
        self.is_overlong = false;
    }

    pub fn take(&mut self, byte: u8, marks: u8) -> Result<(), Refusal> {
        if marks > MOST_MARKS {
            return Err(Refusal::Marks);
        }
        if self.span.is_empty() && byte == PREAMBLE {
            self.preambles += 1;
        } else if self.span.len() < LONGEST {
            self.span.push(byte);
            self.marks |= marks;
        } else {
            self.is_overlong = true;
        }
        Ok(())
    }

    /// The frame of a whole transmission.
    pub fn frame(&self) -> Option<Frame<'_>> {
        if self.preambles < 2 || self.is_overlong {
            return None;
        }
        Frame::of(&self.span)
    }

    /// All marks from the start on.
    pub fn marks(&self) -> u8 {
        self.marks
    }
}

impl Default for Receiver {
    fn default() -> Self {
        Receiver::new()
    }
}
