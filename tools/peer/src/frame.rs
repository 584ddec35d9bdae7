//! A request's frame: start, address, command, count, data, check.

use crate::record::{Record, TAG};

pub const PREAMBLE: u8 = 0xFF;
pub const SHORT_START: u8 = 0x02;
pub const LONG_START: u8 = 0x82;
pub const LONGEST: usize = 264;

const MASTER: u8 = 0x80;
const MANUFACTURER: u8 = 10;
const TAG_QUESTION: u8 = 11;

/// A whole frame, sound or not.
pub struct Frame<'a> {
    pub span: &'a [u8],
    pub address: &'a [u8],
    pub command: u8,
    pub data: &'a [u8],
}

impl<'a> Frame<'a> {
    /// The frame that a span, from the start on, is; none if it is not whole.
    pub fn of(span: &'a [u8]) -> Option<Self> {
        let (&start, rest) = span.split_first()?;
        let width = match start {
            SHORT_START => 1,
            LONG_START => 5,
            _ => return None,
        };
        if rest.len() < width + 3 {
            return None;
        }
        let (address, rest) = rest.split_at(width);
        let [command, count, data @ .., _check] = rest else {
            return None;
        };
        (data.len() == usize::from(*count)).then_some(Frame {
            span,
            address,
            command: *command,
            data,
        })
    }

    pub fn is_check_right(&self) -> bool {
        exclusive_or(self.span) == 0
    }

    /// Whether it means the channel of a record, by its bytes as received.
    pub fn means(&self, record: &Record) -> bool {
        if !self.address_means(record) {
            return false;
        }
        self.command != TAG_QUESTION || self.data == &record.text[TAG]
    }

    fn address_means(&self, record: &Record) -> bool {
        let first = self.address[0] & !MASTER;
        match self.address[1..] {
            [] => first == record.polling_address,
            [0, 0, 0, 0] if first == 0 => true,
            [device_type, ref identification @ ..] => {
                first == MANUFACTURER
                    && device_type == record.device_type
                    && *identification == record.identification
            }
        }
    }
}

pub fn exclusive_or(bytes: &[u8]) -> u8 {
    bytes.iter().fold(0, |check, byte| check ^ byte)
}
