//! The tabled commands: which code a sound request gets, what it writes and replies.

use crate::frame::Frame;
use crate::record::{Record, MESSAGE, TAG_DESCRIPTOR_DATE};
use crate::setpoint::{self, FULL_LOAD, MINUS_ZERO};

const PERCENT: u8 = 57;

#[derive(Clone, Copy, Debug, PartialEq, Eq)]
pub enum Code {
    NoError = 0,
    InvalidSelection = 2,
    TooLarge = 3,
    TooSmall = 4,
    WrongCount = 5,
    WriteProtected = 7,
    Restricted = 16,
    NotImplemented = 64,
}

/// The supply in mL/min, and the sum of the other channels' shares.
pub struct Header {
    pub supply: u32,
    pub others: u64,
}

impl Header {
    fn fits(&self, share: u64) -> bool {
        self.others + share <= u64::from(self.supply) * FULL_LOAD
    }
}

/// Carries a request out; its reply data are put behind what `reply` holds.
///
/// The header is asked for only where a setpoint is weighed.
pub fn carry_out(
    frame: &Frame,
    record: &mut Record,
    header: impl FnOnce() -> Header,
    reply: &mut Vec<u8>,
) -> Result<(), Code> {
    match frame.command {
        0 | 11 => identifier(record, reply),
        1 => {
            reply.push(record.flow_unit);
            reply.extend(record.flow.to_be_bytes());
        }
        12 => reply.extend(&record.text[MESSAGE]),
        13 => reply.extend(&record.text[TAG_DESCRIPTOR_DATE]),
        16 => reply.extend(record.assembly_number),
        235 => held_setpoint(record, reply),
        6 | 17 | 18 | 19 | 38 | 59 | 236 => write(frame, record, header, reply)?,
        _ => return Err(Code::NotImplemented),
    }
    Ok(())
}

fn write(
    frame: &Frame,
    record: &mut Record,
    header: impl FnOnce() -> Header,
    reply: &mut Vec<u8>,
) -> Result<(), Code> {
    let count = match frame.command {
        6 | 59 => 1,
        17 => 24,
        18 => 21,
        19 => 3,
        236 => 5,
        _ => 0,
    };
    let data = frame.data;
    if data.len() != count {
        return Err(Code::WrongCount);
    }
    if !record.key_open {
        return Err(Code::WriteProtected);
    }
    match frame.command {
        6 => {
            if data[0] > 15 {
                return Err(Code::InvalidSelection);
            }
            record.polling_address = data[0];
        }
        17 => record.text[MESSAGE].copy_from_slice(data),
        18 => record.text[TAG_DESCRIPTOR_DATE].copy_from_slice(data),
        19 => record.assembly_number.copy_from_slice(data),
        38 => {
            record.changed = false;
            return Ok(());
        }
        59 => {
            record.preambles = match data[0] {
                0..=1 => return Err(Code::TooSmall),
                number @ 2..=15 => number,
                _ => return Err(Code::TooLarge),
            };
        }
        _ => {
            write_setpoint(data, record, header)?;
            held_setpoint(record, reply);
            return Ok(());
        }
    }
    record.changed = true;
    reply.extend(data);
    Ok(())
}

fn write_setpoint(
    data: &[u8],
    record: &mut Record,
    header: impl FnOnce() -> Header,
) -> Result<(), Code> {
    if data[0] != PERCENT {
        return Err(Code::InvalidSelection);
    }
    let asked = u32::from_be_bytes([data[1], data[2], data[3], data[4]]);
    setpoint::admit(asked, record.ceiling)?;
    if !header().fits(setpoint::share(asked, record.full_scale)) {
        return Err(Code::Restricted);
    }
    record.setpoint = if asked == MINUS_ZERO { 0 } else { asked };
    Ok(())
}

fn identifier(record: &Record, reply: &mut Vec<u8>) {
    reply.extend([0xFE, 0x0A, record.device_type, 2, 5, 1, 1, 8, 0]);
    reply.extend(record.identification);
}

fn held_setpoint(record: &Record, reply: &mut Vec<u8>) {
    reply.push(PERCENT);
    reply.extend(record.setpoint.to_be_bytes());
    reply.push(record.flow_unit);
    reply.extend(setpoint::in_units(record.setpoint, record.full_scale).to_be_bytes());
}
