//! The record of a channel: 80 bytes, most significant byte first.

use crate::refusal::Refusal;
use crate::setpoint;

pub const LENGTH: usize = 80;
pub const MOST_RECORDS: usize = 15;

const TEXT: std::ops::Range<usize> = 28..73;

pub const TAG: std::ops::Range<usize> = 0..6;
pub const TAG_DESCRIPTOR_DATE: std::ops::Range<usize> = 0..21;
pub const MESSAGE: std::ops::Range<usize> = 21..45;

#[derive(Clone, Debug)]
pub struct Record {
    pub device_type: u8,
    pub identification: [u8; 3],
    pub polling_address: u8,
    pub preambles: u8,
    pub assembly_number: [u8; 3],
    pub changed: bool,
    pub key_open: bool,
    pub setpoint: u32,
    pub ceiling: u8,
    pub flow_unit: u8,
    pub full_scale: u32,
    pub flow: u32,
    pub temperature: u32,
    pub text: [u8; 45],
}

fn word(bytes: &[u8], at: usize) -> u32 {
    u32::from_be_bytes([bytes[at], bytes[at + 1], bytes[at + 2], bytes[at + 3]])
}

pub fn is_finite(pattern: u32) -> bool {
    f32::from_bits(pattern).is_finite()
}

impl Record {
    /// The record in 80 bytes; none if a field is out of range.
    fn of(bytes: &[u8]) -> Option<Self> {
        let flags = bytes[9];
        let record = Record {
            device_type: bytes[0],
            identification: [bytes[1], bytes[2], bytes[3]],
            polling_address: bytes[4],
            preambles: bytes[5],
            assembly_number: [bytes[6], bytes[7], bytes[8]],
            changed: flags & 1 != 0,
            key_open: flags & 2 != 0,
            setpoint: word(bytes, 10),
            ceiling: bytes[14],
            flow_unit: bytes[15],
            full_scale: word(bytes, 16),
            flow: word(bytes, 20),
            temperature: word(bytes, 24),
            text: bytes[TEXT].try_into().ok()?,
        };
        let is_lawful = record.polling_address <= 15
            && (2..=15).contains(&record.preambles)
            && flags <= 3
            && setpoint::is_lawful(record.setpoint)
            && record.ceiling <= 100
            && (1..=1_000_000).contains(&record.full_scale)
            && is_finite(record.flow)
            && is_finite(record.temperature)
            && bytes[TEXT.end..].iter().all(|&byte| byte == 0);
        is_lawful.then_some(record)
    }

    pub fn to_bytes(&self) -> [u8; LENGTH] {
        let mut bytes = [0; LENGTH];
        bytes[0] = self.device_type;
        bytes[1..4].copy_from_slice(&self.identification);
        bytes[4] = self.polling_address;
        bytes[5] = self.preambles;
        bytes[6..9].copy_from_slice(&self.assembly_number);
        bytes[9] = u8::from(self.changed) | u8::from(self.key_open) << 1;
        bytes[10..14].copy_from_slice(&self.setpoint.to_be_bytes());
        bytes[14] = self.ceiling;
        bytes[15] = self.flow_unit;
        bytes[16..20].copy_from_slice(&self.full_scale.to_be_bytes());
        bytes[20..24].copy_from_slice(&self.flow.to_be_bytes());
        bytes[24..28].copy_from_slice(&self.temperature.to_be_bytes());
        bytes[TEXT].copy_from_slice(&self.text);
        bytes
    }

    pub fn share(&self) -> u64 {
        setpoint::share(self.setpoint, self.full_scale)
    }

    pub fn identity(&self) -> (u8, [u8; 3]) {
        (self.device_type, self.identification)
    }
}

/// The records of a record file, 1 to 15.
pub fn records_of(file: &[u8]) -> Result<Vec<Record>, Refusal> {
    let count = file.len() / LENGTH;
    if file.len() % LENGTH != 0 || !(1..=MOST_RECORDS).contains(&count) {
        return Err(Refusal::NumberOfRecords);
    }
    file.chunks_exact(LENGTH)
        .map(Record::of)
        .collect::<Option<_>>()
        .ok_or(Refusal::BadRecord)
}
