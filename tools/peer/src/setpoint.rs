//! What a setpoint pattern is worth: its load, its share, and it in units.

use crate::command::Code;

/// The pattern of minus zero.
pub const MINUS_ZERO: u32 = 0x8000_0000;

/// The load of one percent.
const PARTS: f64 = 1024.0;

/// The load of 100 percent, by which a supply is multiplied.
pub const FULL_LOAD: u64 = 102_400;

/// The least whole number not below the value times 1,024, of a finite value not
/// below zero. Every binary32 value times 1,024 is exact in binary64.
pub fn load(pattern: u32) -> u64 {
    (f64::from(f32::from_bits(pattern)) * PARTS).ceil() as u64
}

pub fn share(pattern: u32, full_scale: u32) -> u64 {
    load(pattern) * u64::from(full_scale)
}

/// Whether a ceiling in whole percent admits the setpoint.
pub fn admit(pattern: u32, ceiling: u8) -> Result<(), Code> {
    let value = f32::from_bits(pattern);
    if value.is_nan() {
        Err(Code::InvalidSelection)
    } else if value < 0.0 {
        Err(Code::TooSmall)
    } else if value > f32::from(ceiling) {
        Err(Code::TooLarge)
    } else {
        Ok(())
    }
}

/// Whether a record may hold it: worth 0 to 100, and not minus zero.
pub fn is_lawful(pattern: u32) -> bool {
    pattern != MINUS_ZERO && (0.0..=100.0).contains(&f32::from_bits(pattern))
}

/// Percent of a full scale, rounded after each of two steps.
pub fn in_units(pattern: u32, full_scale: u32) -> u32 {
    (f32::from_bits(pattern) * full_scale as f32 / 100.0).to_bits()
}
