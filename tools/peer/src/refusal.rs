//! The refusals of calls, by their numbers.

#[derive(Clone, Copy, Debug, PartialEq, Eq)]
pub enum Refusal {
    NoChannel = 101,
    ShortBuffer = 102,
    BadRecord = 103,
    NumberOfRecords = 104,
    SameIdentity = 105,
    OverSupply = 106,
    Supply = 107,
    Reading = 108,
    Marks = 109,
    OutOfForm = 110,
}

impl Refusal {
    pub fn number(self) -> u8 {
        self as u8
    }
}
