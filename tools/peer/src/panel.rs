//! A panel: one line, and the channels of one record file.

use crate::answer::respond;
use crate::command::Header;
use crate::receiver::Receiver;
use crate::record::{is_finite, Record};
use crate::refusal::Refusal;
use crate::setpoint::FULL_LOAD;

pub const LEAST_BUFFER: usize = 64;
pub const MOST_SUPPLY: u32 = 15_000_000;

pub struct Panel {
    records: Vec<Record>,
    supply: u32,
    receiver: Receiver,
    answer: Vec<u8>,
}

impl Panel {
    /// A panel that is set up.
    pub fn new(records: Vec<Record>, supply: u32) -> Result<Self, Refusal> {
        let mut panel = Panel {
            records,
            supply: 0,
            receiver: Receiver::new(),
            answer: Vec::with_capacity(LEAST_BUFFER),
        };
        panel.set_up(supply)?;
        Ok(panel)
    }

    pub fn set_up(&mut self, supply: u32) -> Result<(), Refusal> {
        if supply > MOST_SUPPLY {
            return Err(Refusal::Supply);
        }
        for (at, record) in self.records.iter().enumerate() {
            if self.records[..at].iter().any(|other| other.identity() == record.identity()) {
                return Err(Refusal::SameIdentity);
            }
        }
        let total: u64 = self.records.iter().map(Record::share).sum();
        if total > u64::from(supply) * FULL_LOAD {
            return Err(Refusal::OverSupply);
        }
        self.supply = supply;
        self.receiver.clear();
        Ok(())
    }

    pub fn character(&mut self, byte: u8, marks: u8) -> Result<(), Refusal> {
        self.receiver.take(byte, marks)
    }

    /// The channel that answers with its answer, or silence.
    pub fn gap(&mut self, room: usize) -> Result<Option<(usize, &[u8])>, Refusal> {
        if room < LEAST_BUFFER {
            return Err(Refusal::ShortBuffer);
        }
        let channel = self.answer_heard();
        self.receiver.clear();
        Ok(channel.map(|channel| (channel, self.answer.as_slice())))
    }

    fn answer_heard(&mut self) -> Option<usize> {
        let frame = self.receiver.frame()?;
        let mut meant = (0..self.records.len()).filter(|&at| frame.means(&self.records[at]));
        let (channel, None) = (meant.next()?, meant.next()) else {
            return None;
        };
        let (before, rest) = self.records.split_at_mut(channel);
        let (record, after) = rest.split_first_mut()?;
        let header = || Header {
            supply: self.supply,
            others: before.iter().chain(after.iter()).map(Record::share).sum(),
        };
        respond(&frame, self.receiver.marks(), record, header, &mut self.answer);
        Some(channel)
    }

    pub fn sample(&mut self, channel: u8, flow: u32, temperature: u32) -> Result<(), Refusal> {
        let record = self.record_mut(channel)?;
        if !is_finite(flow) || !is_finite(temperature) {
            return Err(Refusal::Reading);
        }
        record.flow = flow;
        record.temperature = temperature;
        Ok(())
    }

    pub fn key(&mut self, channel: u8, open: bool) -> Result<(), Refusal> {
        self.record_mut(channel)?.key_open = open;
        Ok(())
    }

    pub fn look(&self, channel: u8) -> Result<&Record, Refusal> {
        self.records.get(usize::from(channel)).ok_or(Refusal::NoChannel)
    }

    fn record_mut(&mut self, channel: u8) -> Result<&mut Record, Refusal> {
        self.records.get_mut(usize::from(channel)).ok_or(Refusal::NoChannel)
    }
}
