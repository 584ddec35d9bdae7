//! A program: a record file and events to lines, block by block.

use crate::event::{self, push_refusal, Kinds, LENGTH};
use crate::panel::Panel;
use crate::record::records_of;
use crate::refusal::Refusal;
use std::io::{self, Read, Write};

const BLOCK: usize = 64 * 1024;

/// Plays events from `input` on a panel over the records of a file.
pub fn play(
    file: &[u8],
    supply: u32,
    kinds: Kinds,
    mut input: impl Read,
    mut output: impl Write,
) -> io::Result<()> {
    let mut lines = Vec::new();
    let mut panel = match records_of(file).and_then(|records| Panel::new(records, supply)) {
        Ok(panel) => panel,
        Err(refusal) => {
            push_refusal(refusal, &mut lines)?;
            return output.write_all(&lines);
        }
    };
    // What is left of the last block stands in front.
    let mut block = vec![0; BLOCK];
    let mut left = 0;
    loop {
        let read = match input.read(&mut block[left..]) {
            Ok(0) => break,
            Ok(read) => read,
            Err(error) if error.kind() == io::ErrorKind::Interrupted => continue,
            Err(error) => return Err(error),
        };
        let filled = left + read;
        let (events, _) = block[..filled].as_chunks::<LENGTH>();
        for event in events {
            event::work(&mut panel, event, kinds, &mut lines)?;
        }
        let worked = events.len() * LENGTH;
        block.copy_within(worked..filled, 0);
        left = filled - worked;
        write_lines(&mut lines, &mut output)?;
    }
    if left > 0 {
        push_refusal(Refusal::NumberOfRecords, &mut lines)?;
    }
    write_lines(&mut lines, &mut output)
}

fn write_lines(lines: &mut Vec<u8>, output: &mut impl Write) -> io::Result<()> {
    output.write_all(lines)?;
    output.flush()?;
    lines.clear();
    Ok(())
}
