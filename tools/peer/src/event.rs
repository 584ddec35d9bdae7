//! Events of 12 bytes: which call each is, and the line it prints.

use crate::hex::push_hex;
use crate::panel::{Panel, LEAST_BUFFER};
use crate::refusal::Refusal;
use std::io::Write;

pub const LENGTH: usize = 12;

/// Which program's events: supplyrun has three kinds more.
#[derive(Clone, Copy, Debug, PartialEq, Eq)]
pub enum Kinds {
    Linerun,
    Supplyrun,
}

/// Works an event; the line it prints, if any, is put behind what `lines` holds.
pub fn work(
    panel: &mut Panel,
    event: &[u8; LENGTH],
    kinds: Kinds,
    lines: &mut Vec<u8>,
) -> std::io::Result<()> {
    call(panel, event, kinds, lines).or_else(|refusal| push_refusal(refusal, lines))
}

fn call(
    panel: &mut Panel,
    event: &[u8; LENGTH],
    kinds: Kinds,
    lines: &mut Vec<u8>,
) -> Result<(), Refusal> {
    match *event {
        [1, byte, marks, 0, 0, 0, 0, 0, 0, 0, 0, 0] => panel.character(byte, marks),
        [2, 0, 0, 0, 0, 0, 0, 0, 0, 0, 0, 0] => gap(panel, LEAST_BUFFER, lines),
        [3, channel, 0, 0, a, b, c, d, e, f, g, h] => panel.sample(
            channel,
            u32::from_be_bytes([a, b, c, d]),
            u32::from_be_bytes([e, f, g, h]),
        ),
        [4, channel, open @ 0..=1, 0, 0, 0, 0, 0, 0, 0, 0, 0] => panel.key(channel, open == 1),
        _ if kinds == Kinds::Supplyrun => own_call(panel, event, lines),
        _ => Err(Refusal::OutOfForm),
    }
}

/// The kinds of supplyrun alone.
fn own_call(
    panel: &mut Panel,
    event: &[u8; LENGTH],
    lines: &mut Vec<u8>,
) -> Result<(), Refusal> {
    match *event {
        [5, room, 0, 0, 0, 0, 0, 0, 0, 0, 0, 0] => gap(panel, usize::from(room), lines),
        [6, channel, 0, 0, 0, 0, 0, 0, 0, 0, 0, 0] => {
            push_hex(&panel.look(channel)?.to_bytes(), lines);
            lines.push(b'\n');
            Ok(())
        }
        [7, 0, 0, 0, a, b, c, d, 0, 0, 0, 0] => {
            panel.set_up(u32::from_be_bytes([a, b, c, d]))?;
            lines.extend(b"set up\n");
            Ok(())
        }
        _ => Err(Refusal::OutOfForm),
    }
}

fn gap(panel: &mut Panel, room: usize, lines: &mut Vec<u8>) -> Result<(), Refusal> {
    match panel.gap(room)? {
        None => lines.extend(b"silent\n"),
        Some((channel, answer)) => {
            if channel > 9 {
                lines.push(b'1');
            }
            lines.push(b'0' + (channel % 10) as u8);
            lines.push(b' ');
            push_hex(answer, lines);
            lines.push(b'\n');
        }
    }
    Ok(())
}

pub fn push_refusal(refusal: Refusal, lines: &mut Vec<u8>) -> std::io::Result<()> {
    writeln!(lines, "refused {}", refusal.number())
}
