//! The record file that a program reads where it is started.

use std::{fs, io};

const NAME: &str = "rack.rec";

/// Its bytes; an error says which file it is of.
pub fn read() -> io::Result<Vec<u8>> {
    fs::read(NAME).map_err(|error| io::Error::new(error.kind(), format!("{NAME}: {error}")))
}
