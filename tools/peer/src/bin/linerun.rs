//! Plays a recording on the panel of `rack.rec`, under the largest supply.

use peer::event::Kinds;
use peer::panel::MOST_SUPPLY;
use peer::player::play;
use peer::rack_file;
use std::process::ExitCode;
use std::{env, io};

const HELP: &str = "linerun < RECORDING    plays events on the panel of rack.rec";

fn main() -> ExitCode {
    if env::args_os().any(|word| word == "--help") {
        println!("{HELP}");
        return ExitCode::SUCCESS;
    }
    match run() {
        Ok(()) => ExitCode::SUCCESS,
        Err(error) => {
            eprintln!("linerun: {error}");
            ExitCode::FAILURE
        }
    }
}

fn run() -> io::Result<()> {
    let file = rack_file::read()?;
    play(&file, MOST_SUPPLY, Kinds::Linerun, io::stdin().lock(), io::stdout().lock())
}
