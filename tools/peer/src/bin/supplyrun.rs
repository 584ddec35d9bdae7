//! Plays a recording on the panel of `rack.rec`, under the supply that is given.

use peer::event::Kinds;
use peer::player::play;
use peer::rack_file;
use peer::supply::supply_of;
use std::error::Error;
use std::process::ExitCode;
use std::{env, io};

const HELP: &str =
    "supplyrun SUPPLY < RECORDING    plays events on the panel of rack.rec, SUPPLY in mL/min";

fn main() -> ExitCode {
    if env::args_os().any(|word| word == "--help") {
        println!("{HELP}");
        return ExitCode::SUCCESS;
    }
    match run() {
        Ok(()) => ExitCode::SUCCESS,
        Err(error) => {
            eprintln!("supplyrun: {error}");
            ExitCode::FAILURE
        }
    }
}

fn run() -> Result<(), Box<dyn Error>> {
    let words: Vec<_> = env::args_os().skip(1).collect();
    let [word] = words.as_slice() else {
        return Err("usage: supplyrun SUPPLY; see --help".into());
    };
    let supply = word
        .to_str()
        .and_then(supply_of)
        .ok_or("the supply is not a number from 0 to 4294967295")?;
    let file = rack_file::read()?;
    play(&file, supply, Kinds::Supplyrun, io::stdin().lock(), io::stdout().lock())?;
    Ok(())
}
