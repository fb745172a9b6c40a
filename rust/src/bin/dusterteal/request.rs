//! `request`: the binary request that the program `slp` reads.
use std::ffi::OsString;

use crate::arguments::{self, Grammar};
use crate::failure::Failure;
use crate::files::{Made, Output};
use crate::run::{Run, HOLIDAYS, OUTPUT, PROFILES};

/// What it takes.
pub const GRAMMAR: Grammar = Grammar::of_run("request", &[PROFILES, HOLIDAYS, OUTPUT]);

/// Makes the request.
pub fn make(given: &[OsString]) -> Result<Made, Failure> {
    let arguments = arguments::parse(&GRAMMAR, given)?;
    let run = Run::of_words(&GRAMMAR, &arguments)?;
    Ok(Made::of(
        Output::binary(arguments.target(), encode(&run)),
        run.read(),
    ))
}

/// The request of an accepted run: document 01, "The program". Its list has at most 400 dates, and its profile file at most 11
/// groups, so it is shorter than the 65,536 bytes that the program takes.
pub fn encode(run: &Run) -> Vec<u8> {
    let holidays = run.holidays.dates(run.period);
    let mut bytes = vec![run.group.code()];
    for number in [run.period.first.0, run.period.last.0, run.yearly] {
        bytes.extend(number.to_be_bytes());
    }
    bytes.extend((holidays.len() as u16).to_be_bytes());
    bytes.extend(holidays.iter().flat_map(|date| date.to_be_bytes()));
    bytes.extend(&run.profiles.file);
    bytes
}
