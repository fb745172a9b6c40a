//! `days`: document 01's listing, as the program `slp` prints it.
use std::ffi::OsString;

use crate::arguments::{self, Grammar};
use crate::failure::Failure;
use crate::files::{Made, Output};
use crate::request;
use crate::run::{Run, HOLIDAYS, OUTPUT, PROFILES};

/// What it takes. The program begins every period with carry 0, so there is no choice of it.
pub const GRAMMAR: Grammar = Grammar::of_run("days", &[PROFILES, HOLIDAYS, OUTPUT]);

/// Makes the listing.
pub fn make(given: &[OsString]) -> Result<Made, Failure> {
    let arguments = arguments::parse(&GRAMMAR, given)?;
    let run = Run::of_words(&GRAMMAR, &arguments)?;
    let mut page = vec![0; slp::PAGE_LENGTH];
    let length = slp::respond(&request::encode(&run), &mut page)
        .map_err(|refusal| Failure::Refused(refusal.to_string()))?;
    page.truncate(length);
    Ok(Made::of(Output::text(arguments.target(), page), run.read()))
}
