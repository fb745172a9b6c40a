//! `page`: the day page, a line of fixed width for each day, to be printed.
use std::ffi::OsString;

use crate::arguments::{self, Grammar};
use crate::failure::Failure;
use crate::files::{Made, Output};
use crate::run::{Run, CARRY, HOLIDAYS, OUTPUT, PROFILES, SINCE};
use crate::series::{self, CARRY_OUT};

/// What it takes. The page does not have the carry that it hands on, so that goes to a file of its own.
pub const GRAMMAR: Grammar = Grammar::of_run(
    "page",
    &[PROFILES, HOLIDAYS, SINCE, CARRY, CARRY_OUT, OUTPUT],
);

/// Makes the page.
pub fn make(given: &[OsString]) -> Result<Made, Failure> {
    let arguments = arguments::parse(&GRAMMAR, given)?;
    let run = Run::of_words(&GRAMMAR, &arguments)?;
    let days = run.period.first.days_to(run.period.last) as usize;
    let mut page = vec![0; slp::day_page_length(days)];
    let carry = run.carry_before(run.period.first)?;
    let request = run.request(run.period, carry);
    let made = slp::page(&request, &mut page).map_err(|refusal| run.refused(refusal))?;
    let mut outputs: Vec<Output> = series::carry_out(&arguments, made).into_iter().collect();
    outputs.push(Output::text(arguments.target(), page));
    Ok(Made {
        outputs,
        read: run.read(),
    })
}
