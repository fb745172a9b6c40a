//! An independent implementation of the calls of documents 01 and 02 and of the program's text, in plain Rust. It is written from
//! the papers alone, and not from the proved code or its definitions: the tests hold every proved call to it, and the bench its
//! speed. Each quarter hour is one carry step.
//!
//! The modules are document 01's parts: [`mod@file`] the profile file, [`calendar`] the calendar, [`dynamisation`] the
//! households' factor, [`series`] series and carry, [`energy`] a run's energy and demand 3's bound, [`program`] the program; and of
//! document 02 [`mod@holidays`], request (a), [`mod@deliveries`], request (c), and [`mod@page`], request (e).
//!
//! A group is a code: 0 is H0, 1 to 7 are G0 to G6, 8 to 10 are L0 to L2. A date is a number yyyymmdd.

pub mod calendar;
pub mod deliveries;
pub mod dynamisation;
pub mod energy;
pub mod file;
pub mod holidays;
pub mod page;
pub mod program;
pub mod series;

pub use calendar::{day, DayAnswer, DayType, Season};
pub use deliveries::{deliveries, Deliveries};
pub use file::{check, compare, locate, read, write};
pub use holidays::holidays;
pub use page::page;
pub use series::{expand, Expansion, Request};

/// The first question that was answered "no".
#[derive(Debug, Clone, Copy, PartialEq, Eq)]
pub struct Refusal {
    /// The question's number, 1 to 19.
    pub number: u32,
    /// The place that the question names, else 0.
    pub place: usize,
}

/// A question: "no" refuses the call.
fn ask(yes: bool, number: u32, place: usize) -> Result<(), Refusal> {
    if yes {
        Ok(())
    } else {
        Err(Refusal { number, place })
    }
}
