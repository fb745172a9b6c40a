//! `day`: the calendar of a period, as source document 000's Abb. 3 has it.
use std::ffi::{OsStr, OsString};

use slp::{Refusal, RefusalKind};

use crate::arguments::{self, Grammar};
use crate::date::{Date, Period};
use crate::failure::Failure;
use crate::files::{Made, Output};
use crate::holidays::{Holidays, Wanted};
use crate::names;
use crate::run::{self, HOLIDAYS, OUTPUT};

/// What it takes.
pub const GRAMMAR: Grammar = Grammar {
    name: "day",
    words: &["PERIOD"],
    least: 1,
    many: false,
    choices: &[HOLIDAYS, OUTPUT],
};

/// Makes the calendar.
pub fn make(given: &[OsString]) -> Result<Made, Failure> {
    let arguments = arguments::parse(&GRAMMAR, given)?;
    let word = arguments.word(0).unwrap_or_default();
    let period = run::period(&GRAMMAR, &word)?;
    let holidays = arguments.value("--holidays").unwrap_or(OsStr::new("none"));
    let holidays = Holidays::load(&Wanted::parse(&GRAMMAR, holidays)?, period)?;
    run::expect_period(&word, period)?;
    let mut text = String::from("t;date;weekday;season;day type;why;values\n");
    for date in period.days() {
        text += &row(date, &holidays)?;
    }
    holidays.warn_of_gaps(period);
    Ok(Made::of(
        Output::text(arguments.target(), text),
        holidays
            .file()
            .map(|source| source.path.clone())
            .into_iter()
            .collect(),
    ))
}

fn row(date: Date, holidays: &Holidays) -> Result<String, Failure> {
    let listed = holidays.dates(Period::day(date));
    let day = slp::day(date.0, listed).map_err(|refusal| refused(refusal, holidays))?;
    let (weekday, season) = (names::weekday(&day), names::season(day.season));
    let (day_type, why) = (
        names::day_type(day.day_type),
        names::why(date, &day, holidays)?,
    );
    let why = in_field(&why);
    Ok(format!(
        "{};{date};{weekday};{season};{day_type};{why};{}\n",
        day.t, day.value_count
    ))
}

fn refused(refusal: Refusal, holidays: &Holidays) -> Failure {
    let what = match refusal.kind {
        RefusalKind::BadHoliday => holidays.fault_at(refusal.place),
        kind => kind.to_string(),
    };
    Failure::by_question(&what, refusal)
}

/// A text as a field of CSV: in quotes where it has a separator or a quote.
fn in_field(text: &str) -> String {
    match text.contains([';', '"']) {
        true => format!("\"{}\"", text.replace('"', "\"\"")),
        false => text.to_owned(),
    }
}

#[cfg(test)]
mod tests {
    use super::*;

    #[test]
    fn a_field_is_quoted_where_it_must_be() {
        assert_eq!(in_field("listed: 1. Mai"), "listed: 1. Mai");
        assert_eq!(in_field("a;b \"c\""), "\"a;b \"\"c\"\"\"");
    }
}
