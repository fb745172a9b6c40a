//! `series`: the figures of a period as CSV.
use std::ffi::OsString;

use slp::{Day, Expansion};

use crate::about;
use crate::amounts::{Format, Unit, DECIMAL, UNIT};
use crate::arguments::{self, Arguments, Choice, Grammar};
use crate::clock::{self, QUARTERS};
use crate::date::Date;
use crate::failure::Failure;
use crate::files::{Made, Output};
use crate::names;
use crate::quarter_hours::{self, Offset, Part};
use crate::run::{Run, Series, CARRY, HOLIDAYS, OUTPUT, PROFILES, SINCE};

/// A row for each day.
const WIDE: Choice = Choice::alone("--wide");
/// Where the last carry goes.
pub const CARRY_OUT: Choice = Choice::with_value("--carry-out");

/// What it takes.
pub const GRAMMAR: Grammar = Grammar::of_run(
    "series",
    &[
        PROFILES,
        HOLIDAYS,
        SINCE,
        CARRY,
        CARRY_OUT,
        UNIT,
        DECIMAL,
        WIDE,
        about::ABOUT,
        OUTPUT,
    ],
);

/// The first position of October's second hour from 2 to 3, and the first behind it.
const REPEATED: std::ops::Range<usize> = 8..12;

/// Makes the series.
pub fn make(given: &[OsString]) -> Result<Made, Failure> {
    let arguments = arguments::parse(&GRAMMAR, given)?;
    let units = [Unit::WattHours, Unit::KilowattHours, Unit::Kilowatts];
    let format = Format::of(&GRAMMAR, &arguments, &units)?;
    let run = Run::of_words(&GRAMMAR, &arguments)?;
    let series = run.series()?;
    let text = match arguments.has("--wide") {
        true => wide(&run, &series, format)?,
        false => long(&run, &series, format)?,
    };
    deliver(&arguments, &run, &series, text)
}

/// A series' text with what the options `--carry-out` and `--about` ask for beside it.
pub fn deliver(
    arguments: &Arguments,
    run: &Run,
    series: &Series,
    text: Vec<u8>,
) -> Result<Made, Failure> {
    let main = Output::text(arguments.target(), text);
    let mut outputs: Vec<Output> = carry_out(arguments, series.made).into_iter().collect();
    if let Some(path) = arguments.value("--about") {
        let text = about::text(arguments, run, series, &main)?;
        outputs.push(Output::text(path, text));
    }
    outputs.push(main);
    Ok(Made {
        outputs,
        read: run.read(),
    })
}

/// The last carry, where `--carry-out` asks for it.
pub fn carry_out(arguments: &Arguments, made: Expansion) -> Option<Output> {
    let path = arguments.value("--carry-out")?;
    Some(Output::text(path, format!("{}\n", made.carry)))
}

/// The days of a run's period, each with its figures.
pub fn by_day<'a>(
    run: &'a Run,
    series: &'a Series,
) -> impl Iterator<Item = Result<(Date, Day, &'a [u32]), Failure>> {
    let mut rest = &series.figures[..];
    run.period.days().map(move |date| {
        let day = run.day(date)?;
        let (figures, behind) = rest.split_at(day.value_count as usize);
        rest = behind;
        Ok((date, day, figures))
    })
}

/// A row for each quarter hour.
fn long(run: &Run, series: &Series, format: Format) -> Result<Vec<u8>, Failure> {
    let between =
        |offset: Offset| move |position| format!(";{};{};", clock::label(position), offset.text());
    let winter: Vec<String> = (0..QUARTERS).map(between(Offset::Winter)).collect();
    let summer: Vec<String> = (0..QUARTERS).map(between(Offset::Summer)).collect();

    let mut text = format!("date;until;offset;{}\n", format.unit.name()).into_bytes();
    text.reserve(40 * series.figures.len());
    for day in by_day(run, series) {
        let (date, day, figures) = day?;
        let (date_text, mut figures) = (date.to_string(), figures.iter());
        for Part { positions, offset } in quarter_hours::parts(date, &day) {
            let labels = match offset {
                Offset::Winter => &winter[positions],
                Offset::Summer => &summer[positions],
            };
            for (label, figure) in labels.iter().zip(&mut figures) {
                text.extend_from_slice(date_text.as_bytes());
                text.extend_from_slice(label.as_bytes());
                format.put(&mut text, u64::from(*figure));
                text.push(b'\n');
            }
        }
    }
    Ok(text)
}

/// A row for each day, as in the tables of source document 000, with a column for each quarter hour that a day can have: the 96
/// labels, and behind 03:00 October's second hour. What a day does not have is empty.
fn wide(run: &Run, series: &Series, format: Format) -> Result<Vec<u8>, Failure> {
    let mut text = b"t;date;weekday;profile day;unit".to_vec();
    for (position, again) in columns() {
        let again = if again { " again" } else { "" };
        text.extend(format!(";{}{again}", clock::label(position)).into_bytes());
    }
    text.push(b'\n');
    for day in by_day(run, series) {
        let (date, day, figures) = day?;
        let (weekday, profile_day) = (names::weekday(&day), names::profile_day(&day));
        text.extend(
            format!(
                "{};{date};{weekday};{profile_day};{}",
                day.t,
                format.unit.name()
            )
            .into_bytes(),
        );
        let mut figures = figures.iter();
        for (position, again) in columns() {
            text.push(b';');
            if has_column(&day, position, again) {
                let figure = figures.next().expect("a figure for each quarter hour");
                format.put(&mut text, u64::from(*figure));
            }
        }
        text.push(b'\n');
    }
    Ok(text)
}

/// The columns of quarter hours in order: the position, and whether it stands the second time.
fn columns() -> impl Iterator<Item = (usize, bool)> {
    let first = (0..REPEATED.end).map(|position| (position, false));
    let again = REPEATED.map(|position| (position, true));
    let rest = (REPEATED.end..QUARTERS).map(|position| (position, false));
    first.chain(again).chain(rest)
}

/// Whether a day has a column.
fn has_column(day: &Day, position: usize, again: bool) -> bool {
    match day.value_count {
        100 => true,
        92 => !REPEATED.contains(&position),
        _ => !again,
    }
}

#[cfg(test)]
mod tests {
    use super::*;

    #[test]
    fn a_day_has_as_many_columns_as_quarter_hours() {
        assert_eq!(columns().count(), 100);
        for date in [20_000_326, 20_000_327, 20_001_029] {
            let day = slp::day(date, &[]).unwrap();
            let count = columns()
                .filter(|(position, again)| has_column(&day, *position, *again))
                .count();
            assert_eq!(count, day.value_count as usize, "{date}");
        }
    }
}
