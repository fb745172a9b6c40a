//! `sums`: counts and energy of a period's days, months, quarters or years as CSV.
use std::ffi::OsString;

use slp::Expansion;

use crate::about;
use crate::amounts::{put_number, Format, Unit, DECIMAL, UNIT};
use crate::arguments::{self, Choice, Grammar};
use crate::date::Date;
use crate::failure::Failure;
use crate::files::Made;
use crate::run::{Run, Series, CARRY, HOLIDAYS, OUTPUT, PROFILES, SINCE};
use crate::series::{self, CARRY_OUT};
use crate::text::quoted;

/// What the rows stand for.
const BY: Choice = Choice::with_value("--by");

/// What it takes.
pub const GRAMMAR: Grammar = Grammar::of_run(
    "sums",
    &[
        PROFILES,
        HOLIDAYS,
        BY,
        SINCE,
        CARRY,
        CARRY_OUT,
        UNIT,
        DECIMAL,
        about::ABOUT,
        OUTPUT,
    ],
);

/// What a row adds up.
#[derive(Debug, Clone, Copy, PartialEq, Eq)]
enum Row {
    Day,
    Month,
    Quarter,
    Year,
}

impl Row {
    fn parse(text: &str) -> Option<Row> {
        match text {
            "day" => Some(Row::Day),
            "month" => Some(Row::Month),
            "quarter" => Some(Row::Quarter),
            "year" => Some(Row::Year),
            _ => None,
        }
    }

    /// The row of a day, named as a PERIOD is.
    fn of(self, date: Date) -> String {
        let year = date.year();
        match self {
            Row::Day => date.to_string(),
            Row::Month => format!("{year}-{:02}", date.month()),
            Row::Quarter => format!("{year}-Q{}", date.month().div_ceil(3)),
            Row::Year => year.to_string(),
        }
    }
}

/// What some days add up to.
#[derive(Debug, Clone, Default, PartialEq, Eq)]
struct Sum {
    name: String,
    days: u64,
    values: u64,
    energy: u64,
}

impl Sum {
    fn named(name: &str) -> Sum {
        Sum {
            name: name.to_owned(),
            ..Sum::default()
        }
    }

    fn add(&mut self, figures: &[u32]) {
        self.days += 1;
        self.values += figures.len() as u64;
        self.energy += figures.iter().map(|&figure| u64::from(figure)).sum::<u64>();
    }

    fn put(&self, text: &mut Vec<u8>, format: Format) {
        text.extend_from_slice(self.name.as_bytes());
        for count in [self.days, self.values] {
            text.push(b';');
            put_number(text, count);
        }
        text.push(b';');
        format.put(text, self.energy);
        text.push(b'\n');
    }
}

/// Makes the sums.
pub fn make(given: &[OsString]) -> Result<Made, Failure> {
    let arguments = arguments::parse(&GRAMMAR, given)?;
    let format = Format::of(
        &GRAMMAR,
        &arguments,
        &[Unit::WattHours, Unit::KilowattHours],
    )?;
    let by = arguments.text("--by").unwrap_or_else(|| "month".to_owned());
    let row = Row::parse(&by).ok_or_else(|| {
        GRAMMAR.fault(&format!(
            "--by: {} is none of day, month, quarter, year",
            quoted(&by)
        ))
    })?;
    let run = Run::of_words(&GRAMMAR, &arguments)?;
    let series = run.series()?;
    let mut text = format!("period;days;values;{}\n", format.unit.name()).into_bytes();
    for sum in sums(&run, &series, row)? {
        sum.put(&mut text, format);
    }
    series::deliver(&arguments, &run, &series, text)
}

/// The rows, the last of which is the total.
fn sums(run: &Run, series: &Series, row: Row) -> Result<Vec<Sum>, Failure> {
    let mut total = Sum::named("total");
    let mut sums: Vec<Sum> = Vec::new();
    for day in series::by_day(run, series) {
        let (date, _, figures) = day?;
        let name = row.of(date);
        if sums.last().is_none_or(|sum| sum.name != name) {
            sums.push(Sum::named(&name));
        }
        if let Some(sum) = sums.last_mut() {
            sum.add(figures);
        }
        total.add(figures);
    }
    sums.push(last_line(total, series.made)?);
    Ok(sums)
}

/// The total, which must be that of the proved call: a difference is a fault.
fn last_line(total: Sum, made: Expansion) -> Result<Sum, Failure> {
    if (total.values, total.energy) == (made.count as u64, made.total) {
        return Ok(total);
    }
    let what = "fault of this tool: its own sum is not that of the proved call; do not use it";
    Err(Failure::Refused(what.to_owned()))
}

#[cfg(test)]
mod tests {
    use super::*;

    #[test]
    fn a_sum_that_differs_from_the_proved_call_is_a_fault() {
        let mut total = Sum::named("total");
        total.add(&[3, 4]);
        let made = |count, total| Expansion {
            count,
            total,
            carry: 0,
        };
        assert_eq!(last_line(total.clone(), made(2, 7)), Ok(total.clone()));
        for wrong in [made(2, 8), made(3, 7)] {
            let fault = last_line(total.clone(), wrong).unwrap_err();
            assert!(fault.to_string().starts_with("fault of this tool"));
        }
    }

    #[test]
    fn rows_are_named_as_periods_are() {
        let date = Date(20_260_630);
        let named = |by| Row::parse(by).map(|row| row.of(date));
        assert_eq!(named("day").as_deref(), Some("2026-06-30"));
        assert_eq!(named("month").as_deref(), Some("2026-06"));
        assert_eq!(named("quarter").as_deref(), Some("2026-Q2"));
        assert_eq!(named("year").as_deref(), Some("2026"));
        assert_eq!(named("week"), None);
        assert_eq!(Row::Quarter.of(Date(20_260_701)), "2026-Q3");
    }
}
