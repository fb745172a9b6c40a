//! `deliveries`: metered energy, balanced energy and their difference for each reading period of a customer, as CSV.
use std::ffi::OsString;

use slp::{Deliveries, Refusal, RefusalKind};

use crate::amounts::{Format, Unit, DECIMAL, UNIT};
use crate::arguments::{self, Choice, Grammar};
use crate::date::Period;
use crate::failure::{warn, Failure};
use crate::files::{Made, Output};
use crate::readings::Readings;
use crate::run::{self, Beginning, Run, Sources, Words, Yearly, HOLIDAYS, OUTPUT, PROFILES};

/// The file of first dates and metered kWh.
const READINGS: Choice = Choice::with_value("--readings");
/// The last day of the last period.
const UNTIL: Choice = Choice::with_value("--until");

/// What it takes. The series begins with the first period and carry 0, so there is no choice of it.
pub const GRAMMAR: Grammar = Grammar {
    name: "deliveries",
    words: &["GROUP", "KWH"],
    least: 2,
    many: false,
    choices: &[PROFILES, HOLIDAYS, READINGS, UNTIL, UNIT, DECIMAL, OUTPUT],
};

/// A line: energies of a period or of all, in Wh.
struct Row {
    name: String,
    metered: i64,
    balanced: i64,
    difference: i64,
}

impl Row {
    fn of(period: Period, metered: u32, difference: i64) -> Row {
        let metered = 1_000 * i64::from(metered);
        Row {
            name: period.to_string(),
            metered,
            balanced: metered - difference,
            difference,
        }
    }

    fn total(rows: &[Row]) -> Row {
        let sum = |energy: fn(&Row) -> i64| rows.iter().map(energy).sum();
        Row {
            name: "total".to_owned(),
            metered: sum(|row| row.metered),
            balanced: sum(|row| row.balanced),
            difference: sum(|row| row.difference),
        }
    }

    /// Whether metered and balanced energy are out of proportion: more than three times the other, and by 100 kWh at least. A period
    /// without any use is not.
    fn is_odd(&self) -> bool {
        let [less, more] = [
            self.metered.min(self.balanced),
            self.metered.max(self.balanced),
        ];
        self.metered > 0 && more > 3 * less && more - less >= 100_000
    }

    fn put(&self, text: &mut Vec<u8>, format: Format) {
        text.extend_from_slice(self.name.as_bytes());
        for energy in [self.metered, self.balanced, self.difference] {
            text.push(b';');
            format.put_signed(text, energy);
        }
        text.push(b'\n');
    }
}

/// Makes the lines.
pub fn make(given: &[OsString]) -> Result<Made, Failure> {
    let arguments = arguments::parse(&GRAMMAR, given)?;
    let format = Format::of(
        &GRAMMAR,
        &arguments,
        &[Unit::WattHours, Unit::KilowattHours],
    )?;
    let word = |index| arguments.word(index).unwrap_or_default();
    let group = run::group(&GRAMMAR, &word(0))?;
    let yearly = Yearly::parse(&GRAMMAR, word(1))?;
    let sources = Sources::of(&GRAMMAR, &arguments)?;
    let missing = |what| GRAMMAR.fault(what);
    let path = arguments.value("--readings").ok_or_else(|| {
        missing("--readings is missing: name a file with the first date and the metered kWh of each period")
    })?;
    let until = arguments
        .text("--until")
        .ok_or_else(|| missing("--until is missing: name the last day of the last period"))?;
    let until = run::date(&GRAMMAR, "--until", &until)?;

    let readings = Readings::read(path)?;
    let words = Words {
        group,
        period: readings.span(until),
        said: readings.said(),
        yearly,
    };
    let run = Run::load(words, Beginning::default(), sources)?;
    let rows = rows(&run, &readings)?;
    run.warn();
    warn_of_odd(&readings, &rows);

    let unit = format.unit.name();
    let header = format!("period;metered {unit};balanced {unit};difference {unit}\n");
    let mut text = header.into_bytes();
    for row in rows.iter().chain([&Row::total(&rows)]) {
        row.put(&mut text, format);
    }
    let mut read = run.read();
    read.push(readings.source.path);
    Ok(Made::of(Output::text(arguments.target(), text), read))
}

/// The lines of the periods, by the proved call.
fn rows(run: &Run, readings: &Readings) -> Result<Vec<Row>, Failure> {
    let list = &readings.list;
    let starts: Vec<u32> = list.iter().map(|reading| reading.first.0).collect();
    let metered: Vec<u32> = list.iter().map(|reading| reading.metered).collect();
    let given = Deliveries {
        file: &run.profiles.file,
        group: run.group,
        first: run.period.first.0,
        last: run.period.last.0,
        starts: &starts,
        metered: &metered,
        holidays: run.holidays.dates(run.period),
        yearly: run.yearly,
    };
    let mut differences = vec![0; list.len()];
    slp::deliveries(&given, &mut differences).map_err(|refusal| refused(run, readings, refusal))?;
    let periods = readings.periods(run.period.last);
    let energies = metered.into_iter().zip(differences);
    Ok(periods
        .zip(energies)
        .map(|(period, (metered, difference))| Row::of(period, metered, difference))
        .collect())
}

/// Warns of the first line whose energy is out of proportion, as where a date, a unit or the kind of number is wrong.
fn warn_of_odd(readings: &Readings, rows: &[Row]) {
    let mut odd = (readings.list.iter().zip(rows)).filter(|(_, row)| row.is_odd());
    let Some((reading, row)) = odd.next() else {
        return;
    };
    let more = match odd.count() {
        0 => String::new(),
        count => format!("; {count} more such"),
    };
    warn(&format!(
        "{}: {} kWh metered and {} balanced in {}: look at the dates, the unit, and whether this is the energy of the period{more}",
        readings.at(reading),
        row.metered / 1_000,
        row.balanced / 1_000,
        row.name
    ));
}

/// The failure that a refusal makes, in the terms of the arguments and the file.
fn refused(run: &Run, readings: &Readings, refusal: Refusal) -> Failure {
    let what = match refusal.kind {
        RefusalKind::BadPeriod => format!("{}: {}", readings.said().whole, span_fault(run.period)),
        RefusalKind::WrongReadings => readings.count_fault(),
        RefusalKind::BadFirstDate => readings.first_date_fault(refusal.place, run.period.last),
        _ => return run.refused(refusal),
    };
    Failure::by_question(&what, refusal)
}

/// Why question 8 refuses the span.
fn span_fault(Period { first, last }: Period) -> String {
    if first > last {
        return format!("--until {last} lies before {first}, the first date");
    }
    let days = first.days_to(last);
    format!("the periods have {days} days together, from {first} to --until {last}; at most 1461 are allowed")
}

#[cfg(test)]
mod tests {
    use super::*;

    #[test]
    fn the_balanced_energy_is_what_the_difference_leaves() {
        let day = |text| Period::parse(text).unwrap();
        let rows = [
            Row::of(day("2000-03-25"), 2, -402),
            Row::of(day("2000-03-26"), 3, 698),
        ];
        let energies = |row: &Row| [row.metered, row.balanced, row.difference];
        assert_eq!(energies(&rows[0]), [2_000, 2_402, -402]);
        assert_eq!(energies(&rows[1]), [3_000, 2_302, 698]);
        assert_eq!(energies(&Row::total(&rows)), [5_000, 4_704, 296]);
        assert_eq!(rows[0].name, "2000-03-25..2000-03-25");
    }

    #[test]
    fn three_times_as_much_is_odd_where_it_is_100_kwh() {
        let month = Period::parse("2000-01").unwrap();
        let odd = |metered: u32, balanced: i64| {
            let difference = 1_000 * i64::from(metered) - 1_000 * balanced;
            Row::of(month, metered, difference).is_odd()
        };
        assert!(odd(1_000, 300) && odd(300, 1_000) && odd(41_230, 0) && odd(1, 101));
        assert!(!odd(900, 300) && !odd(300, 900) && !odd(0, 1_000) && !odd(100, 1));
    }
}
