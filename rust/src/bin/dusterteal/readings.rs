//! A customer's readings: the first date and the metered kWh of each period, of a file as spreadsheets write it.
use std::ffi::OsStr;

use slp::MOST_PERIODS;

use crate::date::{self, Date, Period};
use crate::failure::Failure;
use crate::files::Input;
use crate::run::SaidPeriod;
use crate::sheet::{self, Fault, Line};
use crate::text::{self, is_digits, plain, quoted};

/// The columns of the file.
const COLUMNS: usize = 2;

/// What a header may call the first column, compared by letters and digits.
const DATES: [&str; 10] = [
    "date",
    "firstdate",
    "firstday",
    "from",
    "start",
    "datum",
    "erstertag",
    "von",
    "ab",
    "beginn",
];

/// What it may call the second. A meter's count (`Zählerstand`) is not among them: the energy of the period is wanted.
const ENERGIES: [&str; 13] = [
    "kwh",
    "metered",
    "meteredkwh",
    "consumptionkwh",
    "energykwh",
    "verbrauch",
    "verbrauchkwh",
    "verbrauchinkwh",
    "gemessen",
    "gemessenkwh",
    "energiekwh",
    "arbeitkwh",
    "mengekwh",
];

/// What a line has, in a message.
const LINE: &str =
    "a line has the first date of a period and its metered kWh, split by a semicolon, a tab or a comma";

/// What is said of a line with more columns.
const FIRST_TWO: &str = "save the first two columns alone";

/// What metered energy may be.
const ALLOWED: &str = "whole kWh are wanted, 0 to 4294967295, without separators";

/// A line of the file.
#[derive(Debug, Clone, PartialEq, Eq)]
pub struct Reading {
    line: usize,
    /// The period's first date.
    pub first: Date,
    /// Its metered energy in kWh.
    pub metered: u32,
}

/// The lines of a file, in its order.
#[derive(Debug)]
pub struct Readings {
    /// The file.
    pub source: Input,
    /// Its lines.
    pub list: Vec<Reading>,
}

impl Readings {
    /// The readings of a file.
    pub fn read(path: &OsStr) -> Result<Readings, Failure> {
        let source = Input::read(path)?;
        let refused = |what: String| Failure::Refused(format!("{}{what}", source.name));
        let text =
            text::decode(&source.bytes).map_err(|what| refused(format!(" is {what}; {LINE}")))?;
        let list = parse(&text).map_err(|fault| refused(format!(", {fault}")))?;
        Ok(Readings { source, list })
    }

    /// The days from the first date to the last day of the last period; without a reading that day alone.
    pub fn span(&self, until: Date) -> Period {
        Period {
            first: self.list.first().map_or(until, |reading| reading.first),
            last: until,
        }
    }

    /// What refusals call these days: by the first line.
    pub fn said(&self) -> SaidPeriod {
        let last = "--until".to_owned();
        let Some(reading) = self.list.first() else {
            return SaidPeriod::word(last);
        };
        let first = self.at(reading);
        SaidPeriod {
            whole: first.clone(),
            dates: [first, last],
        }
    }

    /// Each period, when the last one ends with a day.
    pub fn periods(&self, until: Date) -> impl Iterator<Item = Period> + '_ {
        let later = self.list.iter().skip(1);
        let ends = later.map(|reading| reading.first.previous());
        let firsts = self.list.iter().map(|reading| reading.first);
        firsts
            .zip(ends.chain([until]))
            .map(|(first, last)| Period { first, last })
    }

    /// Why question 17 refuses the readings.
    pub fn count_fault(&self) -> String {
        match self.list.get(MOST_PERIODS) {
            Some(reading) => format!(
                "{}: this is the {}th of {} periods; 1 to {MOST_PERIODS} are allowed",
                self.at(reading),
                MOST_PERIODS + 1,
                self.list.len()
            ),
            None => format!(
                "{} has no period; 1 to {MOST_PERIODS} are allowed: {LINE}",
                self.source.name
            ),
        }
    }

    /// Why question 18 refuses the first date at an index.
    pub fn first_date_fault(&self, index: usize, until: Date) -> String {
        let reading = &self.list[index];
        let first = reading.first;
        let before = index.checked_sub(1).map(|before| &self.list[before]);
        let what = match before {
            _ if !first.is_real() => first.why_not_real(),
            Some(before) if first == before.first => {
                format!("{first} stands in line {} already", before.line)
            }
            Some(before) if first < before.first => format!(
                "{first} is earlier than {} in line {}: the lines have to stand in the order of their dates, the oldest first",
                before.first, before.line
            ),
            _ => format!("{first} lies after --until {until}, the last day of the last period"),
        };
        format!("{}: {what}", self.at(reading))
    }

    /// What messages call the place of a reading.
    pub fn at(&self, reading: &Reading) -> String {
        format!("{}, line {}", self.source.name, reading.line)
    }
}

/// The readings of a text. A first line that names the columns is passed over.
fn parse(text: &str) -> Result<Vec<Reading>, Fault> {
    let sheet = sheet::read(text, COLUMNS)?;
    let lines = match sheet.lines.split_first() {
        Some((first, rest)) if is_header(first)? => rest,
        _ => &sheet.lines,
    };
    let reading = |line| reading(line, sheet.separator);
    lines.iter().map(reading).collect()
}

/// Whether a first line names the columns: so it is meant where it does not begin with a digit, as a date does.
fn is_header(line: &Line) -> Result<bool, Fault> {
    let [first, second, third] = [line.field(0), line.field(1), line.field(2)];
    if first.starts_with(|c: char| c.is_ascii_digit()) {
        return Ok(false);
    }
    if !DATES.contains(&&*plain(first)) || !ENERGIES.contains(&&*plain(second)) {
        return Err(line.fault(format!(
            "{} and {} do not name the first date and the metered kWh of a period: a header is as date;kWh or Datum;kWh (the energy of the period in kWh is wanted, not what the meter shows), and a title is a line that begins with #",
            quoted(first),
            quoted(second)
        )));
    }
    if line.width() > COLUMNS {
        let what = format!("{} is not taken: {FIRST_TWO}", quoted(third));
        return Err(line.fault_at(COLUMNS, what));
    }
    Ok(true)
}

fn reading(line: &Line, separator: char) -> Result<Reading, Fault> {
    match line.width() {
        COLUMNS => {}
        1 if line.fields.len() > 1 => {
            let what = "the metered kWh are missing; the end of the last period is said by --until";
            return Err(line.fault_at(1, what.to_owned()));
        }
        1 => return Err(line.fault(format!("1 field: {LINE}"))),
        found => {
            // A comma may be a decimal one.
            let hint = if separator == ',' { ALLOWED } else { FIRST_TWO };
            return Err(line.fault(format!("{found} fields: {LINE}; {hint}")));
        }
    }
    let [first, metered] = [line.field(0), line.field(1)];
    let no_date = || {
        let what = format!("{} is no date: write it as {}", quoted(first), date::FORMS);
        line.fault_at(0, what)
    };
    Ok(Reading {
        line: line.number,
        first: Date::parse(first).ok_or_else(no_date)?,
        metered: kilowatt_hours(metered)
            .map_err(|what| line.fault_at(1, format!("{} {what}; {ALLOWED}", quoted(metered))))?,
    })
}

/// The whole kWh of a field. The error follows the field.
fn kilowatt_hours(field: &str) -> Result<u32, &'static str> {
    if is_digits(field) {
        return field.parse().map_err(|_| "is too large");
    }
    let has_parts = |number: &str| number.split([',', '.']).all(is_digits);
    Err(match field.strip_prefix('-') {
        Some(number) if has_parts(number) => "is negative",
        _ if has_parts(field) => "has decimals or a thousands separator",
        _ => "is no number",
    })
}

#[cfg(test)]
mod tests {
    use super::*;

    fn readings(text: &str) -> Readings {
        let source = Input {
            path: "a.csv".into(),
            name: "a.csv".into(),
            bytes: text.into(),
        };
        let list = parse(text).expect(text);
        Readings { source, list }
    }

    fn parsed(text: &str) -> Vec<(usize, u32, u32)> {
        let list = readings(text).list.into_iter();
        list.map(|reading| (reading.line, reading.first.0, reading.metered))
            .collect()
    }

    fn fault_of(text: &str) -> String {
        parse(text).unwrap_err().to_string()
    }

    #[test]
    fn a_line_has_a_date_and_kilowatt_hours() {
        let both = [(1, 20_000_101, 300), (2, 20_000_201, 280)];
        for text in [
            "2000-01-01;300\n2000-02-01;280\n",
            "01.01.2000\t300\r\n1.2.2000\t0280",
            "2000-01-01,300\n\"2000-02-01\",\"280\"\n",
            "2000-01-01; 300 ;\n 2000-02-01 ;280;;\n",
        ] {
            assert_eq!(parsed(text), both, "{text:?}");
        }
        assert_eq!(parsed("1.1.2000;0\n1.2.2000;4294967295")[1].2, u32::MAX);
        assert_eq!(parsed(""), []);
    }

    #[test]
    fn headers_remarks_and_empty_lines_are_passed_over() {
        for header in [
            "date;kWh",
            "Datum;kWh",
            "First date;metered [kWh]",
            "von;Verbrauch in kWh",
            "\"Datum\";\"Verbrauch (kWh)\"",
            "DATUM;KWH",
        ] {
            let text = format!("# a;b\n\n{header}\n# c\n;;\n2000-01-01;300\n");
            assert_eq!(parsed(&text), [(6, 20_000_101, 300)], "{text:?}");
        }
        assert_eq!(parsed("sep=,\ndate,kWh\n2000-01-01,300").len(), 1);
        assert_eq!(parsed("Datum;kWh\n"), []);
    }

    #[test]
    fn a_header_names_both_columns() {
        for (header, first, second) in [
            ("Datum;Zählerstand", "Datum", "Zählerstand"),
            ("date;Wh", "date", "Wh"),
            ("date;MWh", "date", "MWh"),
            ("kWh;date", "kWh", "date"),
            ("Datum", "Datum", ""),
            ("Verbrauch Kunde 4711", "Verbrauch Kunde 4711", ""),
        ] {
            assert_eq!(
                fault_of(&format!("{header}\n2000-01-01;300")),
                format!("line 1: {first:?} and {second:?} do not name the first date and the metered kWh of a period: a header is as date;kWh or Datum;kWh (the energy of the period in kWh is wanted, not what the meter shows), and a title is a line that begins with #")
            );
        }
        assert_eq!(
            fault_of("von;kWh;Bemerkung\n2000-01-01;300"),
            "line 1, column 3: \"Bemerkung\" is not taken: save the first two columns alone"
        );
        assert!(
            fault_of("2000-01-01;1\ndate;kWh").starts_with("line 2, column 1: \"date\" is no date")
        );
    }

    #[test]
    fn what_is_no_date_and_what_is_no_whole_number_is_named() {
        assert_eq!(
            fault_of("2000-01-01;1\n\n2000-1-2;1"),
            "line 3, column 1: \"2000-1-2\" is no date: write it as 2026-03-26 or 26.03.2026"
        );
        for (field, what) in [
            ("300,5", "has decimals or a thousands separator"),
            ("300.0", "has decimals or a thousands separator"),
            ("1.234.567", "has decimals or a thousands separator"),
            ("-3", "is negative"),
            ("-3,5", "is negative"),
            ("4294967296", "is too large"),
            ("99999999999999999999", "is too large"),
            ("+3", "is no number"),
            ("3 kWh", "is no number"),
            ("1 234", "is no number"),
            (",5", "is no number"),
            ("x", "is no number"),
        ] {
            assert_eq!(
                fault_of(&format!("2000-01-01;{field}")),
                format!("line 1, column 2: {field:?} {what}; whole kWh are wanted, 0 to 4294967295, without separators")
            );
        }
    }

    #[test]
    fn fields_that_are_missing_or_too_many_are_counted() {
        assert_eq!(fault_of("2000-01-01"), format!("line 1: 1 field: {LINE}"));
        assert_eq!(
            fault_of("2000-01-01;1\n2000-02-01 280"),
            format!("line 2: 1 field: {LINE}")
        );
        assert_eq!(
            fault_of("2000-01-01,300,5"),
            format!("line 1: 3 fields: {LINE}; {ALLOWED}")
        );
        assert_eq!(
            fault_of("2000-01-01;300;ok"),
            format!("line 1: 3 fields: {LINE}; {FIRST_TWO}")
        );
        assert_eq!(
            fault_of("2000-01-01;1\n2000-01-31;"),
            "line 2, column 2: the metered kWh are missing; the end of the last period is said by --until"
        );
    }

    #[test]
    fn a_period_ends_the_day_before_the_next() {
        let periods = |text: &str| {
            let readings = readings(text);
            let periods = readings.periods(Date(20_000_331));
            periods.map(|period| period.to_string()).collect::<Vec<_>>()
        };
        assert_eq!(
            periods("2000-01-15;1\n2000-02-01;1\n2000-03-01;1"),
            [
                "2000-01-15..2000-01-31",
                "2000-02-01..2000-02-29",
                "2000-03-01..2000-03-31"
            ]
        );
        assert_eq!(periods("2000-03-31;1"), ["2000-03-31..2000-03-31"]);
        assert_eq!(periods(""), [""; 0]);
    }

    #[test]
    fn a_first_date_that_is_refused_is_told_by_its_fault() {
        let fault = |second: &str| {
            let text = format!("date;kWh\n2000-02-01;1\n{second};1");
            readings(&text).first_date_fault(1, Date(20_000_331))
        };
        assert_eq!(
            fault("2000-02-30"),
            "a.csv, line 3: 2000-02-30 does not exist: February 2000 has 29 days"
        );
        assert_eq!(
            fault("2000-02-01"),
            "a.csv, line 3: 2000-02-01 stands in line 2 already"
        );
        assert_eq!(fault("2000-01-01"), "a.csv, line 3: 2000-01-01 is earlier than 2000-02-01 in line 2: the lines have to stand in the order of their dates, the oldest first");
        assert_eq!(fault("2000-04-01"), "a.csv, line 3: 2000-04-01 lies after --until 2000-03-31, the last day of the last period");
    }
}
