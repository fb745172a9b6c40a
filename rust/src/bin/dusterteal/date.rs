//! Dates and periods as the user writes them. Which dates are real is left to the proved day enquiry.
use std::fmt;

use crate::text::is_digits;

/// The number yyyymmdd of a date, real or not.
#[derive(Debug, Clone, Copy, PartialEq, Eq, PartialOrd, Ord)]
pub struct Date(pub u32);

const MONTHS: [&str; 12] = [
    "January",
    "February",
    "March",
    "April",
    "May",
    "June",
    "July",
    "August",
    "September",
    "October",
    "November",
    "December",
];

/// What a message says are the forms of a date.
pub const FORMS: &str = "2026-03-26 or 26.03.2026";

/// What a message says are the forms of a period.
pub const PERIOD_FORMS: &str =
    "2026, 2026-Q2, 2026-03, 2026-03-26, 26.03.2026 or 2026-01-15..2026-02-14, with two points between";

impl Date {
    /// The date of a year, month and day, each of which may be out of range.
    pub fn new(year: u32, month: u32, day: u32) -> Date {
        Date(10_000 * year + 100 * month + day)
    }

    /// The date of a text yyyy-mm-dd or dd.mm.yyyy.
    pub fn parse(text: &str) -> Option<Date> {
        let dashes: Vec<&str> = text.split('-').collect();
        let points: Vec<&str> = text.split('.').collect();
        match (&dashes[..], &points[..]) {
            ([year, month, day], _) => Some(Date::new(
                digits(year, 4, 4)?,
                digits(month, 2, 2)?,
                digits(day, 2, 2)?,
            )),
            (_, [day, month, year]) => Some(Date::new(
                digits(year, 4, 4)?,
                digits(month, 1, 2)?,
                digits(day, 1, 2)?,
            )),
            _ => None,
        }
    }

    /// The year.
    pub fn year(self) -> u32 {
        self.0 / 10_000
    }

    /// The month, from 1.
    pub fn month(self) -> u32 {
        self.0 / 100 % 100
    }

    /// The day of the month, from 1.
    pub fn day(self) -> u32 {
        self.0 % 100
    }

    /// Whether it is a date from 1996 to 2099.
    pub fn is_real(self) -> bool {
        slp::day(self.0, &[]).is_ok()
    }

    /// The day after a real date; after the last of the span a number that is no date.
    pub fn next(self) -> Date {
        let tomorrow = Date(self.0 + 1);
        let next_month = Date::new(self.year(), self.month() + 1, 1);
        let next_year = Date::new(self.year() + 1, 1, 1);
        let mut candidates = [tomorrow, next_month].into_iter();
        candidates.find(|date| date.is_real()).unwrap_or(next_year)
    }

    /// The day before a real date that is not the first of the span.
    pub fn previous(self) -> Date {
        match (self.month(), self.day()) {
            (1, 1) => Date::new(self.year() - 1, 12, 31),
            (month, 1) => last_of_month(self.year(), month - 1),
            _ => Date(self.0 - 1),
        }
    }

    /// How many days lie from a real date to a later one, both included.
    pub fn days_to(self, last: Date) -> u32 {
        let t = |date: Date| slp::day(date.0, &[]).map_or(0, |day| day.t);
        let years: u32 = (self.year()..last.year())
            .map(|year| t(Date::new(year, 12, 31)))
            .sum();
        years + t(last) + 1 - t(self)
    }

    /// Why a date is not real, in words that name it.
    pub fn why_not_real(self) -> String {
        let (year, month, day) = (self.year(), self.month(), self.day());
        if !(1996..=2099).contains(&year) {
            return format!("{self} lies outside 1996-01-01 to 2099-12-31");
        }
        let Some(name) = MONTHS.get((month as usize).wrapping_sub(1)) else {
            return format!("{self} does not exist: the months are 01 to 12");
        };
        match day {
            0 => format!("{self} does not exist: the days of a month begin with 01"),
            _ => format!(
                "{self} does not exist: {name} {year} has {} days",
                last_of_month(year, month).day()
            ),
        }
    }
}

impl fmt::Display for Date {
    fn fmt(&self, f: &mut fmt::Formatter) -> fmt::Result {
        write!(
            f,
            "{:04}-{:02}-{:02}",
            self.year(),
            self.month(),
            self.day()
        )
    }
}

/// The number of a text of decimal digits, so many of them.
fn digits(text: &str, least: usize, most: usize) -> Option<u32> {
    let right = is_digits(text) && (least..=most).contains(&text.len());
    right.then(|| text.parse().ok()).flatten()
}

/// The last day of a month. Where the month is not one of the span, no day is real, and it is the 31st.
fn last_of_month(year: u32, month: u32) -> Date {
    let days = [31, 30, 29, 28].map(|day| Date::new(year, month, day));
    days.into_iter()
        .find(|date| date.is_real())
        .unwrap_or(days[0])
}

/// A first and a last date, real or not, in order or not.
#[derive(Debug, Clone, Copy, PartialEq, Eq)]
pub struct Period {
    /// The first day.
    pub first: Date,
    /// The last day, included.
    pub last: Date,
}

impl Period {
    /// The period of a text: a year, a quarter, a month, a day, or two of them with `..` between.
    pub fn parse(text: &str) -> Option<Period> {
        match text.split_once("..") {
            Some((first, last)) => Some(Period {
                first: span(first)?.first,
                last: span(last)?.last,
            }),
            None => span(text),
        }
    }

    /// One day.
    pub fn day(date: Date) -> Period {
        Period {
            first: date,
            last: date,
        }
    }

    /// The days of a period whose dates are real.
    pub fn days(self) -> impl Iterator<Item = Date> {
        let days = std::iter::successors(Some(self.first), |date| Some(date.next()));
        days.take_while(move |date| *date <= self.last)
    }

    /// Whether a date lies in the period.
    pub fn contains(self, date: Date) -> bool {
        (self.first..=self.last).contains(&date)
    }

    /// Whether it begins with a year and ends with one.
    pub fn is_whole_years(self) -> bool {
        self.first.0 % 10_000 == 101 && self.last.0 % 10_000 == 1231
    }

    /// Its years.
    pub fn years(self) -> impl Iterator<Item = u32> {
        self.first.year()..=self.last.year()
    }
}

impl fmt::Display for Period {
    fn fmt(&self, f: &mut fmt::Formatter) -> fmt::Result {
        write!(f, "{}..{}", self.first, self.last)
    }
}

/// The period of a year, a quarter, a month or a day.
fn span(text: &str) -> Option<Period> {
    if let Some(date) = Date::parse(text) {
        return Some(Period::day(date));
    }
    let (year, part) = match text.split_once('-') {
        Some((year, part)) => (digits(year, 4, 4)?, Some(part)),
        None => (digits(text, 4, 4)?, None),
    };
    let (first, last) = match part {
        None => (1, 12),
        Some(part) => match part.strip_prefix(['Q', 'q']) {
            Some(quarter) => {
                let quarter = digits(quarter, 1, 1).filter(|quarter| (1..=4).contains(quarter))?;
                (3 * quarter - 2, 3 * quarter)
            }
            None => {
                let month = digits(part, 2, 2)?;
                (month, month)
            }
        },
    };
    Some(Period {
        first: Date::new(year, first, 1),
        last: last_of_month(year, last),
    })
}

#[cfg(test)]
mod tests {
    use super::*;

    #[test]
    fn dates_are_written_in_two_ways() {
        assert_eq!(Date::parse("2000-03-26"), Some(Date(20_000_326)));
        assert_eq!(Date::parse("26.03.2000"), Some(Date(20_000_326)));
        assert_eq!(Date::parse("1.1.2000"), Some(Date(20_000_101)));
        assert_eq!(Date::parse("9999-99-99"), Some(Date(99_999_999)));
        for text in [
            "",
            "2000-1-1",
            "2000-01-011",
            "20000101",
            "2000/01/01",
            "2000-01-0x",
            "+200-01-01",
            "２000-01-01",
            "1.1.00",
            "1.1.",
            "001.1.2000",
            "2000.01.01",
            "1. 1. 2000",
            "2000-01-01-01",
        ] {
            assert_eq!(Date::parse(text), None, "{text:?}");
        }
    }

    fn dates(text: &str) -> Option<(u32, u32)> {
        Period::parse(text).map(|period| (period.first.0, period.last.0))
    }

    #[test]
    fn a_period_is_a_year_a_quarter_a_month_a_day_or_two_of_them() {
        for (text, first, last) in [
            ("2026", 20_260_101, 20_261_231),
            ("2026-Q1", 20_260_101, 20_260_331),
            ("2026-Q2", 20_260_401, 20_260_630),
            ("2026-q3", 20_260_701, 20_260_930),
            ("2026-Q4", 20_261_001, 20_261_231),
            ("2026-02", 20_260_201, 20_260_228),
            ("2028-02", 20_280_201, 20_280_229),
            ("2026-04", 20_260_401, 20_260_430),
            ("2026-03-26", 20_260_326, 20_260_326),
            ("26.03.2026", 20_260_326, 20_260_326),
            ("2026-01-15..2026-02-14", 20_260_115, 20_260_214),
            ("15.01.2026..14.02.2026", 20_260_115, 20_260_214),
            ("2026..2027-Q1", 20_260_101, 20_270_331),
        ] {
            assert_eq!(dates(text), Some((first, last)), "{text:?}");
        }
        for text in [
            "",
            "26",
            "2026-Q5",
            "2026-Q0",
            "2026-Q",
            "2026-3",
            "2026-01-15..",
            "..",
            "2026-01-15-2026-02-14",
            "x",
        ] {
            assert_eq!(dates(text), None, "{text:?}");
        }
    }

    #[test]
    fn what_is_written_of_a_period_is_read() {
        for (text, written) in [
            ("2000-02", "2000-02-01..2000-02-29"),
            ("26.03.2000", "2000-03-26..2000-03-26"),
        ] {
            let period = Period::parse(text).unwrap();
            assert_eq!(period.to_string(), written);
            assert_eq!(Period::parse(written), Some(period));
        }
    }

    /// What is not real goes to the proved calls as it stands.
    #[test]
    fn unreal_dates_are_kept() {
        assert_eq!(dates("2026-13"), Some((20_261_301, 20_261_331)));
        assert_eq!(dates("1995"), Some((19_950_101, 19_951_231)));
        assert_eq!(dates("2026-02-30"), Some((20_260_230, 20_260_230)));
    }

    #[test]
    fn day_follows_day_through_the_span() {
        let whole = Period::parse("1996..2099").unwrap();
        assert_eq!(whole.days().count(), 37_986);
        assert!(whole.days().all(Date::is_real));
        assert_eq!(whole.first.days_to(whole.last), 37_986);
        assert!(whole
            .days()
            .skip(1)
            .all(|date| date.previous().next() == date));
        assert_eq!(Date(20_991_231).next(), Date(21_000_101));
    }

    #[test]
    fn days_are_counted_with_both_ends() {
        let count = |text| {
            let period = Period::parse(text).unwrap();
            period.first.days_to(period.last)
        };
        assert_eq!(count("2000-03-26"), 1);
        assert_eq!(count("2000"), 366);
        assert_eq!(count("2000-12-31..2001-01-01"), 2);
        assert_eq!(count("2000..2003"), 1_461);
    }

    #[test]
    fn why_a_date_is_not_real() {
        let why = |number| Date(number).why_not_real();
        assert_eq!(
            why(20_000_230),
            "2000-02-30 does not exist: February 2000 has 29 days"
        );
        assert_eq!(
            why(20_010_229),
            "2001-02-29 does not exist: February 2001 has 28 days"
        );
        assert_eq!(
            why(20_001_301),
            "2000-13-01 does not exist: the months are 01 to 12"
        );
        assert_eq!(
            why(20_000_001),
            "2000-00-01 does not exist: the months are 01 to 12"
        );
        assert_eq!(
            why(20_000_100),
            "2000-01-00 does not exist: the days of a month begin with 01"
        );
        assert_eq!(
            why(19_951_231),
            "1995-12-31 lies outside 1996-01-01 to 2099-12-31"
        );
    }
}
