//! The first line of a list that the tool writes: which days it has, for the reader and for the run that reads it.
use slp::RegionalDay;

use crate::date::{Date, Period};
use crate::regional;

/// How it begins.
const BEGINNING: &str = "# German holidays from ";

/// The first line of a period's list with these regional days.
pub fn line(Period { first, last }: Period, days: &[RegionalDay]) -> String {
    let which = regional::german(days);
    format!("{BEGINNING}{first} to {last}, as --holidays {which} works them out\n")
}

/// The periods whose days a text says that it has; several where lists were put together.
pub fn periods(text: &str) -> Vec<Period> {
    text.lines().filter_map(period).collect()
}

fn period(line: &str) -> Option<Period> {
    let (period, _) = line.strip_prefix(BEGINNING)?.split_once(", ")?;
    let (first, last) = period.split_once(" to ")?;
    Some(Period {
        first: Date::parse(first)?,
        last: Date::parse(last)?,
    })
}

#[cfg(test)]
mod tests {
    use super::*;

    #[test]
    fn what_is_written_is_read() {
        let period = |text| Period::parse(text).unwrap();
        let quarter = line(period("2026-Q2"), &[RegionalDay::Epiphany]);
        assert_eq!(
            quarter,
            "# German holidays from 2026-04-01 to 2026-06-30, as --holidays german:epiphany works them out\n"
        );
        let year = line(period("2027"), &[]);
        let text = format!("{quarter}2026-05-01\r\n# 2028\n{year}2027-01-01\n");
        assert_eq!(periods(&text), [period("2026-Q2"), period("2027")]);
    }

    #[test]
    fn other_remarks_say_nothing_of_a_period() {
        for text in [
            "",
            "# Holidays from 2026-04-01 to 2026-06-30, ",
            "# German holidays from 2026 to 2027, ",
            "# German holidays from 2026-04-01 to 2026-06-30",
        ] {
            assert_eq!(periods(text), []);
        }
    }
}
