//! The quarter hours of a day and the times of their ends.

/// The quarter hours of a day without a clock change.
pub const QUARTERS: usize = 96;

/// What a time of the clock says of the quarter hours.
#[derive(Debug, Clone, Copy, PartialEq, Eq)]
pub enum Time {
    /// The end of the quarter hour at this position: 00:15 is 0, 24:00 is 95.
    Ends(usize),
    /// 00:00: the day's beginning, or the end of its last quarter hour where that is not called 24:00.
    Midnight,
    /// A time inside a quarter hour, as 02:20 or 00:15:30.
    NoQuarter,
}

/// The time at which the quarter hour at a position ends: 0 is 00:15, 95 is 24:00.
pub fn label(position: usize) -> String {
    let minutes = 15 * (position + 1);
    format!("{:02}:{:02}", minutes / 60, minutes % 60)
}

/// The time of a text as `0:15`, `00:15` or `00:15:00`.
pub fn parse(text: &str) -> Option<Time> {
    let mut parts = text.split(':');
    let hour = number(parts.next()?, 1)?;
    let minute = number(parts.next()?, 2)?;
    let second = parts.next().map_or(Some(0), |part| number(part, 2))?;
    let day_ends = (hour, minute, second) == (24, 0, 0);
    if parts.next().is_some() || hour > 23 && !day_ends || minute > 59 || second > 59 {
        return None;
    }
    let minutes = 60 * hour + minute;
    Some(match (minutes, second) {
        (0, 0) => Time::Midnight,
        (_, 0) if minutes % 15 == 0 => Time::Ends(minutes / 15 - 1),
        _ => Time::NoQuarter,
    })
}

/// The number of a text that has two digits, or `fewest` at least.
fn number(text: &str, fewest: usize) -> Option<usize> {
    let digits = (fewest..=2).contains(&text.len()) && text.bytes().all(|b| b.is_ascii_digit());
    text.parse().ok().filter(|_| digits)
}

#[cfg(test)]
mod tests {
    use super::*;

    #[test]
    fn every_label_is_the_end_of_its_position() {
        assert_eq!((label(0), label(95)), ("00:15".into(), "24:00".into()));
        for position in 0..QUARTERS {
            let label = label(position);
            assert_eq!(parse(&label), Some(Time::Ends(position)));
            assert_eq!(parse(&format!("{label}:00")), Some(Time::Ends(position)));
        }
    }

    #[test]
    fn an_hour_may_have_one_digit() {
        assert_eq!(parse("0:15"), Some(Time::Ends(0)));
        assert_eq!(parse("9:45"), Some(Time::Ends(38)));
        assert_eq!(parse("9:45:00"), Some(Time::Ends(38)));
        assert_eq!(parse("23:45"), Some(Time::Ends(94)));
        assert_eq!(parse("24:00:00"), Some(Time::Ends(95)));
    }

    #[test]
    fn midnight_is_told_apart_from_the_end_of_the_day() {
        for text in ["0:00", "00:00", "0:00:00", "00:00:00"] {
            assert_eq!(parse(text), Some(Time::Midnight), "{text}");
        }
    }

    #[test]
    fn other_times_of_the_clock_end_no_quarter_hour() {
        for text in ["02:20", "0:01", "23:59", "00:15:30", "0:00:01", "23:59:59"] {
            assert_eq!(parse(text), Some(Time::NoQuarter), "{text}");
        }
    }

    #[test]
    fn other_texts_are_no_times() {
        for text in [
            "",
            ":",
            "x",
            "1:5",
            "1",
            "15",
            "0015",
            "25:00",
            "24:15",
            "24:00:01",
            "24:01",
            "0:60",
            "0:15:60",
            "0:15:0",
            "0:15:",
            "0:15:00:00",
            "000:15",
            "0:015",
            "+1:15",
            "-1:15",
            " 0:15",
            "0:15 ",
            "0.15",
            "0:1½",
            "02:15A",
        ] {
            assert_eq!(parse(text), None, "{text:?}");
        }
    }
}
