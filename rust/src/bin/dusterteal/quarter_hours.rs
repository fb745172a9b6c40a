//! The quarter hours of a day by the clock: which positions it has, and with which offset from UTC.
use std::ops::Range;

use slp::Day;

use crate::clock::QUARTERS;
use crate::date::Date;

/// The offset of the clock from UTC.
#[derive(Debug, Clone, Copy, PartialEq, Eq)]
pub enum Offset {
    /// Central European Time, +01:00.
    Winter,
    /// Central European Summer Time, +02:00.
    Summer,
}

impl Offset {
    /// As it is written.
    pub const fn text(self) -> &'static str {
        match self {
            Offset::Winter => "+01:00",
            Offset::Summer => "+02:00",
        }
    }
}

/// Positions that follow each other with the same offset.
#[derive(Debug, Clone, PartialEq, Eq)]
pub struct Part {
    /// The positions, 0 ending at 00:15.
    pub positions: Range<usize>,
    /// Their offset.
    pub offset: Offset,
}

/// A day's quarter hours in order, before and after the clock change. The value count of the proved day enquiry says whether
/// there is one: in March 02:15 to 03:00 are left out, in October they stand a second time.
pub fn parts(date: Date, day: &Day) -> Vec<Part> {
    let part = |positions, offset| Part { positions, offset };
    match day.value_count {
        92 => vec![
            part(0..8, Offset::Winter),
            part(12..QUARTERS, Offset::Summer),
        ],
        100 => vec![
            part(0..12, Offset::Summer),
            part(8..QUARTERS, Offset::Winter),
        ],
        _ => vec![part(0..QUARTERS, offset_on(date, day.weekday))],
    }
}

/// The position and the offset of each of a day's quarter hours, in order.
pub fn labels(date: Date, day: &Day) -> Vec<(usize, Offset)> {
    let parts = parts(date, day).into_iter();
    parts
        .flat_map(|part| part.positions.map(move |position| (position, part.offset)))
        .collect()
}

/// The offset of a day without a clock change: summer time is between the last Sundays of March and October.
fn offset_on(date: Date, weekday: u32) -> Offset {
    let latest_sunday = date.day() as i32 - (weekday % 7) as i32;
    let is_summer = match date.month() {
        3 => latest_sunday >= 25,
        10 => latest_sunday < 25,
        month => (4..=9).contains(&month),
    };
    if is_summer {
        Offset::Summer
    } else {
        Offset::Winter
    }
}

#[cfg(test)]
mod tests {
    use super::*;
    use crate::date::Period;

    /// Through the whole span the offset changes on the days with 92 and 100 values and on no other.
    #[test]
    fn the_offset_changes_with_the_clock() {
        let mut before = Offset::Winter;
        for date in Period::parse("1996..2099").unwrap().days() {
            let day = slp::day(date.0, &[]).unwrap();
            let parts = parts(date, &day);
            assert_eq!(parts[0].offset, before, "{date}");
            assert_eq!(parts.len() == 2, day.value_count != 96, "{date}");
            let count: usize = parts.iter().map(|part| part.positions.len()).sum();
            assert_eq!(count, day.value_count as usize, "{date}");
            before = parts[parts.len() - 1].offset;
            assert!(parts.len() == 1 || parts[0].offset != before, "{date}");
        }
        assert_eq!(before, Offset::Winter);
    }
}
