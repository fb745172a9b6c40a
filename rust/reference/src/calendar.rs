//! The calendar: dates, seasons, day types, clock changes, the list of holidays and the day enquiry.
use std::ops::Range;

use crate::{ask, Refusal};

const LENGTHS: [u32; 12] = [31, 28, 31, 30, 31, 30, 31, 31, 30, 31, 30, 31];

/// The most dates that a list of holidays holds.
const MOST_HOLIDAYS: usize = 400;

pub(crate) fn month_length(year: u32, month: u32) -> u32 {
    if month == 2 && year % 4 == 0 {
        29
    } else {
        LENGTHS[month as usize - 1]
    }
}

/// 1 Monday to 7 Sunday, by Sakamoto's rule, which knows the whole Gregorian calendar.
fn weekday_of(year: u32, month: u32, day: u32) -> u32 {
    let shift = [0, 3, 2, 5, 0, 3, 5, 1, 4, 6, 2, 4][month as usize - 1];
    let year = if month < 3 { year - 1 } else { year };
    match (year + year / 4 - year / 100 + year / 400 + shift + day) % 7 {
        0 => 7,
        weekday => weekday,
    }
}

/// A season of the profiles; the numbers are their order in the file.
#[derive(Debug, Clone, Copy, PartialEq, Eq, PartialOrd, Ord)]
pub enum Season {
    /// 1 November to 20 March.
    Winter = 0,
    /// 15 May to 14 September.
    Summer = 1,
    /// The rest of the year.
    Transition = 2,
}

/// A day type of the profiles; the numbers are their order in the file.
#[derive(Debug, Clone, Copy, PartialEq, Eq, PartialOrd, Ord)]
pub enum DayType {
    /// Monday to Friday, where nothing else is said.
    Weekday = 0,
    /// Saturdays, 24 and 31 December, where nothing else is said.
    Saturday = 1,
    /// Sundays and listed holidays.
    Sunday = 2,
}

/// A day of the span from 1996-01-01 to 2099-12-31.
#[derive(Debug, Clone, Copy, PartialEq, Eq)]
pub struct Day {
    /// 1996 to 2099.
    pub year: u32,
    /// 1 to 12.
    pub month: u32,
    /// 1 to 31.
    pub day: u32,
    /// 1 Monday to 7 Sunday.
    pub weekday: u32,
    /// The day of the year, from 1.
    pub t: u32,
    /// Days since 1 January 1996.
    pub number: u32,
}

/// Whether a number yyyymmdd is a date of the span.
pub fn is_date(date: u32) -> bool {
    let (year, month, day) = (date / 10_000, date / 100 % 100, date % 100);
    (1996..=2099).contains(&year)
        && (1..=12).contains(&month)
        && (1..=month_length(year, month)).contains(&day)
}

/// The day of a date of the span.
pub fn day_of(date: u32) -> Option<Day> {
    if !is_date(date) {
        return None;
    }
    let (year, month, day) = (date / 10_000, date / 100 % 100, date % 100);
    let t = (1..month).map(|m| month_length(year, m)).sum::<u32>() + day;
    let years = year - 1996;
    Some(Day {
        year,
        month,
        day,
        weekday: weekday_of(year, month, day),
        t,
        number: 365 * years + years.div_ceil(4) + t - 1,
    })
}

/// All days of the span.
pub fn span() -> impl Iterator<Item = Day> {
    let days = std::iter::successors(day_of(19_960_101), |day| Some(day.next()));
    days.take_while(|day| day.year <= 2099)
}

impl Day {
    /// The date yyyymmdd.
    pub fn date(self) -> u32 {
        10_000 * self.year + 100 * self.month + self.day
    }

    /// The day after.
    pub fn next(self) -> Day {
        let mut next = Day {
            day: self.day + 1,
            weekday: self.weekday % 7 + 1,
            t: self.t + 1,
            number: self.number + 1,
            ..self
        };
        if next.day > month_length(self.year, self.month) {
            next.day = 1;
            next.month += 1;
        }
        if next.month > 12 {
            next.month = 1;
            next.year += 1;
            next.t = 1;
        }
        next
    }

    /// The season.
    pub fn season(self) -> Season {
        match 100 * self.month + self.day {
            1101.. | ..=320 => Season::Winter,
            515..=914 => Season::Summer,
            _ => Season::Transition,
        }
    }

    /// The day type, with a list of holidays that is in order.
    pub fn day_type(self, holidays: &[u32]) -> DayType {
        let is_eve = self.month == 12 && (self.day == 24 || self.day == 31);
        if self.weekday == 7 || holidays.binary_search(&self.date()).is_ok() {
            DayType::Sunday
        } else if self.weekday == 6 || is_eve {
            DayType::Saturday
        } else {
            DayType::Weekday
        }
    }

    /// The positions of the day's quarter hours, up to the place of the clock change and from there on. March and October both
    /// have 31 days, so their last Sunday is the one from the 25th on.
    pub fn positions(self) -> [Range<usize>; 2] {
        let last_sunday = self.weekday == 7 && self.day >= 25;
        match self.month {
            3 if last_sunday => [0..8, 12..96],
            10 if last_sunday => [0..12, 8..96],
            _ => [0..12, 12..96],
        }
    }

    /// How many quarter hours the day has: 92, 96 or 100.
    pub fn values(self) -> usize {
        self.positions().iter().map(Range::len).sum()
    }
}

/// Question 7 for one date.
pub(crate) fn real(date: u32, place: usize) -> Result<Day, Refusal> {
    day_of(date).ok_or(Refusal { number: 7, place })
}

/// Question 9.
pub(crate) fn ask_list(holidays: &[u32]) -> Result<(), Refusal> {
    for (i, &date) in holidays.iter().enumerate() {
        let rises = i == 0 || date > holidays[i - 1];
        ask(i < MOST_HOLIDAYS && rises && is_date(date), 9, i)?;
    }
    Ok(())
}

/// What the day enquiry says.
#[derive(Debug, Clone, Copy, PartialEq, Eq)]
pub struct DayAnswer {
    /// 1 Monday to 7 Sunday.
    pub weekday: u32,
    /// The day of the year, from 1.
    pub t: u32,
    /// The season.
    pub season: Season,
    /// The day type.
    pub day_type: DayType,
    /// How many quarter hours the day has.
    pub values: usize,
}

/// The day enquiry: questions 7 and 9.
pub fn day(date: u32, holidays: &[u32]) -> Result<DayAnswer, Refusal> {
    let day = real(date, 0)?;
    ask_list(holidays)?;
    Ok(DayAnswer {
        weekday: day.weekday,
        t: day.t,
        season: day.season(),
        day_type: day.day_type(holidays),
        values: day.values(),
    })
}

#[cfg(test)]
mod tests {
    use super::*;
    use DayType::{Saturday, Sunday, Weekday};
    use Season::{Summer, Transition, Winter};

    fn of(date: u32) -> DayAnswer {
        day(date, &[]).unwrap()
    }

    /// Document 01's marked days.
    #[test]
    fn the_marked_days() {
        let seasons = |dates: [u32; 2]| dates.map(|date| of(date).season);
        assert_eq!(seasons([20_000_320, 20_000_321]), [Winter, Transition]);
        assert_eq!(seasons([20_000_514, 20_000_515]), [Transition, Summer]);
        assert_eq!(seasons([20_000_914, 20_000_915]), [Summer, Transition]);
        assert_eq!(seasons([20_001_031, 20_001_101]), [Transition, Winter]);
        assert_eq!((of(20_000_229).weekday, of(20_000_229).t), (2, 60));
        let kind = |date| (of(date).weekday, of(date).season, of(date).day_type);
        assert_eq!(kind(19_991_224), (5, Winter, Saturday));
        assert_eq!(kind(20_001_231), (7, Winter, Sunday));
        assert_eq!(of(20_000_326).values, 92);
        assert_eq!(of(20_001_029).values, 100);
        let year = span().filter(|day| day.year == 2000);
        assert_eq!(year.map(Day::values).sum::<usize>(), 35_136);
    }

    /// Day after day gives what each date gives by itself, the weekday by Sakamoto's rule included.
    #[test]
    fn the_span_goes_on_day_by_day() {
        for (i, day) in span().enumerate() {
            assert_eq!(day_of(day.date()), Some(day));
            assert_eq!(day.number as usize, i);
        }
        assert_eq!(span().count(), 37_986);
        assert_eq!(span().last().map(Day::date), Some(20_991_231));
    }

    #[test]
    fn no_other_number_is_a_date() {
        let dates = (0..30_000_000).filter(|&number| is_date(number));
        assert!(dates.eq(span().map(Day::date)));
        assert!(!is_date(u32::MAX));
    }

    /// The order in which the day type is settled, and the marked days of document 02, (b).
    #[test]
    fn a_listed_date_is_a_sunday_also_at_the_years_end() {
        let listed = |date| day(date, &[date]).unwrap().day_type;
        assert_eq!(
            (of(20_000_103).day_type, listed(20_000_103)),
            (Weekday, Sunday)
        );
        assert_eq!(
            (of(20_000_101).day_type, listed(20_000_101)),
            (Saturday, Sunday)
        );
        assert_eq!(listed(20_000_102), Sunday);
        for eve in [19_991_224, 19_991_231] {
            assert_eq!((of(eve).day_type, listed(eve)), (Saturday, Sunday));
        }
        let other = day(19_991_231, &[19_991_224]).unwrap().day_type;
        assert_eq!(other, Saturday);
        assert_eq!(
            (of(20_001_224).day_type, listed(20_001_224)),
            (Sunday, Sunday)
        );
        assert_eq!(listed(19_991_225), Sunday);
    }

    #[test]
    fn a_list_is_in_order_and_has_at_most_400_dates() {
        let dates: Vec<u32> = span().map(Day::date).take(401).collect();
        let refused = |list: &[u32]| day(20_000_101, list).err().map(|no| (no.number, no.place));
        assert_eq!(refused(&dates[..400]), None);
        assert_eq!(refused(&dates), Some((9, 400)));
        assert_eq!(refused(&[dates[1], dates[1]]), Some((9, 1)));
        assert_eq!(refused(&[dates[1], dates[0]]), Some((9, 1)));
        assert_eq!(refused(&[20_000_230]), Some((9, 0)));
        assert_eq!(
            day(20_000_230, &dates),
            Err(Refusal {
                number: 7,
                place: 0
            })
        );
    }
}
