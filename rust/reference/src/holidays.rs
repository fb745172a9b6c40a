//! The holidays of a year, document 02, request (a): the days of source document 000, step 4, found by counting days.
use crate::calendar::{day_of, month_length, Day};
use crate::{ask, Refusal};

/// The largest choice: six regional days, a bit for each.
const LARGEST_CHOICE: u8 = 63;

/// Easter Sunday by the anonymous rule in Nature, 20 April 1876, which Butcher took up in "The Ecclesiastical Calendar" (1877) and
/// Meeus prints in "Astronomical Algorithms", chapter 8, with these letters. It knows the whole Gregorian calendar.
pub fn easter(year: u32) -> u32 {
    let (a, b, c) = (year % 19, year / 100, year % 100);
    let (d, e) = (b / 4, b % 4);
    let f = (b + 8) / 25;
    let g = (b - f + 1) / 3;
    let h = (19 * a + b - d - g + 15) % 30;
    let (i, k) = (c / 4, c % 4);
    let l = (32 + 2 * e + 2 * i - h - k) % 7;
    let m = (a + 11 * h + 22 * l) / 451;
    let n = h + l + 114 - 7 * m;
    date(year, n / 31, n % 31 + 1)
}

fn date(year: u32, month: u32, day: u32) -> u32 {
    10_000 * year + 100 * month + day
}

fn day(date: u32) -> Day {
    day_of(date).expect("a date of the span")
}

/// The date of a day of the year.
fn date_at(year: u32, t: u32) -> u32 {
    let (mut month, mut left) = (1, t);
    while left > month_length(year, month) {
        left -= month_length(year, month);
        month += 1;
    }
    date(year, month, left)
}

/// The eleven days that all of Germany keeps, in the paper's order.
pub fn federal(year: u32) -> [u32; 11] {
    let easter = day(easter(year)).t;
    [
        date(year, 1, 1),
        date_at(year, easter - 2),
        date_at(year, easter),
        date_at(year, easter + 1),
        date(year, 5, 1),
        date_at(year, easter + 39),
        date_at(year, easter + 49),
        date_at(year, easter + 50),
        date(year, 10, 3),
        date(year, 12, 25),
        date(year, 12, 26),
    ]
}

/// The six days that some states keep, in the paper's order.
pub fn regional(year: u32) -> [u32; 6] {
    let easter = day(easter(year)).t;
    [
        date(year, 1, 6),
        date_at(year, easter + 60),
        date(year, 8, 15),
        date(year, 10, 31),
        date(year, 11, 1),
        repentance(year),
    ]
}

/// The Day of Repentance as the church has it: eleven days before the first Sunday of Advent, which is 21 days before the last Sunday
/// that comes before Christmas Day.
fn repentance(year: u32) -> u32 {
    let christmas = day(date(year, 12, 25));
    let first_of_advent = christmas.t - christmas.weekday - 21;
    date_at(year, first_of_advent - 11)
}

/// Writes the holidays of a year into the first entries of `list` and answers how many they are: questions 14, 15 and 16. Bits 0 to 5
/// of the choice are the regional days.
pub fn holidays(year: u32, choice: u8, list: &mut [u32]) -> Result<usize, Refusal> {
    ask((1996..=2099).contains(&year), 14, 0)?;
    ask(choice <= LARGEST_CHOICE, 15, 0)?;
    let chosen = |bit: &usize| choice >> bit & 1 == 1;
    let mut dates = federal(year).to_vec();
    let regional = regional(year);
    dates.extend((0..regional.len()).filter(chosen).map(|bit| regional[bit]));
    dates.sort();
    dates.dedup();
    let needed = dates.len();
    let filled = list.get_mut(..needed).ok_or(Refusal {
        number: 16,
        place: needed,
    })?;
    filled.copy_from_slice(&dates);
    Ok(needed)
}

#[cfg(test)]
mod tests {
    use super::*;

    /// Easter Sundays as month and day: of years around 2000 and 2025, the latest of the span, two of the table's exceptions, and 1886,
    /// where an epact of 25 is none.
    const EASTERS: [(u32, u32); 25] = [
        (1886, 425),
        (1996, 407),
        (1997, 330),
        (1998, 412),
        (1999, 404),
        (2000, 423),
        (2001, 415),
        (2002, 331),
        (2003, 420),
        (2004, 411),
        (2005, 327),
        (2008, 323),
        (2010, 404),
        (2011, 424),
        (2016, 327),
        (2018, 401),
        (2019, 421),
        (2020, 412),
        (2021, 404),
        (2024, 331),
        (2025, 420),
        (2026, 405),
        (2038, 425),
        (2049, 418),
        (2076, 419),
    ];

    #[test]
    fn known_easters() {
        for (year, day) in EASTERS {
            assert_eq!(easter(year), 10_000 * year + day);
        }
    }

    /// Easter is the Sunday after the paschal full moon, the first one from 21 March on. Full moons are those of the calendar: a
    /// golden number has the same one in every year from 1900 to 2199, as the table of the Gregorian computus has it.
    #[test]
    fn easter_is_the_sunday_after_the_paschal_full_moon() {
        const FULL_MOONS: [u32; 19] = [
            414, 403, 323, 411, 331, 418, 408, 328, 416, 405, 325, 413, 402, 322, 410, 330, 417,
            407, 327,
        ];
        for year in 1996..=2099 {
            let full_moon = day(10_000 * year + FULL_MOONS[year as usize % 19]);
            let mut days = std::iter::successors(Some(full_moon.next()), |day| Some(day.next()));
            let sunday = days.find(|day| day.weekday == 7).map(Day::date);
            assert_eq!(Some(easter(year)), sunday);
        }
    }

    /// The list of source document 000, step 4.
    #[test]
    fn the_papers_days_of_2000() {
        let federal = [101, 421, 423, 424, 501, 601, 611, 612, 1003, 1225, 1226];
        assert_eq!(super::federal(2000), federal.map(|day| 20_000_000 + day));
        let regional = [106, 622, 815, 1031, 1101, 1122];
        assert_eq!(super::regional(2000), regional.map(|day| 20_000_000 + day));
    }

    /// The request's own words: the Wednesday before 23 November.
    #[test]
    fn repentance_is_the_wednesday_before_23_november() {
        for year in 1996..=2099 {
            let date = repentance(year);
            assert_eq!(day(date).weekday, 3);
            assert!((1116..=1122).contains(&(date % 10_000)), "{date}");
        }
    }

    #[test]
    fn a_date_met_twice_is_listed_once() {
        let mut list = [7; 17];
        assert_eq!(holidays(2008, 0, &mut list), Ok(10));
        assert_eq!(list[3..6], [20_080_324, 20_080_501, 20_080_511]);
        assert_eq!(list[10..], [7; 7]);
        let twice = |year: &u32| holidays(*year, 63, &mut [0; 17]) != Ok(17);
        assert!((1996..=2099).filter(twice).eq([2008]));
    }

    #[test]
    fn the_questions_come_in_order() {
        let asked = |year, choice, length| {
            let answer = holidays(year, choice, &mut vec![7; length]);
            answer.map_err(|no| (no.number, no.place))
        };
        assert_eq!(asked(1995, 64, 0), Err((14, 0)));
        assert_eq!(asked(2100, 255, 0), Err((14, 0)));
        assert_eq!(asked(1996, 64, 0), Err((15, 0)));
        assert_eq!(asked(1996, 63, 16), Err((16, 17)));
        assert_eq!(asked(1996, 63, 17), Ok(17));
    }
}
