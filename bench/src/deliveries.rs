//! The fast baseline for over and under deliveries. Nothing is stored: the figures of a period add up to what the quotient of the sum so
//! far grows by, so that each period has one division, of the sum of all powers times the yearly use, which fits 64 bits.
use reference::calendar::day_of;
use slp::{Deliveries, Group, Refusal, RefusalKind, MOST_PERIODS};

use crate::day_sums;
use crate::days::{Days, Laid};
use crate::fast::{self, refuse, Opened};

/// Questions 17 and 18: the day number at which each period begins, and behind them that at which the last one ends.
fn check_periods(given: &Deliveries, opened: &Opened) -> Result<[u32; MOST_PERIODS + 1], Refusal> {
    let count = given.starts.len();
    if count == 0 || count > MOST_PERIODS || given.metered.len() != count {
        return refuse(RefusalKind::WrongReadings, 0);
    }
    let mut numbers = [0; MOST_PERIODS + 1];
    let mut least = opened.first.number;
    for (i, (number, &start)) in numbers.iter_mut().zip(given.starts).enumerate() {
        let day = day_of(start).filter(|day| {
            let begins = i > 0 || day.number == opened.first.number;
            begins && (least..=opened.last.number).contains(&day.number)
        });
        let Some(day) = day else {
            return refuse(RefusalKind::BadFirstDate, i);
        };
        *number = day.number;
        least = day.number + 1;
    }
    numbers[count] = opened.last.number + 1;
    Ok(numbers)
}

pub fn deliveries(given: &Deliveries, out: &mut [i64]) -> Result<(), Refusal> {
    let opened = fast::open(given.file, given.group, given.first, given.last)?;
    let numbers = check_periods(given, &opened)?;
    fast::check_basis(given.holidays, given.yearly)?;
    let count = given.starts.len();
    let Some(out) = out.get_mut(..count) else {
        return refuse(RefusalKind::ShortOutput, count);
    };
    let days = Days::new(opened.first, opened.last, given.holidays);
    let values = day_sums::values_of(opened.tables);
    let settle = Settle {
        out,
        given,
        numbers,
    };
    match given.group {
        Group::H0 => settle.by(days, day_sums::of_households(&values)),
        _ => settle.by(days, day_sums::of_others(&values)),
    }
    Ok(())
}

/// An accepted call.
struct Settle<'a, 'b> {
    out: &'b mut [i64],
    given: &'b Deliveries<'a>,
    numbers: [u32; MOST_PERIODS + 1],
}

impl Settle<'_, '_> {
    /// Writes the differences, with what a day's powers add up to.
    fn by(self, mut days: Days, of_day: impl Fn(&Laid) -> u64) {
        let (mut sum, mut before) = (0, 0);
        let bounds = self.numbers.windows(2);
        let metered = self.given.metered;
        for ((difference, bounds), &metered) in self.out.iter_mut().zip(bounds).zip(metered) {
            let length = (bounds[1] - bounds[0]) as usize;
            let powers: u64 = days.by_ref().take(length).map(|day| of_day(&day)).sum();
            sum += powers * u64::from(self.given.yearly);
            let after = sum / 40_000;
            *difference = 1_000 * i64::from(metered) - (after - before) as i64;
            before = after;
        }
    }
}
