//! Document 02, request (c): over and under deliveries, by equation 4.8 of source document 001. The series of the whole span is
//! made and cut at the reading periods.
use crate::calendar::is_date;
use crate::series::{accept_with, Request};
use crate::{ask, Refusal};

/// The most reading periods of a call.
pub const MOST_PERIODS: usize = 48;

/// What the deliveries are worked out from.
#[derive(Debug, Clone, Copy, PartialEq, Eq)]
pub struct Deliveries<'a> {
    /// A profile file.
    pub file: &'a [u8],
    /// The group's code.
    pub group: u8,
    /// The first date of the whole span, yyyymmdd.
    pub first: u32,
    /// Its last date, included.
    pub last: u32,
    /// The first date of each reading period. It ends the day before the next one begins, the last with the span.
    pub starts: &'a [u32],
    /// The metered kWh of each period.
    pub metered: &'a [u32],
    /// Strictly rising dates, at most 400.
    pub holidays: &'a [u32],
    /// The yearly use in kWh.
    pub yearly: u32,
}

impl<'a> Deliveries<'a> {
    /// Expanding's request for the whole span.
    fn span(&self) -> Request<'a> {
        Request {
            file: self.file,
            group: self.group,
            first: self.first,
            last: self.last,
            holidays: self.holidays,
            yearly: self.yearly,
            carry: 0,
        }
    }

    /// Questions 17 and 18.
    fn ask_periods(&self) -> Result<(), Refusal> {
        let count = self.starts.len();
        let right = (1..=MOST_PERIODS).contains(&count) && self.metered.len() == count;
        ask(right, 17, 0)?;
        for (i, &start) in self.starts.iter().enumerate() {
            let follows = match i {
                0 => start == self.first,
                _ => start > self.starts[i - 1],
            };
            ask(is_date(start) && follows && start <= self.last, 18, i)?;
        }
        Ok(())
    }
}

/// Writes metered energy minus balanced energy in Wh, one for each reading period, into the first entries of `out`: questions 1
/// to 8, 17, 18, 9, 10 and 12.
pub fn deliveries(given: &Deliveries, out: &mut [i64]) -> Result<(), Refusal> {
    let accepted = accept_with(&given.span(), || given.ask_periods())?;
    let count = given.starts.len();
    ask(out.len() >= count, 12, count)?;
    let mut series = vec![0; accepted.count()];
    accepted.expand(&mut series);

    let mut balanced = [0; MOST_PERIODS];
    let mut period = 0;
    let mut rest = &series[..];
    for day in accepted.days() {
        if given.starts.get(period + 1) == Some(&day.date()) {
            period += 1;
        }
        let (figures, behind) = rest.split_at(day.values());
        balanced[period] += figures.iter().copied().map(i64::from).sum::<i64>();
        rest = behind;
    }
    for ((difference, &metered), balanced) in out.iter_mut().zip(given.metered).zip(balanced) {
        *difference = 1_000 * i64::from(metered) - balanced;
    }
    Ok(())
}

#[cfg(test)]
mod tests {
    use super::*;

    /// Document 01's file: G0, with every value 1001.
    fn flat_file() -> Vec<u8> {
        let mut file = vec![0; 1_735];
        crate::write(&[1], &[1001; 864], &mut file).unwrap();
        file
    }

    /// The differences of days of March 2000 for 1,000 kWh a year.
    fn march(starts: &[u32], last: u32, metered: &[u32]) -> Result<Vec<i64>, Refusal> {
        let given = Deliveries {
            file: &flat_file(),
            group: 1,
            first: starts[0],
            last,
            starts,
            metered,
            holidays: &[],
            yearly: 1_000,
        };
        let mut out = vec![0; starts.len()];
        deliveries(&given, &mut out).map(|()| out)
    }

    /// 7,107 Wh in all. A carry that began anew with each day would leave 2,302 Wh for the last one.
    #[test]
    fn the_carry_runs_through_the_periods() {
        let days = [20_000_324, 20_000_325, 20_000_326];
        assert_eq!(
            march(&days, 20_000_326, &[2, 2, 2]),
            Ok(vec![-402, -402, -303])
        );
        assert_eq!(march(&days[..1], 20_000_326, &[6]), Ok(vec![-1_107]));
        assert_eq!(march(&days[1..], 20_000_326, &[2, 3]), Ok(vec![-402, 698]));
    }

    #[test]
    fn the_periods_are_asked_after_the_span_and_before_the_list() {
        let no = |number, place| Err(Refusal { number, place });
        let days = [20_000_324, 20_000_325, 20_000_326];
        assert_eq!(march(&days, 20_000_323, &[2, 2]), no(8, 0));
        assert_eq!(march(&days, 20_000_326, &[2, 2]), no(17, 0));
        assert_eq!(march(&days, 20_000_325, &[2, 2, 2]), no(18, 2));
        assert_eq!(
            march(&[days[0], 20_000_230], 20_000_326, &[2, 2]),
            no(18, 1)
        );
        assert_eq!(march(&[days[0], days[0]], 20_000_326, &[2, 2]), no(18, 1));
    }
}
