//! Series and carry: expanding.
use crate::calendar::{self, Day};
use crate::dynamisation::{factor, power, HOUSEHOLDS};
use crate::file::{group_bytes, values_of, DAY_VALUES};
use crate::{ask, Refusal};

/// The days of the longest period.
pub const MOST_DAYS: u32 = 1_461;

/// The largest yearly use in kWh.
pub const LARGEST_USE: u32 = 1_000_000_000;

/// The carry's units in a Wh.
pub const CARRY_UNITS: u32 = 40_000;

/// What expanding is given beside its output.
#[derive(Debug, Clone, Copy, PartialEq, Eq)]
pub struct Request<'a> {
    /// A profile file.
    pub file: &'a [u8],
    /// The group's code.
    pub group: u8,
    /// The first date, yyyymmdd.
    pub first: u32,
    /// The last date, included.
    pub last: u32,
    /// Strictly rising dates, at most 400.
    pub holidays: &'a [u32],
    /// The yearly use in kWh.
    pub yearly: u32,
    /// The carry in 1/40,000 Wh.
    pub carry: u32,
}

/// What expanding answers.
#[derive(Debug, Clone, Copy, PartialEq, Eq)]
pub struct Expansion {
    /// How many figures the series has.
    pub count: usize,
    /// Their sum in Wh.
    pub total: u64,
    /// The last carry.
    pub carry: u32,
}

/// A request that passed questions 1 to 11.
pub(crate) struct Accepted<'a> {
    request: Request<'a>,
    /// The group's value bytes.
    bytes: &'a [u8],
    first: Day,
    days: u32,
}

/// Questions 1 to 11.
pub(crate) fn accept<'a>(request: &Request<'a>) -> Result<Accepted<'a>, Refusal> {
    accept_with(request, || Ok(()))
}

/// Questions 1 to 11, and those that a later request asks after 8.
pub(crate) fn accept_with<'a>(
    request: &Request<'a>,
    ask_after_8: impl FnOnce() -> Result<(), Refusal>,
) -> Result<Accepted<'a>, Refusal> {
    let bytes = group_bytes(request.file, request.group)?;
    let first = calendar::real(request.first, 0)?;
    let last = calendar::real(request.last, 1)?;
    let right = first.number <= last.number && last.number - first.number < MOST_DAYS;
    ask(right, 8, 0)?;
    ask_after_8()?;
    calendar::ask_list(request.holidays)?;
    ask(request.yearly <= LARGEST_USE, 10, 0)?;
    ask(request.carry < CARRY_UNITS, 11, 0)?;
    Ok(Accepted {
        request: *request,
        bytes,
        first,
        days: last.number - first.number + 1,
    })
}

impl<'a> Accepted<'a> {
    /// The period's days.
    pub(crate) fn days(&self) -> impl Iterator<Item = Day> {
        let mut next = self.first;
        (0..self.days).map(move |_| {
            let day = next;
            next = day.next();
            day
        })
    }

    /// The 96 values of a day, as the profile has them.
    pub(crate) fn values(&self, day: Day) -> impl Iterator<Item = u16> + 'a {
        let table = 3 * day.season() as usize + day.day_type(self.request.holidays) as usize;
        values_of(&self.bytes[2 * DAY_VALUES * table..][..2 * DAY_VALUES])
    }

    /// The 96 powers of a day, before the clock change.
    fn powers(&self, day: Day) -> [u32; DAY_VALUES] {
        let mut powers = [0; DAY_VALUES];
        for (power, value) in powers.iter_mut().zip(self.values(day)) {
            *power = u32::from(value);
        }
        if self.request.group == HOUSEHOLDS {
            let factor = factor(HOUSEHOLDS, day.t);
            powers = powers.map(|p| power(p, factor));
        }
        powers
    }

    /// How many figures the series has.
    pub(crate) fn count(&self) -> usize {
        self.days().map(Day::values).sum()
    }

    /// Writes the figures of all days into the first entries of `out`.
    pub(crate) fn expand(&self, out: &mut [u32]) -> Expansion {
        let mut made = Expansion {
            count: 0,
            total: 0,
            carry: self.request.carry,
        };
        for day in self.days() {
            let of_day = self.expand_day(day, made.carry, &mut out[made.count..]);
            made.count += of_day.count;
            made.total += of_day.total;
            made.carry = of_day.carry;
        }
        made
    }

    /// Writes a day's figures into the first entries of `out`.
    pub(crate) fn expand_day(&self, day: Day, carry: u32, out: &mut [u32]) -> Expansion {
        let powers = self.powers(day);
        let mut made = Expansion {
            count: 0,
            total: 0,
            carry,
        };
        for range in day.positions() {
            for &power in &powers[range] {
                let (figure, carry) = carry_step(power, self.request.yearly, made.carry);
                out[made.count] = figure;
                made.count += 1;
                made.total += u64::from(figure);
                made.carry = carry;
            }
        }
        made
    }
}

/// One quarter hour of power Q: its figure in Wh and the next carry.
pub fn carry_step(power: u32, yearly: u32, carry: u32) -> (u32, u32) {
    let sum = u64::from(power) * u64::from(yearly) + u64::from(carry);
    let units = u64::from(CARRY_UNITS);
    let figure = u32::try_from(sum / units).expect("a figure fits 32 bits");
    (figure, (sum % units) as u32)
}

/// Makes the series of a period and writes its figures in Wh into the first entries of `out`: questions 1 to 12.
pub fn expand(request: &Request, out: &mut [u32]) -> Result<Expansion, Refusal> {
    let accepted = accept(request)?;
    let needed = accepted.count();
    ask(out.len() >= needed, 12, needed)?;
    Ok(accepted.expand(out))
}

#[cfg(test)]
mod tests {
    use super::*;

    /// Document 01's marked figure.
    #[test]
    fn the_marked_carry_step() {
        assert_eq!(carry_step(1001, 1000, 39_999), (26, 999));
    }

    /// A file of H0 and G0 in which position p of each day has the value p.
    fn positions_file() -> Vec<u8> {
        let values: Vec<u16> = (0..96).cycle().take(2 * 864).collect();
        let mut file = vec![0; 6 + 2 * 1_729];
        crate::write(&[0, 1], &values, &mut file).unwrap();
        file
    }

    /// With A = 40,000 a figure is its power, here of G0 the position itself.
    #[test]
    fn clock_changes_leave_out_and_repeat_positions_8_to_11() {
        let file = positions_file();
        let figures = |date| {
            let request = Request {
                file: &file,
                group: 1,
                first: date,
                last: date,
                holidays: &[],
                yearly: 40_000,
                carry: 7,
            };
            let mut out = vec![0; 100];
            let made = expand(&request, &mut out).unwrap();
            assert_eq!(made.carry, 7);
            assert_eq!(
                made.total,
                out.iter().map(|&figure| u64::from(figure)).sum()
            );
            out.truncate(made.count);
            out
        };
        let march: Vec<u32> = (0..8).chain(12..96).collect();
        let october: Vec<u32> = (0..12).chain(8..12).chain(12..96).collect();
        assert_eq!(figures(20_000_326), march);
        assert_eq!(figures(20_001_029), october);
        assert_eq!(figures(20_000_325), (0..96).collect::<Vec<_>>());
    }

    #[test]
    fn a_period_has_at_most_1461_days() {
        let file = positions_file();
        let expanded = |first, last| {
            let request = Request {
                file: &file,
                group: 0,
                first,
                last,
                holidays: &[],
                yearly: 1,
                carry: 0,
            };
            expand(&request, &mut [])
        };
        let no = |number, place| Err(Refusal { number, place });
        assert_eq!(expanded(20_000_101, 20_031_231), no(12, 140_256));
        assert_eq!(expanded(20_000_327, 20_040_326), no(12, 140_260));
        assert_eq!(expanded(20_000_101, 20_040_101), no(8, 0));
        assert_eq!(expanded(20_000_102, 20_000_101), no(8, 0));
        assert_eq!(expanded(20_000_101, 20_001_231), no(12, 35_136));
    }
}
