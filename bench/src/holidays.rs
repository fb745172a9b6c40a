//! The fast baseline for the holidays of a year. The dates are put in rising order as they come, and every one is stored: one that is
//! not listed is written over by the next.
use slp::{Refusal, RefusalKind, RegionalDay};

/// Month and day, mmdd, of each day counted from 1 March, which is day 1, as far as Corpus Christi can lie.
static FROM_MARCH: [u32; 128] = from_march();

const fn from_march() -> [u32; 128] {
    let lengths = [31, 30, 31, 30, 31];
    let mut days = [0; 128];
    let (mut month, mut day, mut i) = (0, 1, 1);
    while i < 128 {
        days[i] = 100 * (month as u32 + 3) + day;
        i += 1;
        day += 1;
        if day > lengths[month] {
            day = 1;
            month += 1;
        }
    }
    days
}

/// Easter Sunday, counted from 1 March, by Carter's rule, which holds from 1900 to 2099.
fn easter(year: u32) -> u32 {
    let full_moon = (204 - 11 * (year % 19)) % 30 + 21;
    let full_moon = full_moon - u32::from(full_moon > 48);
    full_moon + 7 - (year + year / 4 + full_moon + 1) % 7
}

/// The Wednesday before 23 November. 22 November is day 267 from 1 March, and Easter is a Sunday.
fn repentance(easter: u32) -> u32 {
    1122 - (264 - easter) % 7
}

/// Dates in rising order. There is room for more than a year has, so that an index cut to it needs no check.
struct Dates {
    dates: [u32; 32],
    length: usize,
}

impl Dates {
    fn put(&mut self, date: u32, listed: bool) {
        self.dates[self.length % 32] = date;
        self.length += usize::from(listed);
    }
}

pub fn holidays(year: u32, regional: &[RegionalDay], list: &mut [u32]) -> Result<usize, Refusal> {
    if !(1996..=2099).contains(&year) {
        return Err(Refusal {
            kind: RefusalKind::BadYear,
            place: 0,
        });
    }
    let dates = dates(year, RegionalDay::choice(regional));
    let Some(room) = list.get_mut(..dates.length) else {
        return Err(Refusal {
            kind: RefusalKind::ShortList,
            place: dates.length,
        });
    };
    room.copy_from_slice(&dates.dates[..dates.length]);
    Ok(dates.length)
}

fn dates(year: u32, choice: u8) -> Dates {
    let easter = easter(year);
    let after = |days: u32| FROM_MARCH[(easter + days) as usize % 128];
    let ascension = after(39);
    let chosen = |day: RegionalDay| choice >> day.bit() & 1 == 1;
    let mut dates = Dates {
        dates: [0; 32],
        length: 0,
    };
    let mut put = |day: u32, listed: bool| dates.put(10_000 * year + day, listed);
    put(101, true);
    put(106, chosen(RegionalDay::Epiphany));
    put(FROM_MARCH[(easter - 2) as usize % 128], true);
    put(after(0), true);
    put(after(1), true);
    put(501, true);
    put(ascension, ascension != 501);
    put(after(49), true);
    put(after(50), true);
    put(after(60), chosen(RegionalDay::CorpusChristi));
    put(815, chosen(RegionalDay::Assumption));
    put(1003, true);
    put(1031, chosen(RegionalDay::Reformation));
    put(1101, chosen(RegionalDay::AllSaints));
    put(repentance(easter), chosen(RegionalDay::Repentance));
    put(1225, true);
    put(1226, true);
    dates
}
