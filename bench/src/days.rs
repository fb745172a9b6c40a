//! The days of a period for the fast baseline: what the series needs of each, by one look into a table of the year.
use reference::calendar::Day;

/// What a place of the calendar fixes, whatever the year.
#[derive(Clone, Copy)]
struct Place {
    /// Month and day, mmdd.
    date: u32,
    /// 0 winter, 1 summer, 2 transition.
    season: usize,
    /// 24 or 31 December.
    eve: bool,
    /// How many values a Sunday has here.
    sunday: usize,
}

/// The places of a leap year; other years leave out place 59, 29 February.
static YEAR: [Place; 366] = year();

const fn place(month: u32, day: u32) -> Place {
    let date = 100 * month + day;
    Place {
        date,
        season: match date {
            1101.. | ..=320 => 0,
            515..=914 => 1,
            _ => 2,
        },
        eve: date == 1224 || date == 1231,
        sunday: match date {
            325..=331 => 92,
            1025..=1031 => 100,
            _ => 96,
        },
    }
}

const fn year() -> [Place; 366] {
    let lengths = [31, 29, 31, 30, 31, 30, 31, 31, 30, 31, 30, 31];
    let mut places = [place(1, 1); 366];
    let (mut month, mut day, mut i) = (1, 1, 0);
    while i < 366 {
        places[i] = place(month, day);
        i += 1;
        day += 1;
        if day > lengths[month as usize - 1] {
            day = 1;
            month += 1;
        }
    }
    places
}

/// The number of the last Sunday of March or October, whose 31st is day `t` of a year that is no leap year.
fn last_sunday(year: u32, t: u32) -> u32 {
    let years = year - 1996;
    let end = 365 * years + years / 4 + t;
    end - (end + 1) % 7
}

/// How many values the days from first to last have.
pub fn values_of(first: Day, last: Day) -> usize {
    let days = (last.number - first.number + 1) as usize;
    let period = first.number..=last.number;
    let changes = |t| {
        let sundays = (first.year..=last.year).map(|year| last_sunday(year, t));
        sundays.filter(|sunday| period.contains(sunday)).count()
    };
    96 * days + 4 * changes(304) - 4 * changes(90)
}

/// What the series needs of a day: which of the group's tables, the day of the year, and how many values; and its date, yyyymmdd.
pub struct Laid {
    pub date: u32,
    pub table: usize,
    pub t: u32,
    pub values: usize,
}

/// The days that are still to come, with the holidays from the next one on.
pub struct Days<'a> {
    left: u32,
    year: u32,
    t: u32,
    /// In YEAR.
    place: usize,
    /// 0 Monday to 6 Sunday.
    weekday: u32,
    holidays: &'a [u32],
}

impl<'a> Days<'a> {
    pub fn new(first: Day, last: Day, holidays: &'a [u32]) -> Days<'a> {
        let passed = holidays.partition_point(|&date| date < first.date());
        let left_out = first.t > 59 && !first.year.is_multiple_of(4);
        Days {
            left: last.number - first.number + 1,
            year: first.year,
            t: first.t,
            place: first.t as usize - 1 + usize::from(left_out),
            weekday: first.number % 7,
            holidays: &holidays[passed..],
        }
    }

    fn step(&mut self) {
        self.weekday = if self.weekday == 6 {
            0
        } else {
            self.weekday + 1
        };
        self.t += 1;
        self.place += 1;
        if self.place == 59 && !self.year.is_multiple_of(4) {
            self.place = 60;
        }
        if self.place == 366 {
            self.year += 1;
            self.t = 1;
            self.place = 0;
        }
    }
}

impl Iterator for Days<'_> {
    type Item = Laid;

    #[inline]
    fn next(&mut self) -> Option<Laid> {
        self.left = self.left.checked_sub(1)?;
        let place = &YEAR[self.place];
        let date = 10_000 * self.year + place.date;
        let listed = self.holidays.first() == Some(&date);
        if listed {
            self.holidays = &self.holidays[1..];
        }
        let day_type = match self.weekday {
            6 => 2,
            _ if listed => 2,
            _ if place.eve => 1,
            weekday => usize::from(weekday == 5),
        };
        let laid = Laid {
            date,
            table: 3 * place.season + day_type,
            t: self.t,
            values: if self.weekday == 6 { place.sunday } else { 96 },
        };
        self.step();
        Some(laid)
    }
}
