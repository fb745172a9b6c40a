//! What a run should give, by the independent implementation, and the files and words that ask the tool for it.
use std::path::Path;

use reference::calendar::{self, Day};
use reference::{Expansion, Request};

use crate::{profile_file, tool};

/// The groups' names, each at the index of its code.
pub const GROUPS: [&str; 11] = [
    "H0", "G0", "G1", "G2", "G3", "G4", "G5", "G6", "L0", "L1", "L2",
];

/// The weekdays' names, Monday first.
pub const WEEKDAYS: [&str; 7] = [
    "Monday",
    "Tuesday",
    "Wednesday",
    "Thursday",
    "Friday",
    "Saturday",
    "Sunday",
];

/// The seasons' names, in the order of the profile file.
pub const SEASONS: [&str; 3] = ["winter", "summer", "transition"];

/// The day types' names, in the order of the profile file.
pub const DAY_TYPES: [&str; 3] = ["weekday", "Saturday", "Sunday"];

/// The quarter hours' positions in a day that has no clock change.
pub const QUARTERS: usize = 96;

/// The days that a call of the independent implementation makes at most here; a longer run hands its carry on.
const MOST_DAYS: u32 = 1_000;

/// The holidays of 2000 that all of Germany keeps.
const HOLIDAYS: [u32; 9] = [
    20_000_101, 20_000_421, 20_000_424, 20_000_501, 20_000_601, 20_000_612, 20_001_003, 20_001_225,
    20_001_226,
];

/// A profile file and a list of holidays, in memory and on disk.
#[derive(Debug)]
pub struct Source {
    /// The profile file.
    pub file: Vec<u8>,
    /// The list.
    pub holidays: Vec<u32>,
    /// The path of the profile file.
    pub profiles: String,
    /// The path of the list.
    pub list: String,
}

impl Source {
    /// Writes both files.
    pub fn new(folder: &Path, name: &str, file: Vec<u8>, holidays: Vec<u32>) -> Source {
        let lines: Vec<String> = holidays.iter().map(|date| dashed(*date) + "\n").collect();
        Source {
            profiles: tool::file(folder, &format!("{name}.slp"), &file),
            list: tool::file(folder, &format!("{name}.txt"), lines.concat()),
            file,
            holidays,
        }
    }

    /// H0, G0 and L2, with values of a likely size, and the holidays of 2000.
    pub fn usual(folder: &Path) -> Source {
        let codes = [0, 1, 10];
        let values =
            (0..reference::file::VALUES * codes.len()).map(|i| 400 + (37 * i % 1_500) as u16);
        let values: Vec<u16> = values.collect();
        Source::new(
            folder,
            "usual",
            profile_file::of(&codes, &values),
            HOLIDAYS.into(),
        )
    }

    /// A run from carry 0, in the usual size.
    pub fn run(&self, group: u8, first: u32, last: u32) -> Run<'_> {
        Run {
            source: self,
            group,
            first,
            last,
            yearly: 3_500,
            since: None,
            carry: 0,
        }
    }

    /// A subcommand's words with the options that name the files.
    pub fn command<'a>(&'a self, words: &[&'a str]) -> Vec<&'a str> {
        [words, &self.options()].concat()
    }

    /// The options that name the files.
    pub fn options(&self) -> [&str; 4] {
        ["--profiles", &self.profiles, "--holidays", &self.list]
    }
}

/// A run of the tool.
#[derive(Debug, Clone, Copy)]
pub struct Run<'a> {
    /// What it is made from.
    pub source: &'a Source,
    /// The group's code.
    pub group: u8,
    /// The period's first date.
    pub first: u32,
    /// Its last date.
    pub last: u32,
    /// The yearly use.
    pub yearly: u32,
    /// Where the run begins, where that is before the period.
    pub since: Option<u32>,
    /// The carry that it begins with.
    pub carry: u32,
}

impl Run<'_> {
    /// The words that ask for it.
    pub fn words(&self, subcommand: &str) -> Vec<String> {
        let period = format!("{}..{}", dashed(self.first), dashed(self.last));
        let named = [subcommand, GROUPS[usize::from(self.group)], &period];
        let mut words: Vec<String> = named.map(str::to_owned).into();
        words.push(self.yearly.to_string());
        words.extend(self.options());
        words
    }

    /// The options that ask for it.
    pub fn options(&self) -> Vec<String> {
        let mut options: Vec<String> = self.source.options().map(str::to_owned).into();
        if let Some(since) = self.since {
            options.extend(["--since".to_owned(), dashed(since)]);
        }
        if self.carry > 0 {
            options.extend(["--carry".to_owned(), self.carry.to_string()]);
        }
        options
    }

    /// The figures of the period, and what they add up to.
    pub fn figures(&self) -> (Vec<u32>, Expansion) {
        self.expand(self.first, self.last, self.carry_before())
    }

    /// The carry with which the period begins.
    pub fn carry_before(&self) -> u32 {
        let mut carry = self.carry;
        let mut first = day_of(self.since.unwrap_or(self.first));
        let end = day_of(self.first);
        while first.number < end.number {
            let days = MOST_DAYS.min(end.number - first.number);
            let last = (1..days).fold(first, |day, _| day.next());
            carry = self.expand(first.date(), last.date(), carry).1.carry;
            first = last.next();
        }
        carry
    }

    fn expand(&self, first: u32, last: u32, carry: u32) -> (Vec<u32>, Expansion) {
        let days = day_of(last).number - day_of(first).number + 1;
        let mut figures = vec![0; 100 * days as usize];
        let request = Request {
            file: &self.source.file,
            group: self.group,
            first,
            last,
            holidays: &self.source.holidays,
            yearly: self.yearly,
            carry,
        };
        let made = reference::expand(&request, &mut figures).expect("the run is accepted");
        figures.truncate(made.count);
        (figures, made)
    }

    /// The days of the period.
    pub fn days(&self) -> impl Iterator<Item = Day> {
        let last = day_of(self.last).number;
        let days = std::iter::successors(Some(day_of(self.first)), |day| Some(day.next()));
        days.take_while(move |day| day.number <= last)
    }

    /// The CSV of the period in Wh.
    pub fn csv(&self) -> String {
        let (figures, _) = self.figures();
        let mut figures = figures.into_iter();
        let mut text = String::from("date;until;offset;Wh\n");
        for day in self.days() {
            let date = dashed(day.date());
            for (QuarterHour { until, offset, .. }, figure) in
                quarter_hours(day).into_iter().zip(&mut figures)
            {
                text += &format!("{date};{until};{offset};{figure}\n");
            }
        }
        assert_eq!(figures.next(), None, "{self:?}");
        text
    }
}

/// Words as the tool is given them.
pub fn borrowed(words: &[String]) -> Vec<&str> {
    words.iter().map(String::as_str).collect()
}

/// The day of a date of the span.
pub fn day_of(date: u32) -> Day {
    calendar::day_of(date).expect("a date of the span")
}

/// A list of the days that all of Germany keeps in some years, a date a line.
pub fn federal_list(years: &[u32]) -> String {
    let dates = years
        .iter()
        .flat_map(|year| reference::holidays::federal(*year));
    dates.map(|date| dashed(date) + "\n").collect()
}

/// A date as yyyy-mm-dd.
pub fn dashed(date: u32) -> String {
    format!(
        "{}-{:02}-{:02}",
        date / 10_000,
        date / 100 % 100,
        date % 100
    )
}

/// A quarter hour of a day.
#[derive(Debug, Clone, PartialEq, Eq)]
pub struct QuarterHour {
    /// Its position, 0 to 95.
    pub position: usize,
    /// Its end by the clock, 00:15 to 24:00.
    pub until: String,
    /// The clock's offset from UTC.
    pub offset: &'static str,
}

/// The quarter hours of a day in order.
pub fn quarter_hours(day: Day) -> Vec<QuarterHour> {
    let positions = day.positions().into_iter().flatten();
    positions
        .enumerate()
        .map(|(index, position)| QuarterHour {
            position,
            until: until(position),
            offset: if is_summer_time(day, index) {
                "+02:00"
            } else {
                "+01:00"
            },
        })
        .collect()
}

/// The end of the quarter hour at a position.
pub fn until(position: usize) -> String {
    format!("{:02}:{:02}", (position + 1) / 4, (position + 1) % 4 * 15)
}

/// Whether a day's quarter hour lies in summer time, which begins after the eighth of March's last Sunday and ends after the
/// twelfth of October's.
fn is_summer_time(day: Day, index: usize) -> bool {
    let last_sunday = |month: u32| {
        let end = day_of(10_000 * day.year + 100 * month + 31);
        100 * month + 31 - end.weekday % 7
    };
    let place = (100 * day.month + day.day, index);
    ((last_sunday(3), 8)..(last_sunday(10), 12)).contains(&place)
}

/// Two texts are the same; else the first line that differs is shown.
pub fn expect_text(found: &str, expected: &str, what: impl std::fmt::Debug) {
    if found != expected {
        let mut lines = (1..).zip(found.lines().zip(expected.lines()));
        let differs = lines.find(|(_, (found, expected))| found != expected);
        let lengths = (found.len(), expected.len());
        panic!(
            "{what:?}: lengths {lengths:?}, first line that differs (found, expected): {differs:?}"
        );
    }
}
