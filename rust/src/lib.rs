//! Quarter-hour series from the VDEW load profiles: safe calls of the proved library.
//!
//! Every call takes any input and either does its work or is refused by the first question of documents 01 and 02 that is
//! answered "no". After a refusal, lent memory holds its old content; after an accepted call, the new entries and beyond them its old
//! content.
//!
//! A date is a number yyyymmdd. A list of holidays holds strictly rising dates, at most 400. A figure is a quarter hour's energy
//! in Wh.
//!
//! ```
//! let values = [1001; slp::GROUP_VALUES];
//! let mut file = [0; slp::file_length(1)];
//! slp::write(&[slp::Group::G0], &values, &mut file)?;
//!
//! let request = slp::Request {
//!     file: &file,
//!     group: slp::Group::G0,
//!     first: 20000325,
//!     last: 20000326,
//!     holidays: &[],
//!     yearly: 1000,
//!     carry: 0,
//! };
//! let mut out = [0; 188];
//! let made = slp::expand(&request, &mut out)?;
//! assert_eq!((made.count, made.total, made.carry), (188, 4704, 28000));
//! # Ok::<(), slp::Refusal>(())
//! ```

mod group;
mod refusal;
mod regional_day;
pub mod report;

pub use group::{Group, UnknownGroup};
pub use refusal::{Refusal, RefusalKind};
pub use regional_day::{RegionalDay, UnknownRegionalDay};

/// The values of one group: three seasons, three day types, 96 quarter hours.
pub const GROUP_VALUES: usize = 864;

/// Enough entries of output for every period: 1,461 days of at most 100 figures.
pub const LONGEST_SERIES: usize = 1_461 * 100;

/// Enough bytes of page for what the program prints for every input.
pub const PAGE_LENGTH: usize = 65_536;

/// Enough bytes for the day page of every period: 1,461 days.
pub const LONGEST_DAY_PAGE: usize = day_page_length(1_461);

/// Enough entries for the holidays of every year: eleven of all of Germany and six regional ones.
pub const MOST_HOLIDAYS: usize = 17;

/// The most reading periods of one call for over and under deliveries.
pub const MOST_PERIODS: usize = 48;

/// The length in bytes of a profile file with `count` groups.
///
/// ```
/// assert_eq!(slp::file_length(1), 1735);
/// ```
pub const fn file_length(count: usize) -> usize {
    6 + (1 + 2 * GROUP_VALUES) * count
}

/// The length in bytes of a day page of `days` days: a line of 38 bytes for each, and the last one.
///
/// ```
/// assert_eq!(slp::day_page_length(2), 114);
/// ```
pub const fn day_page_length(days: usize) -> usize {
    38 * (days + 1)
}

/// A season of the profiles.
#[derive(Debug, Clone, Copy, PartialEq, Eq, Hash)]
pub enum Season {
    /// 1 November to 20 March.
    Winter,
    /// 15 May to 14 September.
    Summer,
    /// The rest of the year.
    Transition,
}

/// A day type of the profiles, settled in this order (document 01 as document 02, (b), changes it): a Sunday is a Sunday; a listed
/// date counts as Sunday, also 24 and 31 December; unlisted, those two count as Saturday; then Saturdays and weekdays.
#[derive(Debug, Clone, Copy, PartialEq, Eq, Hash)]
pub enum DayType {
    /// Monday to Friday, where the day is neither listed nor 24 or 31 December.
    Weekday,
    /// Saturdays that are not listed; unlisted 24 and 31 December, where they are no Sundays.
    Saturday,
    /// Sundays and listed dates.
    Sunday,
}

/// What documents 01 and 02 say of a day.
#[derive(Debug, Clone, Copy, PartialEq, Eq, Hash)]
pub struct Day {
    /// 1 Monday to 7 Sunday.
    pub weekday: u32,
    /// The day of the year, from 1.
    pub t: u32,
    /// The season.
    pub season: Season,
    /// The day type.
    pub day_type: DayType,
    /// How many quarter hours the day has: 92, 96 or 100.
    pub value_count: u32,
}

/// What expanding is given beside its output, and the day page beside the page.
#[derive(Debug, Clone, Copy, PartialEq, Eq)]
pub struct Request<'a> {
    /// A profile file.
    pub file: &'a [u8],
    /// One of its groups.
    pub group: Group,
    /// The first date, yyyymmdd.
    pub first: u32,
    /// The last date, included; at most 1,461 days in all.
    pub last: u32,
    /// Strictly rising dates, at most 400.
    pub holidays: &'a [u32],
    /// The yearly use in kWh, at most 1,000,000,000.
    pub yearly: u32,
    /// The carry in 1/40,000 Wh, at most 39,999: 0 to begin with, then what the call for the days before returned.
    pub carry: u32,
}

impl<'a> Request<'a> {
    /// The same with the group's code, as [`report::expand`] and [`report::page`] take it.
    pub fn numbers(&self) -> report::Request<'a> {
        report::Request {
            file: self.file,
            group: self.group.code(),
            first: self.first,
            last: self.last,
            holidays: self.holidays,
            yearly: self.yearly,
            carry: self.carry,
        }
    }
}

/// What the over and under deliveries of a customer are worked out from, beside the output.
#[derive(Debug, Clone, Copy, PartialEq, Eq)]
pub struct Deliveries<'a> {
    /// A profile file.
    pub file: &'a [u8],
    /// One of its groups.
    pub group: Group,
    /// The first date of the whole span, yyyymmdd.
    pub first: u32,
    /// Its last date, included; at most 1,461 days in all.
    pub last: u32,
    /// The first date of each reading period, 1 to [`MOST_PERIODS`] of them: the first is the span's, each is later than the one
    /// before. A period ends the day before the next one begins, the last with the span.
    pub starts: &'a [u32],
    /// The metered kWh of each period, as many as [`starts`](Self::starts).
    pub metered: &'a [u32],
    /// Strictly rising dates, at most 400.
    pub holidays: &'a [u32],
    /// The yearly use in kWh by which the customer is balanced, at most 1,000,000,000.
    pub yearly: u32,
}

impl<'a> Deliveries<'a> {
    /// The same with the group's code, as [`report::deliveries`] takes it.
    pub fn numbers(&self) -> report::Deliveries<'a> {
        report::Deliveries {
            file: self.file,
            group: self.group.code(),
            first: self.first,
            last: self.last,
            starts: self.starts,
            metered: self.metered,
            holidays: self.holidays,
            yearly: self.yearly,
        }
    }
}

/// What a series adds up to.
#[derive(Debug, Clone, Copy, PartialEq, Eq, Hash)]
pub struct Expansion {
    /// How many figures it has.
    pub count: usize,
    /// Their sum in Wh.
    pub total: u64,
    /// What is left over, in 1/40,000 Wh.
    pub carry: u32,
}

fn verdict(number: u32, place: usize) -> Result<(), Refusal> {
    if number == 0 {
        return Ok(());
    }
    match RefusalKind::from_number(number) {
        Some(kind) => Err(Refusal { kind, place }),
        None => unreachable!("no call is refused by {number}"),
    }
}

/// Whether `file` is a profile file that has `group`: questions 1 to 6.
///
/// ```
/// let refusal = slp::check(b"SLP", slp::Group::G0).unwrap_err();
/// assert_eq!(refusal, slp::Refusal { kind: slp::RefusalKind::NoMark, place: 0 });
/// ```
pub fn check(file: &[u8], group: Group) -> Result<(), Refusal> {
    let report = report::check(file, group.code());
    verdict(report.number, report.place)
}

/// The 1,728 value bytes of `group`, as that part of `file`; `None` where [`check`] refuses.
///
/// ```
/// let mut file = [0; slp::file_length(1)];
/// slp::write(&[slp::Group::G0], &[258; slp::GROUP_VALUES], &mut file)?;
/// assert_eq!(slp::locate(&file, slp::Group::G0), Some(&file[7..]));
/// assert_eq!(slp::locate(&file, slp::Group::G1), None);
/// # Ok::<(), slp::Refusal>(())
/// ```
pub fn locate(file: &[u8], group: Group) -> Option<&[u8]> {
    let part = report::locate(file, group.code());
    match part.length {
        0 => None,
        length => Some(&file[part.offset..part.offset + length]),
    }
}

/// Reads the values of `group` into the first 864 entries of `table`: questions 1 to 6 and 12.
///
/// ```
/// let mut file = [0; slp::file_length(1)];
/// slp::write(&[slp::Group::G0], &[258; slp::GROUP_VALUES], &mut file)?;
/// let mut table = [0; slp::GROUP_VALUES];
/// slp::read(&file, slp::Group::G0, &mut table)?;
/// assert_eq!(table, [258; slp::GROUP_VALUES]);
/// let refusal = slp::read(&file, slp::Group::G0, &mut table[1..]).unwrap_err();
/// assert_eq!(refusal, slp::Refusal { kind: slp::RefusalKind::ShortOutput, place: 864 });
/// # Ok::<(), slp::Refusal>(())
/// ```
pub fn read(file: &[u8], group: Group, table: &mut [u16]) -> Result<(), Refusal> {
    let report = report::read(file, group.code(), table);
    verdict(report.number, report.place)
}

/// Writes the profile file of `groups`, with 864 of `values` for each in that order, into the first [`file_length`] bytes of
/// `buffer`: questions 3, 4, 5 and 12.
///
/// ```
/// let mut file = [0; slp::file_length(2)];
/// slp::write(&[slp::Group::G0, slp::Group::L0], &[258; 2 * slp::GROUP_VALUES], &mut file)?;
/// assert_eq!(file[..9], *b"SLP\0\x01\x02\x01\x01\x02");
/// # Ok::<(), slp::Refusal>(())
/// ```
pub fn write(groups: &[Group], values: &[u16], buffer: &mut [u8]) -> Result<(), Refusal> {
    let codes: Vec<u8> = groups.iter().map(|group| group.code()).collect();
    let report = report::write(&codes, values, buffer);
    verdict(report.number, report.place)
}

/// Whether all values of the two groups agree: questions 1 to 6.
///
/// ```
/// let mut file = [0; slp::file_length(2)];
/// slp::write(&[slp::Group::G0, slp::Group::L0], &[258; 2 * slp::GROUP_VALUES], &mut file)?;
/// assert!(slp::compare(&file, slp::Group::G0, slp::Group::L0)?);
/// let refusal = slp::compare(&file, slp::Group::G0, slp::Group::L1).unwrap_err();
/// assert_eq!(refusal, slp::Refusal { kind: slp::RefusalKind::NoGroup, place: 1 });
/// # Ok::<(), slp::Refusal>(())
/// ```
pub fn compare(file: &[u8], first: Group, second: Group) -> Result<bool, Refusal> {
    let report = report::compare(file, first.code(), second.code());
    verdict(report.number, report.place)?;
    Ok(report.alike == 1)
}

/// Weekday, day of the year, season, day type and value count of a date: questions 7 and 9.
///
/// ```
/// let day = slp::day(20000326, &[])?;
/// assert_eq!((day.weekday, day.t, day.value_count), (7, 86, 92));
/// assert_eq!((day.season, day.day_type), (slp::Season::Transition, slp::DayType::Sunday));
///
/// // Christmas Eve 1999 is a Friday. It counts as Saturday and, where it is listed, as Sunday.
/// assert_eq!(slp::day(19991224, &[19991225, 19991226])?.day_type, slp::DayType::Saturday);
/// assert_eq!(slp::day(19991224, &[19991224, 19991225, 19991226])?.day_type, slp::DayType::Sunday);
/// # Ok::<(), slp::Refusal>(())
/// ```
pub fn day(date: u32, holidays: &[u32]) -> Result<Day, Refusal> {
    let report = report::day(date, holidays);
    verdict(report.number, report.place)?;
    Ok(Day {
        weekday: report.weekday,
        t: report.t,
        season: season(report.season),
        day_type: day_type(report.day_type),
        value_count: report.value_count,
    })
}

fn season(digit: u32) -> Season {
    match digit {
        1 => Season::Winter,
        2 => Season::Summer,
        3 => Season::Transition,
        _ => unreachable!("a season is 1 to 3, not {digit}"),
    }
}

fn day_type(digit: u32) -> DayType {
    match digit {
        1 => DayType::Weekday,
        2 => DayType::Saturday,
        3 => DayType::Sunday,
        _ => unreachable!("a day type is 1 to 3, not {digit}"),
    }
}

/// Makes the series of a period and writes its figures in Wh into the first entries of `out`: questions 1 to 12. An output
/// of [`LONGEST_SERIES`] entries is always long enough.
///
/// Two days one at a time, the carry handed on, give what one call gives for both:
///
/// ```
/// let mut file = [0; slp::file_length(1)];
/// slp::write(&[slp::Group::G0], &[1001; slp::GROUP_VALUES], &mut file)?;
/// let day = slp::Request {
///     file: &file,
///     group: slp::Group::G0,
///     first: 20000325,
///     last: 20000325,
///     holidays: &[],
///     yearly: 1000,
///     carry: 0,
/// };
/// let mut out = [0; 188];
/// let one = slp::expand(&day, &mut out)?;
/// let next = slp::Request { first: 20000326, last: 20000326, carry: one.carry, ..day };
/// let two = slp::expand(&next, &mut out[one.count..])?;
///
/// let mut whole = [0; 188];
/// let both = slp::expand(&slp::Request { last: 20000326, ..day }, &mut whole)?;
/// assert_eq!(out, whole);
/// assert_eq!((one.total + two.total, two.carry), (both.total, both.carry));
/// # Ok::<(), slp::Refusal>(())
/// ```
pub fn expand(request: &Request, out: &mut [u32]) -> Result<Expansion, Refusal> {
    expansion(report::expand(&request.numbers(), out))
}

fn expansion(report: report::ExpansionReport) -> Result<Expansion, Refusal> {
    verdict(report.number, report.place)?;
    Ok(Expansion {
        count: report.count,
        total: report.total,
        carry: report.carry,
    })
}

/// Fills a page with a line for each day of a period and a last one with their sums, from its first byte on, and answers what
/// [`expand`] answers: questions 1 to 11 and 19 (place: the bytes needed, [`day_page_length`]). A page of [`LONGEST_DAY_PAGE`] bytes is
/// always long enough.
///
/// A line has 38 bytes: the date, 10; season letter (W, S, T) and day digit (1 weekday, 2 Saturday, 3 Sunday), 2; how many quarter hours
/// the day has, 6, and their energy in Wh, 16, both right-aligned with spaces before them; a space between two fields, and a line feed.
/// The last line has "total" and two hyphens in place of date and day type. The carry is handed on in the answer alone.
///
/// Document 01's two days of March 2000:
///
/// ```
/// let mut file = [0; slp::file_length(1)];
/// slp::write(&[slp::Group::G0], &[1001; slp::GROUP_VALUES], &mut file)?;
/// let request = slp::Request {
///     file: &file,
///     group: slp::Group::G0,
///     first: 20000325,
///     last: 20000326,
///     holidays: &[],
///     yearly: 1000,
///     carry: 0,
/// };
/// let mut page = [0; slp::day_page_length(2)];
/// let made = slp::page(&request, &mut page)?;
/// let lines = "\
/// 2000-03-25 T2     96             2402
/// 2000-03-26 T3     92             2302
/// total      --    188             4704
/// ";
/// assert_eq!(page, *lines.as_bytes());
/// assert_eq!((made.count, made.total, made.carry), (188, 4704, 28000));
///
/// let refusal = slp::page(&request, &mut page[..113]).unwrap_err();
/// assert_eq!(refusal, slp::Refusal { kind: slp::RefusalKind::ShortPage, place: 114 });
/// # Ok::<(), slp::Refusal>(())
/// ```
pub fn page(request: &Request, page: &mut [u8]) -> Result<Expansion, Refusal> {
    expansion(report::page(&request.numbers(), page))
}

/// Writes what the program `slp` prints for an input into the first bytes of `page` and answers how many they are: question 12
/// alone, since what the other questions refuse is a line of that text. A page of [`PAGE_LENGTH`] bytes is always long enough.
///
/// ```
/// let mut page = [0; slp::PAGE_LENGTH];
/// let length = slp::respond(b"", &mut page)?;
/// assert_eq!(page[..length], *b"refused 13 0\n");
/// let refusal = slp::respond(b"", &mut page[..12]).unwrap_err();
/// assert_eq!(refusal, slp::Refusal { kind: slp::RefusalKind::ShortOutput, place: 13 });
/// # Ok::<(), slp::Refusal>(())
/// ```
pub fn respond(input: &[u8], page: &mut [u8]) -> Result<usize, Refusal> {
    let report = report::respond(input, page);
    verdict(report.number, report.place)?;
    Ok(report.length)
}

/// Writes the German holidays of a year into the first entries of `list` and answers how many they are: the eleven days that all of
/// Germany keeps, and these regional ones. Questions 14 and 16. A list of [`MOST_HOLIDAYS`] entries is always long enough.
///
/// The dates rise, and one that is met twice is listed once, as 1 May 2008, which is Ascension Day too. So the list is one that
/// [`day`] and [`expand`] take. 24 and 31 December are no public holidays and not in it, so that they count as Saturday where they
/// are no Sundays; where an agreement makes one of them a full holiday, insert it where the dates still rise
/// (lend an entry more for it).
///
/// ```
/// let mut list = [0; slp::MOST_HOLIDAYS];
/// let length = slp::holidays(2000, &[slp::RegionalDay::CorpusChristi], &mut list)?;
/// assert_eq!(length, 12);
/// assert_eq!(list[..4], [20000101, 20000421, 20000423, 20000424]);
/// assert_eq!(slp::day(20000622, &list[..length])?.day_type, slp::DayType::Sunday);
///
/// let refusal = slp::holidays(2000, &[], &mut list[..10]).unwrap_err();
/// assert_eq!(refusal, slp::Refusal { kind: slp::RefusalKind::ShortList, place: 11 });
/// # Ok::<(), slp::Refusal>(())
/// ```
pub fn holidays(year: u32, regional: &[RegionalDay], list: &mut [u32]) -> Result<usize, Refusal> {
    let report = report::holidays(year, RegionalDay::choice(regional), list);
    verdict(report.number, report.place)?;
    Ok(report.length)
}

/// Writes the over and under deliveries of a customer into the first entries of `out`, one for each reading period: its metered energy
/// minus its balanced energy in Wh, positive where the customer drew more (equation 4.8 of source document 001). A period's balanced
/// energy is the sum of its figures in the series that [`expand`] makes for the whole span, begun with carry 0, so that the differences
/// add up to 1,000 times all metered kWh less that series' total. Questions 1 to 8, 17, 18, 9, 10 and 12 (place: the entries needed,
/// one for each period), in this order. An output of [`MOST_PERIODS`] entries is always long enough.
///
/// Three days of a flat profile, which are balanced by 2,402, 2,402 and 2,303 Wh, with 2, 3 and 1 kWh metered:
///
/// ```
/// let mut file = [0; slp::file_length(1)];
/// slp::write(&[slp::Group::G0], &[1001; slp::GROUP_VALUES], &mut file)?;
/// let days = slp::Deliveries {
///     file: &file,
///     group: slp::Group::G0,
///     first: 20000324,
///     last: 20000326,
///     starts: &[20000324, 20000325, 20000326],
///     metered: &[2, 3, 1],
///     holidays: &[],
///     yearly: 1000,
/// };
/// let mut out = [0; 3];
/// slp::deliveries(&days, &mut out)?;
/// assert_eq!(out, [-402, 598, -1303]);
///
/// let late = slp::Deliveries { starts: &[20000324, 20000325, 20000327], ..days };
/// let refusal = slp::deliveries(&late, &mut out).unwrap_err();
/// assert_eq!(refusal, slp::Refusal { kind: slp::RefusalKind::BadFirstDate, place: 2 });
/// # Ok::<(), slp::Refusal>(())
/// ```
pub fn deliveries(given: &Deliveries, out: &mut [i64]) -> Result<(), Refusal> {
    let report = report::deliveries(&given.numbers(), out);
    verdict(report.number, report.place)
}
