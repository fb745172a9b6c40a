//! Each call made of the reference and of the proved library, of the latter as a report and, where every code is that of a group,
//! as a `Result` too. The answers must be the same, and so must the lent memory after the call. After a refusal that memory
//! holds its old content throughout, after an accepted call beyond the entries that it fills. The answer is the reference's;
//! `what` names the case in a failure.
use std::fmt::Debug;

use reference::file::{HEAD, PROFILE, VALUES};
use reference::page::LINE;
use reference::{DayAnswer, Expansion, Refusal};
use slp::report::{
    CheckReport, ComparisonReport, DayReport, Deliveries, ExpansionReport, HolidaysReport,
    LocatedPart, Request, ResponseReport,
};
use slp::{DayType, Group, RefusalKind, RegionalDay, Season};

/// A refusal, as a test expects it.
pub fn refused<T>(number: u32, place: usize) -> Result<T, Refusal> {
    Err(Refusal { number, place })
}

/// Number and place of an answer, both 0 where it is no refusal.
pub fn number_and_place<T>(answer: &Result<T, Refusal>) -> (u32, usize) {
    match answer {
        Ok(_) => (0, 0),
        Err(no) => (no.number, no.place),
    }
}

fn check_report(answer: &Result<(), Refusal>) -> CheckReport {
    let (number, place) = number_and_place(answer);
    CheckReport { number, place }
}

/// The reference's answer as the package's root gives it.
fn result<T>(answer: Result<T, Refusal>) -> Result<T, slp::Refusal> {
    answer.map_err(|Refusal { number, place }| slp::Refusal {
        kind: RefusalKind::from_number(number).expect("a call's question"),
        place,
    })
}

// Lent memory.

/// Entries of the caller's own before and behind the lent ones.
const AROUND: usize = 32;

/// Makes a call that is lent a part of a larger memory, with this content before it and this one expected after it. The memory
/// around that part must keep its content in any case.
fn lend<T, A>(before: &[T], after: &[T], what: &str, call: impl FnOnce(&mut [T]) -> A) -> A
where
    T: Copy + PartialEq + Debug + From<u8>,
{
    let own = T::from(0xA5);
    let end = AROUND + before.len();
    let mut memory = vec![own; AROUND];
    memory.extend(before);
    memory.resize(end + AROUND, own);
    let answer = call(&mut memory[AROUND..end]);
    expect_memory(&memory[AROUND..end], after, what);
    let mut around = memory[..AROUND].iter().chain(&memory[end..]);
    assert!(
        around.all(|&entry| entry == own),
        "{what}: the call wrote to memory that it was not lent"
    );
    answer
}

/// A difference is shown by the first entry that differs.
pub fn expect_memory<T: PartialEq + Debug>(found: &[T], expected: &[T], what: &str) {
    assert_eq!(found.len(), expected.len(), "{what}");
    if found != expected {
        let mut pairs = found.iter().zip(expected).enumerate();
        let differs = pairs.find(|(_, (found, expected))| found != expected);
        panic!("{what}: the first entry that differs (found, expected): {differs:?}");
    }
}

/// What an answer leaves of the lent memory's old content: all of it, or what lies beyond the filled entries.
fn expect_kept<T: PartialEq + Debug, A>(
    before: &[T],
    after: &[T],
    answer: &Result<A, Refusal>,
    filled: usize,
    what: &str,
) {
    let from = if answer.is_ok() { filled } else { 0 };
    expect_memory(&after[from..], &before[from..], what);
}

// The calls.

pub fn check(file: &[u8], group: u8, what: &str) -> Result<(), Refusal> {
    let answer = reference::check(file, group);
    let report = slp::report::check(file, group);
    assert_eq!(report, check_report(&answer), "{what}");
    if let Some(group) = Group::from_code(group) {
        assert_eq!(slp::check(file, group), result(answer), "{what}");
    }
    answer
}

/// The located part is held to the reference's as a place of the file, and so by its bytes too.
pub fn locate<'a>(file: &'a [u8], group: u8, what: &str) -> &'a [u8] {
    let part = reference::locate(file, group);
    let report = LocatedPart {
        offset: part.as_ptr() as usize - file.as_ptr() as usize,
        length: part.len(),
    };
    assert_eq!(slp::report::locate(file, group), report, "{what}");
    if let Some(group) = Group::from_code(group) {
        match slp::locate(file, group) {
            Some(found) => assert!(std::ptr::eq(found, part), "{what}"),
            None => assert!(part.is_empty(), "{what}"),
        }
    }
    part
}

pub fn read(file: &[u8], group: u8, table: &mut [u16], what: &str) -> Result<(), Refusal> {
    let before = table.to_vec();
    let answer = reference::read(file, group, table);
    let report = lend(&before, table, what, |table| {
        slp::report::read(file, group, table)
    });
    assert_eq!(report, check_report(&answer), "{what}");
    if let Some(group) = Group::from_code(group) {
        let found = lend(&before, table, what, |table| slp::read(file, group, table));
        assert_eq!(found, result(answer), "{what}");
    }
    expect_kept(&before, table, &answer, VALUES, what);
    answer
}

pub fn write(codes: &[u8], values: &[u16], buffer: &mut [u8], what: &str) -> Result<(), Refusal> {
    let before = buffer.to_vec();
    let answer = reference::write(codes, values, buffer);
    let report = lend(&before, buffer, what, |buffer| {
        slp::report::write(codes, values, buffer)
    });
    assert_eq!(report, check_report(&answer), "{what}");
    let groups: Option<Vec<Group>> = codes.iter().copied().map(Group::from_code).collect();
    if let Some(groups) = groups {
        let found = lend(&before, buffer, what, |buffer| {
            slp::write(&groups, values, buffer)
        });
        assert_eq!(found, result(answer), "{what}");
    }
    expect_kept(&before, buffer, &answer, HEAD + PROFILE * codes.len(), what);
    answer
}

pub fn compare(file: &[u8], first: u8, second: u8, what: &str) -> Result<bool, Refusal> {
    let answer = reference::compare(file, first, second);
    let (number, place) = number_and_place(&answer);
    let report = ComparisonReport {
        number,
        place,
        alike: u32::from(answer == Ok(true)),
    };
    assert_eq!(slp::report::compare(file, first, second), report, "{what}");
    if let (Some(first), Some(second)) = (Group::from_code(first), Group::from_code(second)) {
        assert_eq!(slp::compare(file, first, second), result(answer), "{what}");
    }
    answer
}

fn day_report(answer: &Result<DayAnswer, Refusal>) -> DayReport {
    let (number, place) = number_and_place(answer);
    let of = |field: fn(&DayAnswer) -> u32| answer.as_ref().map_or(0, field);
    DayReport {
        number,
        place,
        weekday: of(|day| day.weekday),
        t: of(|day| day.t),
        season: of(|day| day.season as u32 + 1),
        day_type: of(|day| day.day_type as u32 + 1),
        value_count: of(|day| day.values as u32),
    }
}

fn package_day(day: DayAnswer) -> slp::Day {
    slp::Day {
        weekday: day.weekday,
        t: day.t,
        season: match day.season {
            reference::Season::Winter => Season::Winter,
            reference::Season::Summer => Season::Summer,
            reference::Season::Transition => Season::Transition,
        },
        day_type: match day.day_type {
            reference::DayType::Weekday => DayType::Weekday,
            reference::DayType::Saturday => DayType::Saturday,
            reference::DayType::Sunday => DayType::Sunday,
        },
        value_count: day.values as u32,
    }
}

pub fn day(date: u32, holidays: &[u32], what: &str) -> Result<DayAnswer, Refusal> {
    let answer = reference::day(date, holidays);
    let report = slp::report::day(date, holidays);
    assert_eq!(report, day_report(&answer), "{what}");
    let found = slp::day(date, holidays);
    assert_eq!(found, result(answer.map(package_day)), "{what}");
    answer
}

/// The request, for the reference.
pub fn reference_request<'a>(request: &Request<'a>) -> reference::Request<'a> {
    reference::Request {
        file: request.file,
        group: request.group,
        first: request.first,
        last: request.last,
        holidays: request.holidays,
        yearly: request.yearly,
        carry: request.carry,
    }
}

/// The request as the package's root takes it, where its code is that of a group.
fn package_request<'a>(request: &Request<'a>) -> Option<slp::Request<'a>> {
    Some(slp::Request {
        file: request.file,
        group: Group::from_code(request.group)?,
        first: request.first,
        last: request.last,
        holidays: request.holidays,
        yearly: request.yearly,
        carry: request.carry,
    })
}

fn expansion_report(answer: &Result<Expansion, Refusal>) -> ExpansionReport {
    let (number, place) = number_and_place(answer);
    let made = answer.as_ref();
    ExpansionReport {
        number,
        place,
        count: made.map_or(0, |made| made.count),
        total: made.map_or(0, |made| made.total),
        carry: made.map_or(0, |made| made.carry),
    }
}

fn package_expansion(made: Expansion) -> slp::Expansion {
    slp::Expansion {
        count: made.count,
        total: made.total,
        carry: made.carry,
    }
}

pub fn expand(request: &Request, out: &mut [u32], what: &str) -> Result<Expansion, Refusal> {
    let before = out.to_vec();
    let answer = reference::expand(&reference_request(request), out);
    let report = lend(&before, out, what, |out| slp::report::expand(request, out));
    assert_eq!(report, expansion_report(&answer), "{what}");
    if let Some(request) = package_request(request) {
        let found = lend(&before, out, what, |out| slp::expand(&request, out));
        assert_eq!(found, result(answer.map(package_expansion)), "{what}");
    }
    let filled = answer.map_or(0, |made| made.count);
    expect_kept(&before, out, &answer, filled, what);
    answer
}

/// The bytes of an accepted request's day page.
fn page_length(request: &Request) -> usize {
    let [first, last] = [request.first, request.last].map(|date| {
        let day = reference::calendar::day_of(date).expect("a date of the span");
        day.number as usize
    });
    LINE * (last - first + 2)
}

pub fn page(request: &Request, page: &mut [u8], what: &str) -> Result<Expansion, Refusal> {
    let before = page.to_vec();
    let answer = reference::page(&reference_request(request), page);
    let report = lend(&before, page, what, |page| slp::report::page(request, page));
    assert_eq!(report, expansion_report(&answer), "{what}");
    if let Some(request) = package_request(request) {
        let found = lend(&before, page, what, |page| slp::page(&request, page));
        assert_eq!(found, result(answer.map(package_expansion)), "{what}");
    }
    let filled = answer.map_or(0, |_| page_length(request));
    expect_kept(&before, page, &answer, filled, what);
    answer
}

fn response_report(answer: &Result<usize, Refusal>) -> ResponseReport {
    let (number, place) = number_and_place(answer);
    ResponseReport {
        number,
        place,
        length: *answer.as_ref().unwrap_or(&0),
    }
}

pub fn respond(input: &[u8], page: &mut [u8], what: &str) -> Result<usize, Refusal> {
    let before = page.to_vec();
    let answer = reference::program::respond(input, page);
    let report = lend(&before, page, what, |page| {
        slp::report::respond(input, page)
    });
    assert_eq!(report, response_report(&answer), "{what}");
    let found = lend(&before, page, what, |page| slp::respond(input, page));
    assert_eq!(found, result(answer), "{what}");
    expect_kept(&before, page, &answer, answer.unwrap_or(0), what);
    answer
}

fn holidays_report(answer: &Result<usize, Refusal>) -> HolidaysReport {
    let (number, place) = number_and_place(answer);
    HolidaysReport {
        number,
        place,
        length: *answer.as_ref().unwrap_or(&0),
    }
}

/// The regional days whose bits are set, where no other bit is.
fn chosen(choice: u8) -> Option<Vec<RegionalDay>> {
    let days = RegionalDay::ALL.into_iter();
    let chosen: Vec<RegionalDay> = days.filter(|day| choice >> day.bit() & 1 == 1).collect();
    (RegionalDay::choice(&chosen) == choice).then_some(chosen)
}

pub fn holidays(year: u32, choice: u8, list: &mut [u32], what: &str) -> Result<usize, Refusal> {
    let before = list.to_vec();
    let answer = reference::holidays(year, choice, list);
    let report = lend(&before, list, what, |list| {
        slp::report::holidays(year, choice, list)
    });
    assert_eq!(report, holidays_report(&answer), "{what}");
    if let Some(regional) = chosen(choice) {
        let found = lend(&before, list, what, |list| {
            slp::holidays(year, &regional, list)
        });
        assert_eq!(found, result(answer), "{what}");
    }
    expect_kept(&before, list, &answer, answer.unwrap_or(0), what);
    answer
}

fn reference_deliveries<'a>(given: &Deliveries<'a>) -> reference::Deliveries<'a> {
    reference::Deliveries {
        file: given.file,
        group: given.group,
        first: given.first,
        last: given.last,
        starts: given.starts,
        metered: given.metered,
        holidays: given.holidays,
        yearly: given.yearly,
    }
}

/// The same as the package's root takes it, where its code is that of a group.
fn package_deliveries<'a>(given: &Deliveries<'a>) -> Option<slp::Deliveries<'a>> {
    Some(slp::Deliveries {
        file: given.file,
        group: Group::from_code(given.group)?,
        first: given.first,
        last: given.last,
        starts: given.starts,
        metered: given.metered,
        holidays: given.holidays,
        yearly: given.yearly,
    })
}

pub fn deliveries(given: &Deliveries, out: &mut [i64], what: &str) -> Result<(), Refusal> {
    let before = out.to_vec();
    let answer = reference::deliveries(&reference_deliveries(given), out);
    let report = lend(&before, out, what, |out| {
        slp::report::deliveries(given, out)
    });
    assert_eq!(report, check_report(&answer), "{what}");
    if let Some(given) = package_deliveries(given) {
        let found = lend(&before, out, what, |out| slp::deliveries(&given, out));
        assert_eq!(found, result(answer), "{what}");
    }
    expect_kept(&before, out, &answer, given.starts.len(), what);
    answer
}
