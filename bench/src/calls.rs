//! The calls that are compared, for each implementation, and what they are lent and answer.
use slp::{Deliveries, Expansion, Group, Refusal, RefusalKind, RegionalDay, Request, MOST_PERIODS};

use crate::{deliveries, fast, holidays, kept, page};

pub type Answer = Result<(), Refusal>;

/// How many dates were written.
pub type Listed = Result<usize, Refusal>;

pub struct Calls {
    pub name: &'static str,
    pub check: fn(&[u8], Group) -> Answer,
    pub read: fn(&[u8], Group, &mut [u16]) -> Answer,
    pub write: fn(&[Group], &[u16], &mut [u8]) -> Answer,
    pub expand: fn(&Request, &mut [u32]) -> Result<Expansion, Refusal>,
    pub holidays: fn(u32, &[RegionalDay], &mut [u32]) -> Listed,
    pub deliveries: fn(&Deliveries, &mut [i64]) -> Answer,
    pub page: fn(&Request, &mut [u8]) -> Result<Expansion, Refusal>,
}

pub static PROVED: Calls = Calls {
    name: "proved",
    check: slp::check,
    read: slp::read,
    write: slp::write,
    expand: slp::expand,
    holidays: slp::holidays,
    deliveries: slp::deliveries,
    page: slp::page,
};

/// The reference: the plain safe Rust that an engineer would write from document 01, carry step by carry step. It takes codes;
/// those of some groups are put into a list of their own, as `slp::write` does too.
pub static PLAIN: Calls = Calls {
    name: "plain",
    check: |file, group| reference::check(file, group.code()).map_err(refusal),
    read: |file, group, table| reference::read(file, group.code(), table).map_err(refusal),
    write: |groups, values, buffer| {
        let codes: Vec<u8> = groups.iter().map(|group| group.code()).collect();
        reference::write(&codes, values, buffer).map_err(refusal)
    },
    expand: |request, out| expansion(reference::expand(&reference_request(request), out)),
    holidays: |year, regional, list| {
        reference::holidays(year, RegionalDay::choice(regional), list).map_err(refusal)
    },
    deliveries: |given, out| {
        reference::deliveries(&reference_deliveries(given), out).map_err(refusal)
    },
    page: |request, page| expansion(reference::page(&reference_request(request), page)),
};

fn expansion(
    answer: Result<reference::Expansion, reference::Refusal>,
) -> Result<Expansion, Refusal> {
    let made = answer.map_err(refusal)?;
    Ok(Expansion {
        count: made.count,
        total: made.total,
        carry: made.carry,
    })
}

fn refusal(no: reference::Refusal) -> Refusal {
    Refusal {
        kind: RefusalKind::from_number(no.number).expect("a call's question"),
        place: no.place,
    }
}

fn reference_request<'a>(request: &Request<'a>) -> reference::Request<'a> {
    reference::Request {
        file: request.file,
        group: request.group.code(),
        first: request.first,
        last: request.last,
        holidays: request.holidays,
        yearly: request.yearly,
        carry: request.carry,
    }
}

fn reference_deliveries<'a>(given: &Deliveries<'a>) -> reference::Deliveries<'a> {
    reference::Deliveries {
        file: given.file,
        group: given.group.code(),
        first: given.first,
        last: given.last,
        starts: given.starts,
        metered: given.metered,
        holidays: given.holidays,
        yearly: given.yearly,
    }
}

pub static FAST: Calls = Calls {
    name: "fast",
    check: fast::check,
    read: fast::read,
    write: fast::write,
    expand: fast::expand,
    holidays: holidays::holidays,
    deliveries: deliveries::deliveries,
    page: page::page,
};

/// Expanding with tables kept for the whole call; the other calls are those of `FAST`.
pub static KEPT: Calls = Calls {
    name: "kept",
    check: fast::check,
    read: fast::read,
    write: fast::write,
    expand: kept::expand,
    holidays: holidays::holidays,
    deliveries: deliveries::deliveries,
    page: page::page,
};

pub static ALL: [&Calls; 4] = [&PROVED, &PLAIN, &FAST, &KEPT];

/// What a call is lent and what it answers.
#[derive(PartialEq)]
pub struct Work {
    pub out: Vec<u32>,
    pub table: Vec<u16>,
    pub buffer: Vec<u8>,
    pub differences: Vec<i64>,
    pub expanded: Option<Result<Expansion, Refusal>>,
    pub answered: Option<Answer>,
    pub listed: Option<Listed>,
}

impl Work {
    /// Lent memory of these lengths, with a content that no call writes by chance.
    pub fn new(out: usize, table: usize, buffer: usize, differences: usize) -> Work {
        Work {
            out: vec![0xA5A5_A5A5; out],
            table: vec![0xA5A5; table],
            buffer: vec![0xA5; buffer],
            differences: vec![0xA5A5_A5A5_A5A5; differences],
            expanded: None,
            answered: None,
            listed: None,
        }
    }

    /// Enough for every call.
    pub fn longest() -> Work {
        Work::new(
            slp::LONGEST_SERIES,
            slp::GROUP_VALUES,
            slp::file_length(11).max(slp::LONGEST_DAY_PAGE),
            MOST_PERIODS,
        )
    }
}
