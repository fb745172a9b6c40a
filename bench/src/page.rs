//! The fast baseline for the day page. No figure is stored: a day has one division, and its line is put together from tables, with two
//! digits of its energy at a time.
use slp::{day_page_length, Expansion, Group, Refusal, RefusalKind, Request};

use crate::day_sums;
use crate::days::{Days, Laid};
use crate::fast::{self, refuse};

const LINE: usize = 38;

/// A line with nothing in its fields.
const EMPTY: [u8; LINE] = *b"                                     \n";

/// Season letter and day digit, in the order of the tables.
const KINDS: [[u8; 2]; 9] = [
    *b"W1", *b"W2", *b"W3", *b"S1", *b"S2", *b"S3", *b"T1", *b"T2", *b"T3",
];

/// 00 to 99.
static PAIRS: [[u8; 2]; 100] = pairs();

const fn pairs() -> [[u8; 2]; 100] {
    let mut pairs = [[0; 2]; 100];
    let mut i = 0;
    while i < 100 {
        pairs[i] = [b'0' + (i / 10) as u8, b'0' + (i % 10) as u8];
        i += 1;
    }
    pairs
}

fn pair(number: u32) -> [u8; 2] {
    PAIRS[(number % 100) as usize]
}

/// Puts a number at the end of a field of spaces that has room for it.
fn put_number(field: &mut [u8], mut number: u64) {
    let mut end = field.len();
    while number >= 100 {
        field[end - 2..end].copy_from_slice(&pair((number % 100) as u32));
        number /= 100;
        end -= 2;
    }
    match number {
        0..10 => field[end - 1] = b'0' + number as u8,
        _ => field[end - 2..end].copy_from_slice(&pair(number as u32)),
    }
}

fn put_line(line: &mut [u8; LINE], first: [u8; 10], kind: [u8; 2], count: usize, energy: u64) {
    *line = EMPTY;
    line[..10].copy_from_slice(&first);
    line[11..13].copy_from_slice(&kind);
    put_number(&mut line[14..20], count as u64);
    put_number(&mut line[21..37], energy);
}

/// A date as yyyy-mm-dd.
fn dashed(date: u32) -> [u8; 10] {
    let ([a, b], [c, d]) = (pair(date / 1_000_000), pair(date / 10_000));
    let ([e, f], [g, h]) = (pair(date / 100), pair(date));
    [a, b, c, d, b'-', e, f, b'-', g, h]
}

pub fn page(request: &Request, page: &mut [u8]) -> Result<Expansion, Refusal> {
    let opened = fast::open(request.file, request.group, request.first, request.last)?;
    fast::check_rest(request)?;
    let count = (opened.last.number - opened.first.number + 1) as usize;
    let needed = day_page_length(count);
    let Some(page) = page.get_mut(..needed) else {
        return refuse(RefusalKind::ShortPage, needed);
    };
    let days = Days::new(opened.first, opened.last, request.holidays);
    let values = day_sums::values_of(opened.tables);
    let lines = page.as_chunks_mut().0;
    Ok(match request.group {
        Group::H0 => print(request, days, lines, day_sums::of_households(&values)),
        _ => print(request, days, lines, day_sums::of_others(&values)),
    })
}

/// Puts the lines of an accepted call, with what a day's powers add up to.
fn print(
    request: &Request,
    days: Days,
    lines: &mut [[u8; LINE]],
    of_day: impl Fn(&Laid) -> u64,
) -> Expansion {
    let (mut count, mut total) = (0, 0);
    let mut carry = u64::from(request.carry);
    let Some((last, lines)) = lines.split_last_mut() else {
        unreachable!("a page has a last line");
    };
    for (line, day) in lines.iter_mut().zip(days) {
        let sum = of_day(&day) * u64::from(request.yearly) + carry;
        let energy = sum / 40_000;
        carry = sum % 40_000;
        put_line(line, dashed(day.date), KINDS[day.table], day.values, energy);
        count += day.values;
        total += energy;
    }
    put_line(last, *b"total     ", *b"--", count, total);
    Expansion {
        count,
        total,
        carry: carry as u32,
    }
}
