//! Inputs of the program: put together from their parts, and drawn at random, some of them damaged.
use crate::draw::{self, Draw};
use crate::profile_file;

pub const LONGEST_INPUT: usize = 65_536;

/// An input, put together from its parts.
pub fn input(group: u8, numbers: [u32; 3], holidays: &[u32], file: &[u8]) -> Vec<u8> {
    let mut bytes = vec![group];
    bytes.extend(numbers.iter().flat_map(|number| number.to_be_bytes()));
    bytes.extend((holidays.len() as u16).to_be_bytes());
    bytes.extend(holidays.iter().flat_map(|date| date.to_be_bytes()));
    bytes.extend(file);
    bytes
}

/// A file of the groups from H0 up to `last`, with one value throughout.
pub fn constant_file(last: u8, value: u16) -> Vec<u8> {
    let codes: Vec<u8> = (0..=last).collect();
    profile_file::of(&codes, &vec![value; reference::file::VALUES * codes.len()])
}

pub fn dates(first: u32, days: usize) -> Vec<u32> {
    let first = draw::index_of(first).unwrap();
    (first..first + days).map(draw::date_at).collect()
}

/// First and last index of a period, more often a long one than `draw::period` has it.
fn drawn_period(draw: &mut Draw) -> (usize, usize) {
    if !draw.chance(8) {
        return draw::period(draw);
    }
    let days = draw.pick(&[1_461, 1_461, 1_461, 1_460, 366, 1_462]);
    let first = draw.between(0, draw::span().len() - days);
    (first, first + days - 1)
}

pub fn drawn_input(draw: &mut Draw) -> Vec<u8> {
    let (file, codes) = draw::file(draw, 15);
    let group = draw::group(draw, &codes);
    let (first, last) = drawn_period(draw);
    let dates = [first, last].map(|index| draw::date(draw, index, 3));
    let yearly = draw::yearly(draw);
    let holidays = draw::list(draw, first);
    let mut bytes = input(group, [dates[0], dates[1], yearly], &holidays, &file);
    damage(draw, &mut bytes, holidays.len());
    bytes
}

/// Sometimes cuts the head or the list, makes the list's length another, or the input too long.
fn damage(draw: &mut Draw, bytes: &mut Vec<u8>, listed: usize) {
    match draw.below(40) {
        0 => bytes.truncate(draw.between(0, 14)),
        1 => bytes.truncate(15 + draw.between(0, 4 * listed)),
        2 => {
            let any = draw.word() as u16;
            let other = draw.pick(&[listed as u16 + 1, any, any % 1_000, u16::MAX]);
            bytes[13..15].copy_from_slice(&other.to_be_bytes());
        }
        3 => {
            let length = LONGEST_INPUT + draw.pick(&[0, 1, 2, 10_000, 200_000]);
            bytes.resize(length, draw.byte());
        }
        _ => {}
    }
}

/// Whether one of the lines is that of a 24 or 31 December which is no Sunday, with this day type: W2 unlisted, W3 listed.
pub fn has_a_years_end(text: &str, day_type: &str) -> bool {
    let of = |line: &str| {
        let (date, rest) = line.split_once(' ').expect("a line has fields");
        rest.starts_with(day_type) && date.replace('-', "").parse().is_ok_and(draw::is_eve)
    };
    text.lines().any(of)
}
