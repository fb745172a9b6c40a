//! Random inputs, from a generator with fixed seeds: mostly good ones, and damage of every kind that a question asks about.
use std::sync::OnceLock;

use reference::calendar::{self, Day};
use reference::file::{HEAD, LARGEST_VALUE, PROFILE, VALUES};

use crate::profile_file;

/// xorshift64*.
pub struct Draw(u64);

impl Draw {
    pub fn new(seed: u64) -> Draw {
        Draw(seed.wrapping_mul(0x9e37_79b9_7f4a_7c15) | 1)
    }

    pub fn bits(&mut self) -> u64 {
        self.0 ^= self.0 >> 12;
        self.0 ^= self.0 << 25;
        self.0 ^= self.0 >> 27;
        self.0.wrapping_mul(0x2545_f491_4f6c_dd1d)
    }

    /// 0 to n - 1.
    pub fn below(&mut self, n: usize) -> usize {
        ((u128::from(self.bits()) * n as u128) >> 64) as usize
    }

    /// From `from` to `to`, both included.
    pub fn between(&mut self, from: usize, to: usize) -> usize {
        from + self.below(to - from + 1)
    }

    pub fn chance(&mut self, per_cent: usize) -> bool {
        self.below(100) < per_cent
    }

    pub fn pick<T: Copy>(&mut self, from: &[T]) -> T {
        from[self.below(from.len())]
    }

    pub fn byte(&mut self) -> u8 {
        self.bits() as u8
    }

    pub fn word(&mut self) -> u32 {
        self.bits() as u32
    }
}

// Codes, values and files.

/// Strictly rising codes 0 to 10.
pub fn codes(draw: &mut Draw) -> Vec<u8> {
    let count = draw.pick(&[1, 1, 1, 2, 2, 3, 4, 6, 11]);
    let mut codes: Vec<u8> = (0..=10).collect();
    while codes.len() > count {
        codes.remove(draw.below(codes.len()));
    }
    codes
}

/// Values 0 to 20,000 for `count` profiles: alike, at the edges, small or any.
pub fn values(draw: &mut Draw, count: usize) -> Vec<u16> {
    let (kind, constant) = (draw.below(6), value(draw));
    (0..VALUES * count)
        .map(|_| match kind {
            0 => constant,
            1 => draw.pick(&[0, 1, LARGEST_VALUE - 1, LARGEST_VALUE]),
            2 => draw.below(2_000) as u16,
            _ => value(draw),
        })
        .collect()
}

fn value(draw: &mut Draw) -> u16 {
    draw.between(0, LARGEST_VALUE.into()) as u16
}

fn bad_value(draw: &mut Draw) -> u16 {
    let any = draw.between(20_001, 65_535) as u16;
    draw.pick(&[20_001, 65_535, 32_768, any])
}

/// A file that is no good for about `damaged` in a hundred, and the codes it had before the damage.
pub fn file(draw: &mut Draw, damaged: usize) -> (Vec<u8>, Vec<u8>) {
    let codes = codes(draw);
    let mut values = values(draw, codes.len());
    if codes.len() > 1 && draw.chance(50) {
        copy_profile(draw, &mut values);
    }
    let mut bytes = profile_file::of(&codes, &values);
    if draw.chance(damaged) {
        damage(draw, &mut bytes);
        if draw.chance(20) {
            damage(draw, &mut bytes);
        }
    }
    (bytes, codes)
}

/// Makes one profile a copy of another, or one that differs in a single value.
fn copy_profile(draw: &mut Draw, values: &mut [u16]) {
    let count = values.len() / VALUES;
    let (from, to) = (draw.below(count), draw.below(count));
    values.copy_within(VALUES * from..VALUES * (from + 1), VALUES * to);
    if draw.chance(40) {
        let any = draw.below(VALUES);
        let at = VALUES * to + draw.pick(&[0, VALUES - 1, any]);
        values[at] = if values[at] == 0 { 1 } else { values[at] - 1 };
    }
}

fn damage(draw: &mut Draw, file: &mut Vec<u8>) {
    match draw.below(13) {
        0 => file.truncate(draw.between(0, file.len())),
        1 => file.truncate(draw.between(0, 7)),
        2 => file.truncate(file.len().saturating_sub(draw.pick(&[1, 2, PROFILE]))),
        3 => lengthen(draw, file),
        4 => {
            let at = draw.below(3);
            flip(draw, file, at);
        }
        5 => {
            let at = draw.between(3, 4);
            flip(draw, file, at);
        }
        6 => put(file, 5, draw.byte()),
        7 => whole_with_count(file, draw.pick(&[0, 12, 255])),
        8 => {
            let at = profile_start(draw, file);
            put(file, at, draw.byte());
        }
        9 => {
            let at = profile_start(draw, file);
            put(file, at, draw.between(0, 11) as u8);
        }
        10 => raise_value(draw, file),
        11 => {
            raise_value(draw, file);
            raise_value(draw, file);
        }
        _ => {
            let at = draw.below(file.len() + 1);
            flip(draw, file, at);
        }
    }
}

fn lengthen(draw: &mut Draw, file: &mut Vec<u8>) {
    let more = draw.pick(&[1, 2, 500, PROFILE]);
    file.extend((0..more).map(|_| draw.byte()));
}

fn put(file: &mut [u8], at: usize, byte: u8) {
    if let Some(there) = file.get_mut(at) {
        *there = byte;
    }
}

fn flip(draw: &mut Draw, file: &mut [u8], at: usize) {
    if let Some(there) = file.get_mut(at) {
        *there ^= 1 << draw.below(8);
    }
}

/// A file of just the length that its count says, with a count outside 1 to 11.
fn whole_with_count(file: &mut Vec<u8>, count: u8) {
    file.resize(HEAD + PROFILE * usize::from(count), 0);
    put(file, 5, count);
}

fn profile_start(draw: &mut Draw, file: &[u8]) -> usize {
    HEAD + PROFILE * draw.below(file.len() / PROFILE + 1)
}

fn raise_value(draw: &mut Draw, file: &mut [u8]) {
    let any = draw.below(VALUES);
    let at = profile_start(draw, file) + 1 + 2 * draw.pick(&[0, VALUES - 1, any]);
    let [high, low] = bad_value(draw).to_be_bytes();
    put(file, at, high);
    put(file, at + 1, low);
}

/// Mostly a group of the file.
pub fn group(draw: &mut Draw, codes: &[u8]) -> u8 {
    match draw.below(100) {
        0..=2 => draw.byte(),
        3..=9 => draw.between(0, 10) as u8,
        _ => draw.pick(codes),
    }
}

/// Codes and values that writing accepts, or some that it does not.
pub fn contents(draw: &mut Draw) -> (Vec<u8>, Vec<u16>) {
    let mut codes = codes(draw);
    let mut values = values(draw, codes.len());
    match draw.below(20) {
        0 => values.truncate(draw.below(values.len())),
        1 => values.extend((0..draw.pick(&[1, 2, VALUES])).map(|i| i as u16)),
        2 => {
            let count = draw.pick(&[0, 12, 13, 256, 257]);
            codes.resize(count, 3);
            values.resize(VALUES * count, 5);
        }
        3 => {
            let at = draw.below(codes.len());
            codes[at] = draw.byte();
        }
        4 => {
            let (i, j) = (draw.below(codes.len()), draw.below(codes.len()));
            codes.swap(i, j);
        }
        5 => {
            let at = draw.below(codes.len());
            codes[at] = draw.between(0, 11) as u8;
        }
        6 | 7 => {
            for _ in 0..draw.between(1, 3) {
                let any = draw.below(values.len());
                let at = draw.pick(&[0, values.len() - 1, any]);
                values[at] = bad_value(draw);
            }
        }
        _ => {}
    }
    (codes, values)
}

/// A length for an output that needs `needed` entries: exact, longer, or sometimes too short.
pub fn output_length(draw: &mut Draw, needed: usize) -> usize {
    match draw.below(40) {
        0 => 0,
        1 => needed.saturating_sub(1),
        2 => draw.between(0, needed),
        3..=14 => needed,
        15..=19 => needed + 1,
        _ => needed + draw.between(2, 64),
    }
}

// Dates and lists.

/// All days from 1996-01-01 to 2099-12-31.
pub fn span() -> &'static [Day] {
    static SPAN: OnceLock<Vec<Day>> = OnceLock::new();
    SPAN.get_or_init(|| calendar::span().collect())
}

/// Where a date stands in the span, if it does.
pub fn index_of(date: u32) -> Option<usize> {
    calendar::day_of(date).map(|day| day.number as usize)
}

/// How many values the days have.
pub fn values_of(days: &[Day]) -> usize {
    days.iter().map(|day| day.values()).sum()
}

const MARKED: [u32; 12] = [
    101, 228, 301, 320, 328, 514, 914, 1028, 1031, 1224, 1226, 1231,
];

/// The index of a day of the span, half of them near a day on which something changes.
pub fn day_index(draw: &mut Draw) -> usize {
    let last = span().len() - 1;
    if draw.chance(50) {
        return draw.between(0, last);
    }
    let date = 10_000 * draw.between(1996, 2099) as u32 + draw.pick(&MARKED);
    let near = index_of(date).expect("the marked days are real") + draw.below(9);
    near.saturating_sub(4).min(last)
}

/// The date of a day of the span.
pub fn date_at(index: usize) -> u32 {
    span()[index].date()
}

/// Whether a date is a 24 or 31 December that is no Sunday, where the list decides between Saturday and Sunday.
pub fn is_eve(date: u32) -> bool {
    let day = calendar::day_of(date);
    [1224, 1231].contains(&(date % 10_000)) && day.is_some_and(|day| day.weekday != 7)
}

/// A number that is mostly no date of the span.
fn bad_date(draw: &mut Draw) -> u32 {
    let good = date_at(day_index(draw));
    match draw.below(8) {
        0 => draw.word(),
        1 => draw.pick(&[0, 1, 19_951_231, 21_000_101, 99_991_231, u32::MAX]),
        2 => good / 10_000 * 10_000 + 229,
        3 => good / 100 * 100 + draw.pick(&[0, 29, 30, 31, 32, 99]),
        4 => good / 10_000 * 10_000 + draw.pick(&[0, 13, 99]) * 100 + good % 100,
        5 => good % 10_000 + draw.pick(&[0, 1995, 2100, 9999]) * 10_000,
        6 => good / 10_000 * 10_000 + draw.pick(&[230, 231, 431, 631, 931, 1131]),
        _ => good + 10_000 * draw.between(1, 200) as u32,
    }
}

/// Mostly the day's date.
pub fn date(draw: &mut Draw, index: usize, bad: usize) -> u32 {
    if draw.chance(bad) {
        bad_date(draw)
    } else {
        date_at(index)
    }
}

/// First and last index of a period: mostly a few days, sometimes up to 1,461, some reversed or too long.
pub fn period(draw: &mut Draw) -> (usize, usize) {
    let days = match draw.below(1000) {
        0..=4 => 1_461,
        5..=9 => draw.between(1_400, 1_460),
        10..=14 => 1_462,
        15..=24 => draw.between(1_463, 5_000),
        25..=60 => draw.between(30, 400),
        61..=300 => 1,
        _ => draw.between(2, 6),
    };
    let first = day_index(draw).min(span().len() - days);
    let last = first + days - 1;
    if draw.chance(2) {
        (last, first)
    } else {
        (first, last)
    }
}

/// A list of holidays, mostly in order, with days at and after `near`.
pub fn list(draw: &mut Draw, near: usize) -> Vec<u32> {
    let length = match draw.below(40) {
        0..=11 => 0,
        12..=33 => draw.between(1, 12),
        34..=36 => draw.between(13, 60),
        37 => 400,
        38 => draw.between(390, 400),
        _ => draw.pick(&[401, 402, 450]),
    };
    let (step, before) = (draw.between(1, 3), draw.below(length + 4));
    let room = span().len() - step * length - 1;
    let start = near.saturating_sub(before).min(room);
    let mut index = start;
    let mut list = Vec::new();
    for _ in 0..length {
        list.push(date_at(index));
        index += draw.between(1, step);
    }
    if length > 0 && draw.chance(8) {
        disorder(draw, &mut list);
    }
    list
}

fn disorder(draw: &mut Draw, list: &mut [u32]) {
    let at = draw.below(list.len());
    let other = draw.below(list.len());
    match draw.below(4) {
        0 => list[at] = bad_date(draw),
        1 => list[at] = list[at.saturating_sub(1)],
        2 => list.swap(at, other),
        _ => list[at] = date_at(day_index(draw)),
    }
}

// Uses and carries.

pub fn yearly(draw: &mut Draw) -> u32 {
    match draw.below(50) {
        0 => draw.pick(&[1_000_000_001, u32::MAX, 4_000_000_000]),
        1 => 1_000_000_001 + draw.below(3_000_000_000) as u32,
        2..=5 => 0,
        6..=11 => 1_000_000_000,
        12..=14 => draw.pick(&[499_999, 500_000, 500_001]),
        15..=35 => draw.below(100_000) as u32,
        _ => draw.between(0, 1_000_000_000) as u32,
    }
}

pub fn carry(draw: &mut Draw) -> u32 {
    match draw.below(50) {
        0 => draw.pick(&[40_000, 40_001, u32::MAX]),
        1 => 40_000 + draw.below(4_000_000_000) as u32,
        2..=9 => 0,
        10..=15 => 39_999,
        _ => draw.below(40_000) as u32,
    }
}
