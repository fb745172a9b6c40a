//! The fast baseline: the fastest safe Rust that we could write for the same answers, with a day's 96 powers laid out by value.
//! No division waits for the one before it, the loops run over arrays of fixed length, and most are written so that the
//! compiler puts several entries into one register of x86-64.
use reference::calendar::{day_of, is_date, Day};
use slp::{Expansion, Group, Refusal, RefusalKind, Request};

use crate::days::{values_of, Days};

const HEAD: usize = 6;
const PROFILE: usize = 1_729;
const VALUES: usize = 864;

pub type Table = [u8; 192];

pub fn refuse<T>(kind: RefusalKind, place: usize) -> Result<T, Refusal> {
    Err(Refusal { kind, place })
}

// The profile file.

// Question 5 of a profile's values: the index of the first bad one. Where no value has one of the upper two bits, all are below
// 16,384; where the largest will do, none is looked for.

fn bad_value(values: &[u16; VALUES]) -> Option<usize> {
    let bits = values.iter().fold(0, |bits, value| bits | value);
    if bits < 16_384 || values.iter().copied().fold(0, u16::max) <= 20_000 {
        return None;
    }
    values.iter().position(|&value| value > 20_000)
}

fn bad_value_in_bytes(bytes: &[u8]) -> Option<usize> {
    let (blocks, _) = bytes.as_chunks::<8>();
    let bits = blocks
        .iter()
        .fold(0, |bits, block| bits | u64::from_ne_bytes(*block));
    if bits & u64::from_ne_bytes([0xC0, 0, 0xC0, 0, 0xC0, 0, 0xC0, 0]) == 0 {
        return None;
    }
    let mut values = [0; VALUES];
    swap(bytes, &mut values);
    bad_value(&values)
}

/// The values of a profile's bytes.
fn swap(bytes: &[u8], values: &mut [u16; VALUES]) {
    for (value, bytes) in values.iter_mut().zip(bytes.as_chunks::<2>().0) {
        *value = u16::from_be_bytes(*bytes);
    }
}

/// Questions 1 to 6: the bytes of the group's values.
fn find(file: &[u8], group: Group) -> Result<&[u8], Refusal> {
    let Some((head, profiles)) = file.split_first_chunk::<HEAD>() else {
        return refuse(RefusalKind::NoMark, 0);
    };
    if head[..3] != *b"SLP" {
        return refuse(RefusalKind::NoMark, 0);
    }
    if head[3..5] != [0, 1] {
        return refuse(RefusalKind::WrongVersion, 0);
    }
    let count = usize::from(head[5]);
    if count == 0 || count > 11 || profiles.len() != PROFILE * count {
        return refuse(RefusalKind::WrongLength, 0);
    }
    let (profiles, _) = profiles.as_chunks::<PROFILE>();
    let mut found = None;
    let mut least = 0;
    for (i, profile) in profiles.iter().enumerate() {
        if profile[0] < least || profile[0] > 10 {
            return refuse(RefusalKind::BadCode, HEAD + PROFILE * i);
        }
        least = profile[0] + 1;
        if profile[0] == group.code() {
            found = Some(&profile[1..]);
        }
    }
    for (i, profile) in profiles.iter().enumerate() {
        if let Some(bad) = bad_value_in_bytes(&profile[1..]) {
            return refuse(RefusalKind::BadValue, HEAD + PROFILE * i + 1 + 2 * bad);
        }
    }
    match found {
        Some(part) => Ok(part),
        None => refuse(RefusalKind::NoGroup, 0),
    }
}

pub fn check(file: &[u8], group: Group) -> Result<(), Refusal> {
    find(file, group).map(|_| ())
}

pub fn read(file: &[u8], group: Group, table: &mut [u16]) -> Result<(), Refusal> {
    let part = find(file, group)?;
    let Some(table) = table.first_chunk_mut::<VALUES>() else {
        return refuse(RefusalKind::ShortOutput, VALUES);
    };
    swap(part, table);
    Ok(())
}

pub fn write(groups: &[Group], values: &[u16], buffer: &mut [u8]) -> Result<(), Refusal> {
    let count = groups.len();
    if count == 0 || count > 11 || values.len() != VALUES * count {
        return refuse(RefusalKind::WrongLength, 0);
    }
    if let Some(before) = groups.windows(2).position(|pair| pair[0] >= pair[1]) {
        return refuse(RefusalKind::BadCode, HEAD + PROFILE * (before + 1));
    }
    let (values, _) = values.as_chunks::<VALUES>();
    for (i, values) in values.iter().enumerate() {
        if let Some(bad) = bad_value(values) {
            return refuse(RefusalKind::BadValue, HEAD + PROFILE * i + 1 + 2 * bad);
        }
    }
    let needed = HEAD + PROFILE * count;
    let Some(buffer) = buffer.get_mut(..needed) else {
        return refuse(RefusalKind::ShortOutput, needed);
    };
    let (head, profiles) = buffer.split_at_mut(HEAD);
    head.copy_from_slice(&[b'S', b'L', b'P', 0, 1, count as u8]);
    let (profiles, _) = profiles.as_chunks_mut::<PROFILE>();
    for ((profile, values), group) in profiles.iter_mut().zip(values).zip(groups) {
        profile[0] = group.code();
        for (bytes, value) in profile[1..].as_chunks_mut::<2>().0.iter_mut().zip(values) {
            *bytes = value.to_be_bytes();
        }
    }
    Ok(())
}

// The questions of a series.

/// What questions 1 to 8 find.
pub struct Opened<'a> {
    pub tables: &'a [Table],
    pub first: Day,
    pub last: Day,
}

pub fn open(file: &[u8], group: Group, first: u32, last: u32) -> Result<Opened<'_>, Refusal> {
    let part = find(file, group)?;
    let Some(first) = day_of(first) else {
        return refuse(RefusalKind::BadDate, 0);
    };
    let Some(last) = day_of(last) else {
        return refuse(RefusalKind::BadDate, 1);
    };
    if first.number > last.number || last.number - first.number >= 1_461 {
        return refuse(RefusalKind::BadPeriod, 0);
    }
    Ok(Opened {
        tables: part.as_chunks().0,
        first,
        last,
    })
}

/// Questions 9 to 11.
pub fn check_rest(request: &Request) -> Result<(), Refusal> {
    check_basis(request.holidays, request.yearly)?;
    if request.carry > 39_999 {
        return refuse(RefusalKind::BadCarry, 0);
    }
    Ok(())
}

/// Questions 9 and 10.
pub fn check_basis(holidays: &[u32], yearly: u32) -> Result<(), Refusal> {
    check_list(holidays)?;
    if yearly > 1_000_000_000 {
        return refuse(RefusalKind::BadUse, 0);
    }
    Ok(())
}

/// Question 9.
fn check_list(holidays: &[u32]) -> Result<(), Refusal> {
    let mut before = 0;
    for (i, &date) in holidays.iter().enumerate() {
        if i == 400 || date <= before || !is_date(date) {
            return refuse(RefusalKind::BadHoliday, i);
        }
        before = date;
    }
    Ok(())
}

/// A request that passed questions 1 to 12.
pub struct Accepted<'a, 'b> {
    pub tables: &'a [Table],
    pub days: Days<'a>,
    pub figures: &'b mut [u32],
}

pub fn accept<'a, 'b>(
    request: &Request<'a>,
    out: &'b mut [u32],
) -> Result<Accepted<'a, 'b>, Refusal> {
    let Opened {
        tables,
        first,
        last,
    } = open(request.file, request.group, request.first, request.last)?;
    check_rest(request)?;
    let needed = values_of(first, last);
    let Some(figures) = out.get_mut(..needed) else {
        return refuse(RefusalKind::ShortOutput, needed);
    };
    Ok(Accepted {
        tables,
        days: Days::new(first, last, request.holidays),
        figures,
    })
}

// The series.

/// F of a household on a day, in 1/10,000.
fn factor(t: u32) -> u32 {
    let t = i64::from(t);
    let x = (((-392 * t + 320_000) * t - 70_200_000) * t + 2_100_000_000) * t + 1_240_000_000_000;
    ((x + 50_000_000) / 100_000_000) as u32
}

/// A day's factor for powers in 16 bits, so that eight fit one register: P times F / 10,000, the latter rounded to 1/32,768, is less
/// than 0.31 from the exact product, so its whole part is Q or one less, and the rest, which is between 1,900 and 18,100, says which.
#[derive(Clone, Copy)]
pub struct Scale {
    factor: u16,
    scale: u16,
}

impl Scale {
    pub fn on(t: u32) -> Scale {
        let factor = factor(t);
        Scale {
            factor: factor as u16,
            scale: ((32_768 * factor + 5_000) / 10_000) as u16,
        }
    }

    #[inline]
    pub fn power(self, value: u16) -> u16 {
        let whole = ((u32::from(2 * value) * u32::from(self.scale)) >> 16) as u16;
        let rest = value
            .wrapping_mul(self.factor)
            .wrapping_add(5_000)
            .wrapping_sub(whole.wrapping_mul(10_000));
        whole + u16::from(rest as i16 >= 10_000)
    }
}

/// Lays out a household's day.
fn lay_household(table: &Table, t: u32, powers: &mut [u32; 96]) {
    let scale = Scale::on(t);
    let mut short = [0; 96];
    for (power, bytes) in short.iter_mut().zip(table.as_chunks::<2>().0) {
        *power = scale.power(u16::from_be_bytes(*bytes));
    }
    *powers = short.map(u32::from);
}

/// Lays out a day of another group.
fn lay(table: &Table, powers: &mut [u32; 96]) {
    for (power, bytes) in powers.iter_mut().zip(table.as_chunks::<2>().0) {
        *power = u32::from(u16::from_be_bytes(*bytes));
    }
}

/// 2^52. A float from here to its double is a whole number, and its bits are those of 2^52 plus what it is above 2^52.
const BASE: f64 = 4_503_599_627_370_496.0;

/// The bits of BASE plus a sum, to those of BASE plus the sum's quotient by 40,000. A sum is at least 40,000, so that all stays
/// above BASE, and a day's is below 2^52 and its quotient below 2^36, so that the product is wrong by less than 0.000011;
/// 0.4999875 below it the nearest whole number is the quotient.
fn divided(bits: u64) -> u64 {
    let sum = f64::from_bits(bits) - BASE;
    (sum * (1.0 / 40_000.0) - 0.4999875 + BASE).to_bits()
}

/// The parts of a watt hour in which a small customer's sums are kept: 2^38.
const PARTS: u64 = 1 << 38;

/// The carry and the total as they run, and room for a day's sums at every second value.
struct Run {
    yearly: u32,
    carry: u64,
    total: u64,
    sums: [u64; 48],
}

impl Run {
    /// Stores the figures of some powers of a day: what each adds to the quotient of the sum so far.
    fn store<const N: usize>(&mut self, powers: &[u32; N], figures: &mut [u32; N]) {
        if self.yearly <= 500_000 {
            self.store_in_parts(powers, figures);
        } else {
            self.store_in_floats(powers, figures);
        }
    }

    /// For a yearly use of at most 500,000 kWh a day's sum fits 64 bits in parts of 1/2^38 Wh. Carry and yearly use are turned into
    /// parts, rounded up; the sum is then too large by less than 1/40,000 Wh, which changes no quotient.
    fn store_in_parts<const N: usize>(&mut self, powers: &[u32; N], figures: &mut [u32; N]) {
        let scaled = |n: u64| (n * PARTS).div_ceil(40_000);
        let energy = scaled(u64::from(self.yearly));
        let mut sum = scaled(self.carry);
        let mut before = 0;
        for (figure, &power) in figures.iter_mut().zip(powers) {
            sum += u64::from(power) * energy;
            let after = (sum / PARTS) as u32;
            *figure = after - before;
            before = after;
        }
        self.carry = (sum % PARTS * 40_000) / PARTS;
        self.total += u64::from(before);
    }

    /// For any yearly use: the quotients two at a time as floats. First every second sum is made, which is all that waits for
    /// the one before; then the sums between them and the quotients of both. The sums begin with 40,000, so the quotients with
    /// 1.
    fn store_in_floats<const N: usize>(&mut self, powers: &[u32; N], figures: &mut [u32; N]) {
        let energy = |power: u32| u64::from(power) * u64::from(self.yearly);
        let (powers, _) = powers.as_chunks::<2>();
        let (figures, _) = figures.as_chunks_mut::<2>();
        let mut sum = BASE.to_bits() + 40_000 + self.carry;
        for (at, [first, second]) in self.sums.iter_mut().zip(powers) {
            sum += energy(first + second);
            *at = sum;
        }
        let start = BASE.to_bits() + 1;
        let mut before = start;
        for ((figures, [_, second]), &sum) in figures.iter_mut().zip(powers).zip(&self.sums) {
            let between = divided(sum - energy(*second));
            let after = divided(sum);
            *figures = [(between - before) as u32, (after - between) as u32];
            before = after;
        }
        let quotient = before - start;
        self.carry = sum - BASE.to_bits() - 40_000 * (quotient + 1);
        self.total += quotient;
    }

    /// Stores the figures of the powers from `START` to the one before `START + N`, and gives the room behind them.
    fn part<'a, const START: usize, const N: usize>(
        &mut self,
        powers: &[u32; 96],
        room: &'a mut [u32],
    ) -> &'a mut [u32] {
        let powers = powers[START..].first_chunk::<N>();
        let (Some(powers), Some((figures, behind))) = (powers, room.split_first_chunk_mut()) else {
            unreachable!("the room is for all days' figures");
        };
        self.store(powers, figures);
        behind
    }
}

pub fn expand(request: &Request, out: &mut [u32]) -> Result<Expansion, Refusal> {
    let accepted = accept(request, out)?;
    let count = accepted.figures.len();
    let mut room = accepted.figures;
    let mut powers = [0; 96];
    let mut run = Run {
        yearly: request.yearly,
        carry: u64::from(request.carry),
        total: 0,
        sums: [0; 48],
    };
    for day in accepted.days {
        let table = &accepted.tables[day.table];
        match request.group {
            Group::H0 => lay_household(table, day.t, &mut powers),
            _ => lay(table, &mut powers),
        }
        room = match day.values {
            92 => {
                let behind = run.part::<0, 8>(&powers, room);
                run.part::<12, 84>(&powers, behind)
            }
            100 => {
                let behind = run.part::<0, 12>(&powers, room);
                run.part::<8, 88>(&powers, behind)
            }
            _ => run.part::<0, 96>(&powers, room),
        };
    }
    Ok(Expansion {
        count,
        total: run.total,
        carry: run.carry as u32,
    })
}
