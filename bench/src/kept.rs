//! The limit for groups without dynamisation, where a day's powers are its table's values: what a table adds up to is worked
//! out once a call, and no division is left for each figure. No day is laid out as 96 powers, so this is not what
//! document 01 asks for. A household's series is made as `fast` does.
use slp::{Expansion, Group, Refusal, Request};

use crate::fast::{self, Table};

/// Of a table's first k values, k from 0 to 96: the sum of P x A, and its remainder by 40,000; of the k-th, what it adds to
/// the quotient.
struct Kept {
    sums: [u64; 97],
    remainders: [i32; 97],
    growths: [u32; 96],
}

impl Kept {
    fn new(table: &Table, yearly: u32) -> Kept {
        let mut kept = Kept {
            sums: [0; 97],
            remainders: [0; 97],
            growths: [0; 96],
        };
        for (k, bytes) in table.as_chunks::<2>().0.iter().enumerate() {
            let sum = kept.sums[k] + u64::from(u16::from_be_bytes(*bytes)) * u64::from(yearly);
            kept.growths[k] = (sum / 40_000 - kept.sums[k] / 40_000) as u32;
            kept.remainders[k + 1] = (sum % 40_000) as i32;
            kept.sums[k + 1] = sum;
        }
        kept
    }

    /// Stores the figures of the values from `start` to the one before `end`, and gives the carry after them. A quotient is one
    /// more where remainder and carry make 40,000; the carry is first put back to the table's beginning.
    fn store(&self, start: usize, end: usize, carry: i32, figures: &mut [u32]) -> i32 {
        let carry = (40_000 - self.remainders[start] + carry) % 40_000;
        let more = |remainder: i32| u32::from(remainder >= 40_000 - carry);
        let remainders = &self.remainders[start..=end];
        let growths = &self.growths[start..end];
        let around = remainders.iter().zip(&remainders[1..]);
        for ((figure, growth), (&before, &after)) in figures.iter_mut().zip(growths).zip(around) {
            *figure = growth + more(after) - more(before);
        }
        (self.remainders[end] + carry) % 40_000
    }
}

pub fn expand(request: &Request, out: &mut [u32]) -> Result<Expansion, Refusal> {
    if request.group == Group::H0 {
        return fast::expand(request, out);
    }
    let accepted = fast::accept(request, out)?;
    let tables = accepted.tables.iter();
    let kept: Vec<Kept> = tables
        .map(|table| Kept::new(table, request.yearly))
        .collect();
    let mut sum = u64::from(request.carry);
    let mut carry = request.carry as i32;
    let count = accepted.figures.len();
    let mut rest = accepted.figures;
    for day in accepted.days {
        let kept = &kept[day.table];
        let parts: &[(usize, usize)] = match day.values {
            92 => &[(0, 8), (12, 96)],
            100 => &[(0, 12), (8, 96)],
            _ => &[(0, 96)],
        };
        for &(start, end) in parts {
            let (figures, behind) = rest.split_at_mut(end - start);
            carry = kept.store(start, end, carry, figures);
            sum += kept.sums[end] - kept.sums[start];
            rest = behind;
        }
    }
    Ok(Expansion {
        count,
        total: sum / 40_000,
        carry: carry as u32,
    })
}
