//! What the powers of a day add up to, for the fast baselines that store no figures.
use crate::days::Laid;
use crate::fast::{Scale, Table};

/// A day's 96 values or powers.
pub type Powers = [u16; 96];

/// What the powers of a day with so many values add up to: March leaves out positions 8 to 11, October repeats them. A power is at most
/// 25,194, so that two fit 16 bits.
fn sum(powers: &Powers, count: usize) -> u64 {
    let (morning, evening) = powers.split_at(48);
    let pairs = morning.iter().zip(evening).map(|(a, b)| a + b);
    let day: u32 = pairs.map(u32::from).sum();
    let hour = || powers[8..12].iter().copied().map(u32::from).sum::<u32>();
    u64::from(match count {
        92 => day - hour(),
        100 => day + hour(),
        _ => day,
    })
}

/// The values of the nine day tables.
pub fn values_of(tables: &[Table]) -> [Powers; 9] {
    let mut days = [[0; 96]; 9];
    for (values, table) in days.iter_mut().zip(tables) {
        for (value, bytes) in values.iter_mut().zip(table.as_chunks::<2>().0) {
            *value = u16::from_be_bytes(*bytes);
        }
    }
    days
}

/// The sum of a household's day.
pub fn of_households(values: &[Powers; 9]) -> impl Fn(&Laid) -> u64 + '_ {
    |day| {
        let (scale, mut powers) = (Scale::on(day.t), [0; 96]);
        for (power, &value) in powers.iter_mut().zip(&values[day.table]) {
            *power = scale.power(value);
        }
        sum(&powers, day.values)
    }
}

/// The sum of another group's day, which is its table's, by the count of its values.
pub fn of_others(values: &[Powers; 9]) -> impl Fn(&Laid) -> u64 {
    let sums = [92, 96, 100].map(|count| values.map(|values| sum(&values, count)));
    move |day| sums[(day.values - 92) / 4][day.table]
}
