//! What is likely to be wrong with values that every question accepts. It only warns.
use slp::{Group, Request, GROUP_VALUES};

use crate::amounts::Decimal;
use crate::clock::QUARTERS;
use crate::failure::warn;
use crate::german;
use crate::profiles::Profiles;
use crate::table::DAYS;

/// The year whose holidays source document 000 lists in step 4.
pub const PAPER_YEAR: u32 = 2000;

/// What a year should have: 1,000 kWh, in Wh.
const NORMAL: u64 = 1_000_000;

/// The energy of the paper's year in Wh for 1,000 kWh a year, with the holidays of all of Germany, where the file is accepted and has
/// the group.
pub fn yearly_energy(profiles: &Profiles, group: Group) -> Option<u64> {
    let holidays = german::dates(PAPER_YEAR, &[]).ok()?;
    let request = Request {
        file: &profiles.file,
        group,
        first: 10_000 * PAPER_YEAR + 101,
        last: 10_000 * PAPER_YEAR + 1231,
        holidays: &holidays,
        yearly: 1000,
        carry: 0,
    };
    let mut out = vec![0; 366 * 100];
    slp::expand(&request, &mut out).ok().map(|made| made.total)
}

/// What a year's energy makes of the table's unit, where it is not watts.
fn unit_of(energy: u64) -> Option<&'static str> {
    match energy {
        // A thousandth, with values that one decimal leaves little of.
        100..=10_000 => Some("kW"),
        // A quarter.
        240_000..=260_000 => Some("Wh"),
        _ => None,
    }
}

/// Warns of a table that seems to be in another unit than watts, or to be no profile for 1,000 kWh a year at all.
pub fn warn_of_energy(profiles: &Profiles, group: Group) {
    let Some(energy) = yearly_energy(profiles, group) else {
        return;
    };
    let name = profiles.source_of(group);
    if let Some(unit) = unit_of(energy) {
        warn(&format!(
            "{name}: the values of {group} look like {unit}: see `dusterteal check`"
        ));
    } else if energy.abs_diff(NORMAL) > NORMAL / 8 {
        warn(&format!(
            "{name}: a year of {group} has {energy} Wh for 1000 kWh a year: see `dusterteal check`"
        ));
    }
}

/// How far a year's energy is off, as a percentage of 1,000 kWh. Its four decimals are exact.
pub fn deviation(energy: u64) -> String {
    let sign = if energy < NORMAL { '-' } else { '+' };
    format!(
        "{sign}{} %",
        Decimal::Point.text(energy.abs_diff(NORMAL), 4)
    )
}

/// What is likely to be wrong with a group's values.
pub fn doubts(group: Group, energy: u64, values: &[u16]) -> Vec<String> {
    let mut doubts = Vec::new();
    match unit_of(energy) {
        Some(unit) => doubts.push(format!(
            "the values look like {unit}; they should be W for 1000 kWh a year"
        )),
        // 1.5 % of 1,000 kWh.
        None if energy.abs_diff(NORMAL) > NORMAL * 15 / 1000 => {
            doubts.push(
                "a year is more than 1.5 % off 1000 kWh (source document 000, step 4)".to_owned(),
            );
        }
        None => {}
    }
    doubts.extend(equal_days(values));
    doubts.extend(sundays_above(group, values));
    doubts
}

fn day(values: &[u16], index: usize) -> &[u16] {
    &values[QUARTERS * index..][..QUARTERS]
}

/// The day tables that have the same values, each set of them once.
fn equal_days(values: &[u16]) -> Vec<String> {
    assert_eq!(values.len(), GROUP_VALUES);
    let mut doubts = Vec::new();
    for first in 0..DAYS.len() {
        let same = |other: &usize| day(values, *other) == day(values, first);
        let is_first = !(0..first).any(|before| same(&before));
        let names: Vec<&str> = (first..DAYS.len()).filter(same).map(|i| DAYS[i]).collect();
        if is_first && names.len() > 1 {
            doubts.push(format!(
                "these days have equal tables: {}",
                names.join(", ")
            ));
        }
    }
    doubts
}

/// The seasons in which a trade profile's Sunday has more energy than its weekday. G6 is trade at the weekend, where that is right.
fn sundays_above(group: Group, values: &[u16]) -> Vec<String> {
    let is_weekday_trade = (Group::G0..=Group::G5).contains(&group);
    let sum = |index: usize| {
        day(values, index)
            .iter()
            .map(|&value| u32::from(value))
            .sum::<u32>()
    };
    let above = |weekday: &usize| is_weekday_trade && sum(weekday + 2) > sum(*weekday);
    let seasons = (0..DAYS.len()).step_by(3).filter(above);
    let words = |weekday: usize| {
        format!(
            "{} lies above {}, which is odd for trade",
            DAYS[weekday + 2],
            DAYS[weekday]
        )
    };
    seasons.map(words).collect()
}

#[cfg(test)]
mod tests {
    use super::*;

    /// Nine days, each with one value throughout.
    fn days(values: [u16; 9]) -> Vec<u16> {
        values
            .into_iter()
            .flat_map(|value| [value; QUARTERS])
            .collect()
    }

    const PLAIN: [u16; 9] = [1300, 1210, 900, 1200, 1100, 800, 1250, 1150, 850];

    #[test]
    fn a_unit_is_known_by_the_years_energy() {
        for (limits, unit) in [([100, 10_000], "kW"), ([240_000, 260_000], "Wh")] {
            assert_eq!(limits.map(unit_of), [Some(unit); 2]);
            assert_eq!([limits[0] - 1, limits[1] + 1].map(unit_of), [None; 2]);
        }
        assert_eq!([0, 879_000, 1_000_000].map(unit_of), [None; 3]);
    }

    #[test]
    fn more_than_one_and_a_half_percent_is_doubted() {
        let doubted =
            |energy| !doubts(Group::H0, energy, &days([1, 2, 3, 4, 5, 6, 7, 8, 9])).is_empty();
        assert_eq!(
            [984_999, 985_000, 1_015_000, 1_015_001].map(doubted),
            [true, false, false, true]
        );
        assert_eq!(
            [1_012_345, 984_999].map(deviation),
            ["+1.2345 %", "-1.5001 %"]
        );
    }

    #[test]
    fn equal_days_are_named_once() {
        let of = |values| doubts(Group::L0, NORMAL, &days(values));
        assert_eq!(of(PLAIN), [""; 0]);
        assert_eq!(
            of([1300, 1210, 900, 1300, 1210, 800, 1300, 1150, 850]),
            [
                "these days have equal tables: winter weekday, summer weekday, transition weekday",
                "these days have equal tables: winter Saturday, summer Saturday"
            ]
        );
    }

    #[test]
    fn a_sunday_above_the_weekday_is_odd_for_trade_in_the_week() {
        let mut values = PLAIN;
        values[5] = 1201;
        let of = |group| doubts(group, NORMAL, &days(values));
        assert_eq!(
            of(Group::G0),
            ["summer Sunday lies above summer weekday, which is odd for trade"]
        );
        assert_eq!(of(Group::G5).len(), 1);
        for group in [Group::H0, Group::G6, Group::L0] {
            assert_eq!(of(group), [""; 0], "{group}");
        }
    }
}
