//! The energy of a run of quarter hours, and how far demand 3 lets its figures' sum lie from it. All is multiplied out to whole
//! numbers, in units of 1/(4 x 10^16) Wh.
use crate::dynamisation::{unrounded_factor, HOUSEHOLDS};
use crate::series::{accept, Request};
use crate::Refusal;

/// The units in a Wh.
pub const UNITS: u128 = 40_000_000_000_000_000;

/// A quarter hour of a series: the value and the unrounded factor of its own position and day.
#[derive(Debug, Clone, Copy, PartialEq, Eq)]
pub struct Quarter {
    /// P, in tenths of a watt.
    pub p: u32,
    /// X, in units of 10^-12.
    pub x: i64,
}

impl Quarter {
    /// What the quarter hour adds to a run's exact energy: P x X x A.
    pub fn exact(self, yearly: u32) -> u128 {
        let x = u128::try_from(self.x).expect("X is above 0");
        u128::from(self.p) * x * u128::from(yearly)
    }

    /// What the quarter hour adds to a run's bound beside the run's 1 Wh. For households these are its static energy,
    /// P x A / 40,000 Wh, over 20,000, and A / 80,000 Wh; for others nothing.
    pub fn leeway(self, group: u8, yearly: u32) -> u128 {
        if group != HOUSEHOLDS {
            return 0;
        }
        let static_energy = u128::from(self.p) * u128::from(yearly) * (UNITS / 40_000);
        static_energy / 20_000 + u128::from(yearly) * (UNITS / 80_000)
    }
}

/// The quarter hours of a request's series, after the clock changes: questions 1 to 11.
pub fn quarters(request: &Request) -> Result<Vec<Quarter>, Refusal> {
    let accepted = accept(request)?;
    let mut quarters = Vec::new();
    for day in accepted.days() {
        let x = unrounded_factor(request.group, day.t);
        let values: Vec<u16> = accepted.values(day).collect();
        for range in day.positions() {
            let values = values[range].iter();
            quarters.extend(values.map(|&p| Quarter { p: p.into(), x }));
        }
    }
    Ok(quarters)
}

/// Whether a run's sum in Wh keeps to demand 3's bound, on both sides.
pub fn keeps_to_bound(group: u8, yearly: u32, run: &[Quarter], sum: u64) -> bool {
    let exact: u128 = run.iter().map(|quarter| quarter.exact(yearly)).sum();
    let leeway: u128 = run
        .iter()
        .map(|quarter| quarter.leeway(group, yearly))
        .sum();
    (u128::from(sum) * UNITS).abs_diff(exact) < UNITS + leeway
}

#[cfg(test)]
mod tests {
    use super::*;

    const DAY: Quarter = Quarter {
        p: 20_000,
        x: 1_000_000_000_000,
    };

    /// One quarter hour of 2,000 W for 1,000 kWh a year has 500 Wh with 1,000 kWh.
    #[test]
    fn others_are_off_by_less_than_1_wh() {
        let keeps = |sum| keeps_to_bound(1, 1_000, &[DAY], sum);
        assert_eq!(
            [498, 499, 500, 501, 502].map(keeps),
            [false, false, true, false, false]
        );
        assert!(keeps_to_bound(1, 1_000, &[], 0));
        assert!(!keeps_to_bound(1, 1_000, &[], 1));
    }

    /// With 80,000 kWh it has 40,000 Wh, and the bound is 1 + 40,000 / 20,000 + 1 = 4 Wh.
    #[test]
    fn households_have_their_roundings_besides() {
        let keeps = |sum| keeps_to_bound(0, 80_000, &[DAY], sum);
        assert_eq!(
            [39_996, 39_997, 40_003, 40_004].map(keeps),
            [false, true, true, false]
        );
    }
}
