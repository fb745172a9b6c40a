//! Dynamisation: the factor by which a household's powers rise and fall with the day of the year.

/// The group with dynamisation, H0.
pub const HOUSEHOLDS: u8 = 0;

/// X of a group on day t, in units of 10^-12.
pub fn unrounded_factor(group: u8, t: u32) -> i64 {
    if group != HOUSEHOLDS {
        return 1_000_000_000_000;
    }
    let t = i64::from(t);
    -392 * t * t * t * t + 320_000 * t * t * t - 70_200_000 * t * t
        + 2_100_000_000 * t
        + 1_240_000_000_000
}

/// F of a group on day t: X rounded half up to four decimals, in units of 10^-4.
pub fn factor(group: u8, t: u32) -> u32 {
    let x = unrounded_factor(group, t);
    u32::try_from((x + 50_000_000).div_euclid(100_000_000)).expect("X is above 0")
}

/// Q of a value P under a factor F: rounded half up, in tenths of a watt.
pub fn power(p: u32, f: u32) -> u32 {
    (p * f + 5_000) / 10_000
}

#[cfg(test)]
mod tests {
    use super::*;

    /// Document 01's marked figures.
    #[test]
    fn the_marked_figures() {
        let of = |t| (unrounded_factor(HOUSEHOLDS, t), factor(HOUSEHOLDS, t));
        assert_eq!(of(1), (1_242_030_119_608, 12_420));
        assert_eq!(of(202), (784_662_924_928, 7_847));
        assert_eq!(of(365), (1_257_215_955_000, 12_572));
        assert_eq!(of(366), (1_259_685_225_088, 12_597));
        assert_eq!(power(250, factor(HOUSEHOLDS, 1)), 311);
    }

    #[test]
    fn other_groups_keep_their_values() {
        assert_eq!(unrounded_factor(1, 202), 1_000_000_000_000);
        assert_eq!(factor(10, 202), 10_000);
        assert!((0..=20_000).all(|p| power(p, 10_000) == p));
    }
}
