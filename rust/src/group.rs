//! The groups of the profiles.
use std::fmt;
use std::str::FromStr;

/// A group of customers with a profile of its own; the order is that of the profile file.
#[derive(Debug, Clone, Copy, PartialEq, Eq, PartialOrd, Ord, Hash)]
#[repr(u8)]
pub enum Group {
    /// Households.
    H0,
    /// Trade in general.
    G0,
    /// Trade on weekdays, 8 to 18 h.
    G1,
    /// Trade with a heavy use in the evening.
    G2,
    /// Trade around the clock.
    G3,
    /// Shops and hairdressers.
    G4,
    /// Bakeries.
    G5,
    /// Trade at the weekend.
    G6,
    /// Farms in general.
    L0,
    /// Farms with dairying.
    L1,
    /// Other farms.
    L2,
}

impl Group {
    /// All groups, each at the index of its code.
    pub const ALL: [Group; 11] = [
        Group::H0,
        Group::G0,
        Group::G1,
        Group::G2,
        Group::G3,
        Group::G4,
        Group::G5,
        Group::G6,
        Group::L0,
        Group::L1,
        Group::L2,
    ];

    /// The code in a profile file: 0 is H0, 1 to 7 are G0 to G6, 8 to 10 are L0 to L2.
    ///
    /// ```
    /// assert_eq!(slp::Group::G0.code(), 1);
    /// ```
    pub const fn code(self) -> u8 {
        self as u8
    }

    /// The group with a code, where there is one.
    ///
    /// ```
    /// assert_eq!(slp::Group::from_code(10), Some(slp::Group::L2));
    /// assert_eq!(slp::Group::from_code(11), None);
    /// ```
    pub fn from_code(code: u8) -> Option<Group> {
        Group::ALL.get(usize::from(code)).copied()
    }

    /// The name, as the papers have it.
    pub const fn name(self) -> &'static str {
        match self {
            Group::H0 => "H0",
            Group::G0 => "G0",
            Group::G1 => "G1",
            Group::G2 => "G2",
            Group::G3 => "G3",
            Group::G4 => "G4",
            Group::G5 => "G5",
            Group::G6 => "G6",
            Group::L0 => "L0",
            Group::L1 => "L1",
            Group::L2 => "L2",
        }
    }
}

impl fmt::Display for Group {
    fn fmt(&self, f: &mut fmt::Formatter) -> fmt::Result {
        f.pad(self.name())
    }
}

/// A text that names no group.
#[derive(Debug, Clone, Copy, PartialEq, Eq)]
pub struct UnknownGroup;

impl fmt::Display for UnknownGroup {
    fn fmt(&self, f: &mut fmt::Formatter) -> fmt::Result {
        let names = Group::ALL.map(Group::name).join(", ");
        write!(f, "the groups are {names}")
    }
}

impl std::error::Error for UnknownGroup {}

/// The group of a name, in capitals or not.
///
/// ```
/// assert_eq!("g0".parse(), Ok(slp::Group::G0));
/// assert_eq!("G7".parse::<slp::Group>(), Err(slp::UnknownGroup));
/// ```
impl FromStr for Group {
    type Err = UnknownGroup;

    fn from_str(text: &str) -> Result<Group, UnknownGroup> {
        let mut groups = Group::ALL.into_iter();
        groups
            .find(|group| group.name().eq_ignore_ascii_case(text))
            .ok_or(UnknownGroup)
    }
}

#[cfg(test)]
mod tests {
    use super::*;

    #[test]
    fn every_group_has_its_place_as_code_and_is_found_by_its_name() {
        for (code, group) in (0..).zip(Group::ALL) {
            assert_eq!(group.code(), code);
            assert_eq!(Group::from_code(code), Some(group));
            assert_eq!(group.name().parse(), Ok(group));
            assert_eq!(group.name().to_lowercase().parse(), Ok(group));
            assert_eq!(group.to_string(), group.name());
        }
        assert_eq!(Group::from_code(11), None);
    }

    #[test]
    fn other_names_have_none() {
        for name in ["", "G7", "L3", " H0", "H00", "H", "0"] {
            assert_eq!(name.parse::<Group>(), Err(UnknownGroup), "{name:?}");
        }
    }
}
