//! The holidays that only some of the German states keep.
use std::fmt;
use std::str::FromStr;

/// A holiday of some German states; the order is that of source document 000, step 4.
#[derive(Debug, Clone, Copy, PartialEq, Eq, PartialOrd, Ord, Hash)]
#[repr(u8)]
pub enum RegionalDay {
    /// 6 January.
    Epiphany,
    /// 60 days after Easter Sunday, a Thursday.
    CorpusChristi,
    /// 15 August.
    Assumption,
    /// 31 October.
    Reformation,
    /// 1 November.
    AllSaints,
    /// The Wednesday before 23 November.
    Repentance,
}

impl RegionalDay {
    /// All of them, each at the index of its bit.
    pub const ALL: [RegionalDay; 6] = [
        RegionalDay::Epiphany,
        RegionalDay::CorpusChristi,
        RegionalDay::Assumption,
        RegionalDay::Reformation,
        RegionalDay::AllSaints,
        RegionalDay::Repentance,
    ];

    /// The bit that stands for it in the choice of [`report::holidays`](crate::report::holidays): 0 to 5.
    ///
    /// ```
    /// assert_eq!(slp::RegionalDay::Repentance.bit(), 5);
    /// ```
    pub const fn bit(self) -> u8 {
        self as u8
    }

    /// The choice that has the bits of these days and no other.
    ///
    /// ```
    /// assert_eq!(slp::RegionalDay::choice(&[]), 0);
    /// assert_eq!(slp::RegionalDay::choice(&[slp::RegionalDay::AllSaints, slp::RegionalDay::Epiphany]), 17);
    /// assert_eq!(slp::RegionalDay::choice(&slp::RegionalDay::ALL), 63);
    /// ```
    pub fn choice(days: &[RegionalDay]) -> u8 {
        days.iter().fold(0, |choice, day| choice | 1 << day.bit())
    }

    /// The English name.
    pub const fn name(self) -> &'static str {
        match self {
            RegionalDay::Epiphany => "Epiphany",
            RegionalDay::CorpusChristi => "Corpus Christi",
            RegionalDay::Assumption => "Assumption Day",
            RegionalDay::Reformation => "Reformation Day",
            RegionalDay::AllSaints => "All Saints' Day",
            RegionalDay::Repentance => "Day of Repentance",
        }
    }

    /// The German name, as source document 000 has it.
    pub const fn german_name(self) -> &'static str {
        match self {
            RegionalDay::Epiphany => "Heilige Drei Könige",
            RegionalDay::CorpusChristi => "Fronleichnam",
            RegionalDay::Assumption => "Mariä Himmelfahrt",
            RegionalDay::Reformation => "Reformationstag",
            RegionalDay::AllSaints => "Allerheiligen",
            RegionalDay::Repentance => "Buß- und Bettag",
        }
    }
}

impl fmt::Display for RegionalDay {
    fn fmt(&self, f: &mut fmt::Formatter) -> fmt::Result {
        f.pad(self.name())
    }
}

/// A text that names no regional day.
#[derive(Debug, Clone, Copy, PartialEq, Eq)]
pub struct UnknownRegionalDay;

impl fmt::Display for UnknownRegionalDay {
    fn fmt(&self, f: &mut fmt::Formatter) -> fmt::Result {
        let both = |day: RegionalDay| format!("{} ({})", day.name(), day.german_name());
        let names = RegionalDay::ALL.map(both).join(", ");
        write!(f, "the regional days are {names}")
    }
}

impl std::error::Error for UnknownRegionalDay {}

/// The day of an English or a German name, in capitals or not.
///
/// ```
/// assert_eq!("corpus christi".parse(), Ok(slp::RegionalDay::CorpusChristi));
/// assert_eq!("FRONLEICHNAM".parse(), Ok(slp::RegionalDay::CorpusChristi));
/// assert_eq!("Easter".parse::<slp::RegionalDay>(), Err(slp::UnknownRegionalDay));
/// ```
impl FromStr for RegionalDay {
    type Err = UnknownRegionalDay;

    fn from_str(text: &str) -> Result<RegionalDay, UnknownRegionalDay> {
        let is_meant = |name: &str| name.to_lowercase() == text.to_lowercase();
        let mut days = RegionalDay::ALL.into_iter();
        days.find(|day| is_meant(day.name()) || is_meant(day.german_name()))
            .ok_or(UnknownRegionalDay)
    }
}

#[cfg(test)]
mod tests {
    use super::*;

    #[test]
    fn every_day_has_its_place_as_bit_and_is_found_by_its_names() {
        for (bit, day) in (0..).zip(RegionalDay::ALL) {
            assert_eq!(day.bit(), bit);
            assert_eq!(RegionalDay::choice(&[day, day]), 1 << bit);
            assert_eq!(day.to_string(), day.name());
            for name in [day.name(), day.german_name()] {
                assert_eq!(name.parse(), Ok(day));
                assert_eq!(name.to_lowercase().parse(), Ok(day));
            }
        }
        assert_eq!("MARIÄ HIMMELFAHRT".parse(), Ok(RegionalDay::Assumption));
    }

    #[test]
    fn other_names_have_none() {
        for name in ["", "Easter", " Epiphany", "Corpus", "1"] {
            assert_eq!(
                name.parse::<RegionalDay>(),
                Err(UnknownRegionalDay),
                "{name:?}"
            );
        }
    }
}
