//! Why a call is refused.
use std::fmt;

/// The first question of document 01 that was answered "no". The questions of later requests, from 14 on, count as that document's.
#[derive(Debug, Clone, Copy, PartialEq, Eq, Hash)]
pub struct Refusal {
    /// Which question it is.
    pub kind: RefusalKind,
    /// The place that the question names: an offset, an index or a length; 0 where it names none.
    pub place: usize,
}

/// The questions that refuse a call, by the numbers of documents 01 and 02. Question 13 refuses no call: it is the program's.
#[derive(Debug, Clone, Copy, PartialEq, Eq, PartialOrd, Ord, Hash)]
#[non_exhaustive]
pub enum RefusalKind {
    /// The file has fewer than 6 bytes or does not begin with the mark.
    NoMark = 1,
    /// The file's version is not 1.
    WrongVersion = 2,
    /// The count of profiles is not 1 to 11, or the length does not fit it.
    WrongLength = 3,
    /// A group code is above 10 or not above the one before. The place is its offset.
    BadCode = 4,
    /// A value is above 20,000. The place is its offset.
    BadValue = 5,
    /// The group is not in the file. Comparing: the place is 1 for the second group.
    NoGroup = 6,
    /// A date is not real or not from 1996 to 2099. The place is 0 for the first date, 1 for the last.
    BadDate = 7,
    /// The period ends before it begins or has more than 1,461 days.
    BadPeriod = 8,
    /// A holiday is no date from 1996 to 2099, not later than the one before, or the 401st. The place is its index.
    BadHoliday = 9,
    /// The yearly use is above 1,000,000,000 kWh.
    BadUse = 10,
    /// The carry is above 39,999.
    BadCarry = 11,
    /// The output is too short. The place is the number of entries needed; writing and responding: of bytes.
    ShortOutput = 12,
    /// The year is not one from 1996 to 2099.
    BadYear = 14,
    /// The choice of regional days is above 63.
    BadChoice = 15,
    /// The list for the holidays is too short. The place is the number of entries needed.
    ShortList = 16,
    /// The reading periods are not 1 to 48, or the metered values are not as many.
    WrongReadings = 17,
    /// The first date of a reading period is not real, outside the span, not later than the one before or, of the first period, not the
    /// span's own. The place is its index.
    BadFirstDate = 18,
    /// The day page is too short. The place is the number of bytes needed.
    ShortPage = 19,
}

impl RefusalKind {
    /// All kinds, in the order of their numbers, which are 1 to 12 and 14 to 19.
    pub const ALL: &'static [RefusalKind] = &[
        RefusalKind::NoMark,
        RefusalKind::WrongVersion,
        RefusalKind::WrongLength,
        RefusalKind::BadCode,
        RefusalKind::BadValue,
        RefusalKind::NoGroup,
        RefusalKind::BadDate,
        RefusalKind::BadPeriod,
        RefusalKind::BadHoliday,
        RefusalKind::BadUse,
        RefusalKind::BadCarry,
        RefusalKind::ShortOutput,
        RefusalKind::BadYear,
        RefusalKind::BadChoice,
        RefusalKind::ShortList,
        RefusalKind::WrongReadings,
        RefusalKind::BadFirstDate,
        RefusalKind::ShortPage,
    ];

    /// The question's number.
    ///
    /// ```
    /// assert_eq!(slp::RefusalKind::BadHoliday.number(), 9);
    /// ```
    pub const fn number(self) -> u32 {
        self as u32
    }

    /// The kind with a number, where there is one.
    pub fn from_number(number: u32) -> Option<RefusalKind> {
        let mut kinds = RefusalKind::ALL.iter().copied();
        kinds.find(|kind| kind.number() == number)
    }

    /// What was found, in words.
    pub const fn meaning(self) -> &'static str {
        match self {
            RefusalKind::NoMark => "this is no profile file",
            RefusalKind::WrongVersion => "the version of the profile file is not 1",
            RefusalKind::WrongLength => "the count of profiles is not 1 to 11, or the length does not fit it",
            RefusalKind::BadCode => "a group code is above 10 or not above the one before",
            RefusalKind::BadValue => "a value is above 20,000",
            RefusalKind::NoGroup => "the group is not in the file",
            RefusalKind::BadDate => "a date is not real or not from 1996 to 2099",
            RefusalKind::BadPeriod => "the period ends before it begins or has more than 1,461 days",
            RefusalKind::BadHoliday => {
                "a holiday is no date from 1996 to 2099, not later than the one before, or the 401st"
            }
            RefusalKind::BadUse => "the yearly use is above 1,000,000,000 kWh",
            RefusalKind::BadCarry => "the carry is above 39,999",
            RefusalKind::ShortOutput => "the output is too short",
            RefusalKind::BadYear => "the year is not one from 1996 to 2099",
            RefusalKind::BadChoice => "the choice of regional days is above 63",
            RefusalKind::ShortList => "the list for the holidays is too short",
            RefusalKind::WrongReadings => {
                "the reading periods are not 1 to 48, or the metered values are not as many"
            }
            RefusalKind::BadFirstDate => {
                "the first date of a reading period is not real, outside the span, not later than the one before or, of the first period, not the span's own"
            }
            RefusalKind::ShortPage => "the day page is too short",
        }
    }
}

impl fmt::Display for RefusalKind {
    fn fmt(&self, f: &mut fmt::Formatter) -> fmt::Result {
        f.pad(self.meaning())
    }
}

/// ```
/// let refusal = slp::check(b"", slp::Group::G0).unwrap_err();
/// assert_eq!(refusal.to_string(), "this is no profile file (question 1, place 0)");
/// ```
impl fmt::Display for Refusal {
    fn fmt(&self, f: &mut fmt::Formatter) -> fmt::Result {
        let Refusal { kind, place } = self;
        write!(f, "{kind} (question {}, place {place})", kind.number())
    }
}

impl std::error::Error for Refusal {}

#[cfg(test)]
mod tests {
    use super::*;
    use std::collections::BTreeSet;

    #[test]
    fn the_numbers_leave_out_13_and_each_has_words_of_its_own() {
        let kinds = || RefusalKind::ALL.iter().copied();
        assert!(kinds().map(RefusalKind::number).eq((1..=12).chain(14..=19)));
        let words: BTreeSet<_> = kinds().map(RefusalKind::meaning).collect();
        assert_eq!(words.len(), RefusalKind::ALL.len());
        for kind in kinds() {
            assert_eq!(RefusalKind::from_number(kind.number()), Some(kind));
        }
        for number in [0, 13, 20] {
            assert_eq!(RefusalKind::from_number(number), None);
        }
    }
}
