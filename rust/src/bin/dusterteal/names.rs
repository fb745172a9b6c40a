//! Days in words.
use slp::{Day, DayType, Season};

use crate::date::Date;
use crate::failure::Failure;
use crate::holidays::Holidays;

const WEEKDAYS: [&str; 7] = [
    "Monday",
    "Tuesday",
    "Wednesday",
    "Thursday",
    "Friday",
    "Saturday",
    "Sunday",
];

/// The name of a weekday, 1 being Monday.
pub fn weekday(day: &Day) -> &'static str {
    WEEKDAYS[day.weekday as usize - 1]
}

/// The name of a season.
pub fn season(season: Season) -> &'static str {
    match season {
        Season::Winter => "winter",
        Season::Summer => "summer",
        Season::Transition => "transition",
    }
}

/// The days of a season, as source document 000 has them.
pub fn season_days(season: Season) -> &'static str {
    match season {
        Season::Winter => "1 November to 20 March",
        Season::Summer => "15 May to 14 September",
        Season::Transition => "21 March to 14 May, 15 September to 31 October",
    }
}

/// The name of a day type.
pub fn day_type(day_type: DayType) -> &'static str {
    match day_type {
        DayType::Weekday => "weekday",
        DayType::Saturday => "Saturday",
        DayType::Sunday => "Sunday",
    }
}

/// The day table that a day leads to, as the tables' headers name it.
pub fn profile_day(day: &Day) -> String {
    format!("{} {}", season(day.season), day_type(day.day_type))
}

/// The index of that table among a group's nine.
pub fn table_index(day: &Day) -> usize {
    3 * day.season as usize + day.day_type as usize
}

/// Why a day has its day type: the first rule, in the order of documents 01 and 02, that settles it. A difference from the proved
/// day enquiry is a fault.
pub fn why(date: Date, day: &Day, holidays: &Holidays) -> Result<String, Failure> {
    let (settled, why) = rule(date, day, holidays.name_of(date));
    if settled == day.day_type {
        return Ok(why);
    }
    let (said, found) = (day_type(settled), day_type(day.day_type));
    Err(Failure::Refused(format!(
        "fault of this tool: {date} is {said} by \"{why}\", but the proved call says {found}"
    )))
}

fn rule(date: Date, day: &Day, listed: Option<&str>) -> (DayType, String) {
    let (day_type, why) = match (day.weekday, listed, (date.month(), date.day())) {
        (7, _, _) => (DayType::Sunday, "Sunday"),
        (_, Some(""), _) => (DayType::Sunday, "listed"),
        (_, Some(name), _) => return (DayType::Sunday, format!("listed: {name}")),
        (_, None, (12, 24)) => (DayType::Saturday, "24 December, not listed"),
        (_, None, (12, 31)) => (DayType::Saturday, "31 December, not listed"),
        (6, None, _) => (DayType::Saturday, "Saturday"),
        _ => (DayType::Weekday, "Monday to Friday"),
    };
    (day_type, why.to_owned())
}

#[cfg(test)]
mod tests {
    use super::*;

    fn settled(date: u32, listed: Option<&str>) -> (DayType, String) {
        rule(Date(date), &slp::day(date, &[]).unwrap(), listed)
    }

    #[test]
    fn the_rules_come_in_order() {
        let expect = |date, listed, day_type, why: &str| {
            assert_eq!(settled(date, listed), (day_type, why.to_owned()), "{date}");
        };
        expect(20_000_102, Some("x"), DayType::Sunday, "Sunday");
        expect(20_001_224, None, DayType::Sunday, "Sunday");
        expect(20_001_224, Some("x"), DayType::Sunday, "Sunday");
        expect(19_991_224, Some("x"), DayType::Sunday, "listed: x");
        expect(19_991_231, Some(""), DayType::Sunday, "listed");
        expect(
            19_991_224,
            None,
            DayType::Saturday,
            "24 December, not listed",
        );
        expect(
            19_991_231,
            None,
            DayType::Saturday,
            "31 December, not listed",
        );
        expect(
            20_000_101,
            Some("New Year"),
            DayType::Sunday,
            "listed: New Year",
        );
        expect(20_000_103, Some(""), DayType::Sunday, "listed");
        expect(20_000_108, None, DayType::Saturday, "Saturday");
        expect(20_000_107, None, DayType::Weekday, "Monday to Friday");
    }

    /// Each rule against the proved day enquiry, on every day of the span with and without the day listed.
    #[test]
    fn the_rules_settle_what_the_proved_call_settles() {
        for date in crate::date::Period::parse("1996..2099").unwrap().days() {
            let day = slp::day(date.0, &[]).unwrap();
            assert_eq!(rule(date, &day, None).0, day.day_type, "{date}");
            let listed = slp::day(date.0, &[date.0]).unwrap();
            assert_eq!(
                rule(date, &listed, Some("")).0,
                listed.day_type,
                "{date} listed"
            );
        }
    }

    #[test]
    fn a_difference_is_a_fault() {
        let mut day = slp::day(20_000_102, &[]).unwrap();
        day.day_type = DayType::Weekday;
        let fault = why(Date(20_000_102), &day, &Holidays::default()).unwrap_err();
        assert!(fault
            .to_string()
            .starts_with("fault of this tool: 2000-01-02"));
    }

    #[test]
    fn the_days_of_a_season_are_those_of_the_proved_call() {
        let season_on = |date| slp::day(date, &[]).unwrap().season;
        for (season, first, last) in [
            (Season::Winter, 20_001_101, 20_000_320),
            (Season::Summer, 20_000_515, 20_000_914),
            (Season::Transition, 20_000_321, 20_000_514),
            (Season::Transition, 20_000_915, 20_001_031),
        ] {
            assert_eq!([first, last].map(season_on), [season; 2]);
            assert_ne!(season_on(Date(first).previous().0), season);
            assert_ne!(season_on(Date(last).next().0), season);
            let month = |date: u32| {
                ["March", "May", "September", "October", "November"][[3, 5, 9, 10, 11]
                    .iter()
                    .position(|m| *m == date / 100 % 100)
                    .unwrap()]
            };
            let day = |date: u32| format!("{} {}", date % 100, month(date));
            assert!(season_days(season).contains(&format!("{} to {}", day(first), day(last))));
        }
    }

    #[test]
    fn tables_are_counted_as_in_the_file() {
        let index = |date| table_index(&slp::day(date, &[]).unwrap());
        assert_eq!(
            [20_000_103, 20_000_108, 20_000_109, 20_000_701, 20_000_326].map(index),
            [0, 1, 2, 4, 8]
        );
    }
}
