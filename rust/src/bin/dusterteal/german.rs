//! The German holidays: the dates are the proved call's, the names are the tool's.
use slp::{Refusal, RegionalDay, MOST_HOLIDAYS};

use crate::date::Date;
use crate::failure::Failure;

/// A holiday of a year.
#[derive(Debug, Clone, PartialEq, Eq)]
pub struct Holiday {
    /// Its date.
    pub date: Date,
    /// Its name; two names where the date is met twice.
    pub name: String,
}

/// How a day that all of Germany keeps is known among the dates of its year.
#[derive(Debug, Clone, Copy)]
enum When {
    /// By its month and day, mmdd.
    On(u32),
    /// By its distance from Easter Sunday in days.
    FromEaster(i32),
}

/// The days that all of Germany keeps, in the order of source document 000, step 4.
const EVERYWHERE: [(When, &str); 11] = [
    (When::On(101), "New Year's Day"),
    (When::FromEaster(-2), "Good Friday"),
    (When::FromEaster(0), "Easter Sunday"),
    (When::FromEaster(1), "Easter Monday"),
    (When::On(501), "May Day"),
    (When::FromEaster(39), "Ascension Day"),
    (When::FromEaster(49), "Whit Sunday"),
    (When::FromEaster(50), "Whit Monday"),
    (When::On(1003), "Day of German Unity"),
    (When::On(1225), "Christmas Day"),
    (When::On(1226), "Second Day of Christmas"),
];

/// Where Easter Sunday stands among the days of all of Germany, behind New Year's Day and Good Friday.
const EASTER: usize = 2;

/// The holidays of a year, in rising order: those of all of Germany and these regional ones.
pub fn of_year(year: u32, regional: &[RegionalDay]) -> Result<Vec<Holiday>, Refusal> {
    let names = names(year)?;
    let name = |date: u32| {
        let names = names.iter().filter(|(named, _)| *named == date);
        names
            .map(|(_, name)| *name)
            .collect::<Vec<_>>()
            .join(" and ")
    };
    let holiday = |date| Holiday {
        date: Date(date),
        name: name(date),
    };
    Ok(dates(year, regional)?.into_iter().map(holiday).collect())
}

/// The dates that the proved call lists.
pub fn dates(year: u32, regional: &[RegionalDay]) -> Result<Vec<u32>, Refusal> {
    let mut list = vec![0; MOST_HOLIDAYS];
    let length = slp::holidays(year, regional, &mut list)?;
    list.truncate(length);
    Ok(list)
}

/// What is said of a refusal that the tool itself has caused.
pub fn fault(Refusal { kind, place }: Refusal) -> Failure {
    let (number, meaning) = (kind.number(), kind.meaning());
    Failure::Refused(format!(
        "fault of this tool: {meaning} (question {number}, place {place})"
    ))
}

/// Each name with its date. A regional day is the date that its choice adds.
fn names(year: u32) -> Result<Vec<(u32, &'static str)>, Refusal> {
    let everywhere = dates(year, &[])?;
    let easter = everywhere[EASTER];
    let mut names = Vec::new();
    for &date in &everywhere {
        let (t, easter_t) = (slp::day(date, &[])?.t, slp::day(easter, &[])?.t);
        let is_meant = |when: When| match when {
            When::On(day) => date % 10_000 == day,
            When::FromEaster(days) => t as i32 - easter_t as i32 == days,
        };
        let own = EVERYWHERE.into_iter().filter(|(when, _)| is_meant(*when));
        names.extend(own.map(|(_, name)| (date, name)));
    }
    for day in RegionalDay::ALL {
        let mut with = dates(year, &[day])?;
        with.retain(|date| !everywhere.contains(date));
        names.extend(with.into_iter().map(|date| (date, day.name())));
    }
    Ok(names)
}

#[cfg(test)]
mod tests {
    use super::*;

    fn lines(year: u32, regional: &[RegionalDay]) -> Vec<String> {
        let holidays = of_year(year, regional).unwrap().into_iter();
        holidays
            .map(|Holiday { date, name }| format!("{date} {name}"))
            .collect()
    }

    /// The list of source document 000, step 4, with its names in English.
    #[test]
    fn the_papers_days_of_2000_have_their_names() {
        assert_eq!(
            lines(2000, &RegionalDay::ALL),
            [
                "2000-01-01 New Year's Day",
                "2000-01-06 Epiphany",
                "2000-04-21 Good Friday",
                "2000-04-23 Easter Sunday",
                "2000-04-24 Easter Monday",
                "2000-05-01 May Day",
                "2000-06-01 Ascension Day",
                "2000-06-11 Whit Sunday",
                "2000-06-12 Whit Monday",
                "2000-06-22 Corpus Christi",
                "2000-08-15 Assumption Day",
                "2000-10-03 Day of German Unity",
                "2000-10-31 Reformation Day",
                "2000-11-01 All Saints' Day",
                "2000-11-22 Day of Repentance",
                "2000-12-25 Christmas Day",
                "2000-12-26 Second Day of Christmas",
            ]
        );
    }

    /// Each name stands once in every year, whatever is chosen.
    #[test]
    fn every_year_has_every_name_once() {
        let mut all = EVERYWHERE.map(|(_, name)| name).to_vec();
        all.extend(RegionalDay::ALL.map(RegionalDay::name));
        all.sort();
        for year in 1996..=2099 {
            let holidays = of_year(year, &RegionalDay::ALL).unwrap();
            let names = holidays.iter().flat_map(|day| day.name.split(" and "));
            let mut names: Vec<&str> = names.collect();
            names.sort();
            assert_eq!(names, all, "{year}");
            let alone = of_year(year, &[]).unwrap();
            assert!(alone.iter().all(|day| holidays.contains(day)), "{year}");
        }
    }

    #[test]
    fn a_date_met_twice_has_both_names() {
        let lines = lines(2008, &[]);
        assert_eq!(lines.len(), 10);
        assert_eq!(lines[4], "2008-05-01 May Day and Ascension Day");
    }

    #[test]
    fn a_refusal_of_the_tools_own_making_is_called_a_fault() {
        let refusal = slp::holidays(2000, &[], &mut []).unwrap_err();
        assert_eq!(
            fault(refusal).to_string(),
            "fault of this tool: the list for the holidays is too short (question 16, place 11)"
        );
    }

    #[test]
    fn a_year_outside_the_span_has_none() {
        for year in [0, 1995, 2100, 9999] {
            let refusal = of_year(year, &[]).unwrap_err();
            assert_eq!(refusal.kind, slp::RefusalKind::BadYear);
        }
    }
}
