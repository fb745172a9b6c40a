//! The regional days as the user names them.
use slp::RegionalDay;

use crate::date::Date;
use crate::text::{plain, quoted};

/// The word for each day, and what else one may call it beside its names in English and in German.
const WORDS: [(&str, &[&str]); 6] = [
    ("epiphany", &["Dreikönigstag", "Heilige 3 Könige"]),
    ("corpus-christi", &[]),
    ("assumption", &["Maria Himmelfahrt"]),
    ("reformation-day", &["reformation"]),
    ("all-saints", &[]),
    ("repentance-day", &["repentance"]),
];

/// What 24 and 31 December are called, which are no public holidays.
const EVES: [&str; 11] = [
    "Christmas Eve",
    "24 December",
    "Heiligabend",
    "Heiliger Abend",
    "24. Dezember",
    "24.12.",
    "New Year's Eve",
    "31 December",
    "Silvester",
    "31. Dezember",
    "31.12.",
];

/// What is said of days that are none of those worked out.
const OTHER_DAYS: &str = "; any other day, as 24 December, is a line in a file: `dusterteal holidays YEAR -o FILE` writes a list, put the day in and say --holidays FILE";

/// What may be meant by a text that names no regional day.
pub fn hint(text: &str) -> String {
    match has_other_day(text) {
        true => OTHER_DAYS.to_owned(),
        false => String::new(),
    }
}

/// Whether one of the words of a text is a date or names 24 or 31 December.
fn has_other_day(text: &str) -> bool {
    let is_eve = |word: &str| EVES.iter().any(|eve| plain(eve) == plain(word));
    let is_date = |word: &str| Date::parse(word).is_some();
    text.split([',', '+', ':']).any(is_eve) || text.split([',', '+', ':', ' ']).any(is_date)
}

/// The word for a day.
pub fn word(day: RegionalDay) -> &'static str {
    WORDS[usize::from(day.bit())].0
}

/// The names of some days, in source document 000's order.
pub fn names(days: &[RegionalDay]) -> String {
    let names: Vec<&str> = days.iter().map(|day| day.name()).collect();
    names.join(", ")
}

/// What `--holidays` takes for the German days with these regional ones.
pub fn german(days: &[RegionalDay]) -> String {
    let words: Vec<&str> = days.iter().map(|day| word(*day)).collect();
    match words.len() {
        0 => "german".to_owned(),
        6 => "german:all".to_owned(),
        _ => format!("german:{}", words.join(",")),
    }
}

/// The days that a text names: some words split by commas, `all` or `none`. They come in source document 000's order, each once. The
/// error says which word names none.
pub fn parse(text: &str) -> Result<Vec<RegionalDay>, String> {
    match plain(text).as_str() {
        "all" => return Ok(RegionalDay::ALL.into()),
        "none" => return Ok(Vec::new()),
        _ => {}
    }
    let mut days = Vec::new();
    for word in text.split(',') {
        days.push(find(word).ok_or_else(|| unknown(word))?);
    }
    days.sort();
    days.dedup();
    Ok(days)
}

fn find(text: &str) -> Option<RegionalDay> {
    let text = plain(text);
    RegionalDay::ALL.into_iter().find(|day| {
        let (word, others) = WORDS[usize::from(day.bit())];
        let mut names = [word, day.name(), day.german_name()]
            .into_iter()
            .chain(others.iter().copied());
        names.any(|name| plain(name) == text)
    })
}

fn unknown(word: &str) -> String {
    let both = |day| format!("{} ({})", self::word(day), day.german_name());
    let names = RegionalDay::ALL.map(both).join(", ");
    let word = word.trim();
    let fault = match plain(word).as_str() {
        "" => "a name is missing".to_owned(),
        "all" | "none" => format!("{} stands alone", quoted(word)),
        _ => format!("{} is no regional day", quoted(word)),
    };
    format!("{fault}: the regional days are {names}, split by commas; or say all or none")
}

#[cfg(test)]
mod tests {
    use super::*;
    use RegionalDay::*;

    /// What each day may be called.
    const CALLED: [(RegionalDay, &str); 6] = [
        (
            Epiphany,
            "epiphany/EPIPHANY/Heilige-Drei-Könige/Heilige Drei Koenige/Dreikönigstag",
        ),
        (
            CorpusChristi,
            "corpus-christi/Corpus Christi/corpus_christi/fronleichnam",
        ),
        (
            Assumption,
            "assumption/assumption-day/Mariä-Himmelfahrt/MARIÄ HIMMELFAHRT/mariae himmelfahrt/Maria Himmelfahrt",
        ),
        (Reformation, "reformation-day/reformation/Reformationstag"),
        (AllSaints, "all-saints/All Saints' Day/Allerheiligen"),
        (
            Repentance,
            "repentance-day/repentance/Day of Repentance/Buß-und-Bettag/Buß- und Bettag/Buss- und Bettag/BUẞ- UND BETTAG",
        ),
    ];

    #[test]
    fn a_day_has_names_in_both_languages() {
        for (day, texts) in CALLED {
            for text in texts.split('/') {
                assert_eq!(parse(text), Ok(vec![day]), "{text}");
            }
            assert!(texts.starts_with(word(day)));
        }
    }

    #[test]
    fn several_are_split_by_commas() {
        assert_eq!(
            parse("Allerheiligen,epiphany, all-saints"),
            Ok(vec![Epiphany, AllSaints])
        );
        assert_eq!(parse("All"), Ok(RegionalDay::ALL.into()));
        assert_eq!(parse("none"), Ok(vec![]));
        let words = RegionalDay::ALL.map(word).join(",");
        assert_eq!(parse(&words), Ok(RegionalDay::ALL.into()));
        assert_eq!(names(&[Epiphany, AllSaints]), "Epiphany, All Saints' Day");
    }

    #[test]
    fn days_have_a_word_for_the_option() {
        for (days, word) in [
            (&[][..], "german"),
            (&[Epiphany, AllSaints], "german:epiphany,all-saints"),
            (&RegionalDay::ALL, "german:all"),
        ] {
            assert_eq!(german(days), word);
        }
    }

    #[test]
    fn what_names_no_day_is_named() {
        for (text, fault) in [
            ("", "a name is missing"),
            ("easter", "\"easter\" is no regional day"),
            ("epiphany,,all-saints", "a name is missing"),
            ("epiphany, Easter", "\"Easter\" is no regional day"),
            ("epiphany,all", "\"all\" stands alone"),
            ("6", "\"6\" is no regional day"),
        ] {
            let what = parse(text).unwrap_err();
            let beginning =
                format!("{fault}: the regional days are epiphany (Heilige Drei Könige), corpus-");
            assert!(what.starts_with(&beginning), "{text}: {what}");
        }
    }

    #[test]
    fn a_date_and_christmas_eve_are_other_days() {
        for text in [
            "christmas-eve",
            "epiphany,Heiligabend",
            "31. Dezember",
            "new-year's-eve",
            "german+2026-12-24",
            "german 24.12.2026",
            "24.12",
        ] {
            assert!(has_other_day(text), "{text}");
        }
        for text in ["", "easter", "epiphany", "2026", "holidays.txt"] {
            assert!(!has_other_day(text), "{text}");
        }
    }
}
