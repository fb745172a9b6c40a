//! What the words of a header say.
use slp::Group;

use crate::text::quoted;

/// The day types of a season.
const DAY_TYPES: usize = 3;
const SUNDAY: usize = 2;

/// What a word says. Seasons and day types are numbered in the order of the profile file.
#[derive(Debug, Clone, Copy, PartialEq, Eq)]
pub enum Word {
    Season(usize),
    /// A season where a day type follows: else `So` may be a Sunday.
    ShortSeason(usize),
    DayType(usize),
    /// What may stand beside a Sunday, as in "Sonn- und Feiertag".
    Holiday,
    /// "in" or a group's name, which may stand beside a column's name.
    Beside,
    Watts,
    OtherUnit,
    Unknown,
}

fn meaning(word: &str) -> Word {
    match word {
        "winter" => Word::Season(0),
        "sommer" | "summer" => Word::Season(1),
        "übergang" | "übergangszeit" | "uebergang" | "uebergangszeit" | "transition" => {
            Word::Season(2)
        }
        "wi" => Word::ShortSeason(0),
        "so" => Word::ShortSeason(1),
        "üb" | "ueb" => Word::ShortSeason(2),
        "werktag" | "werktage" | "weekday" | "weekdays" => Word::DayType(0),
        "samstag" | "samstage" | "sonnabend" | "sonnabende" | "saturday" | "saturdays" => {
            Word::DayType(1)
        }
        "sonntag" | "sonntage" | "sonn" | "sunday" | "sundays" => Word::DayType(SUNDAY),
        "und" | "u" | "and" | "feiertag" | "feiertage" | "holiday" | "holidays" => Word::Holiday,
        "w" | "watt" | "watts" => Word::Watts,
        "kw" | "kwh" | "wh" => Word::OtherUnit,
        "in" => Word::Beside,
        _ if word.parse::<Group>().is_ok() => Word::Beside,
        _ => Word::Unknown,
    }
}

/// The words of a text in small letters. What is neither letter nor digit splits them.
pub fn words(text: &str) -> Vec<String> {
    let text = text.to_lowercase();
    let words = text.split(|c: char| !c.is_alphanumeric());
    let words = words.filter(|word| !word.is_empty());
    words.map(str::to_string).collect()
}

/// What the words of a text say.
pub fn meanings(text: &str) -> Vec<Word> {
    words(text).iter().map(|word| meaning(word)).collect()
}

/// The day that a column's name says, as an index of `DAYS`. The error says what is wrong with the name.
pub fn day(name: &str) -> Result<usize, String> {
    let words = meanings(name);
    let (mut seasons, mut day_types) = (Vec::new(), Vec::new());
    let (mut has_holiday, mut has_more) = (false, false);
    for (index, &word) in words.iter().enumerate() {
        let before_day_type = matches!(words.get(index + 1), Some(Word::DayType(_)));
        match word {
            Word::Season(season) => seasons.push(season),
            // "Winter (Wi)" is one season.
            Word::ShortSeason(season) if before_day_type || seasons.contains(&season) => {
                seasons.push(season)
            }
            Word::DayType(day_type) => day_types.push(day_type),
            Word::Holiday => has_holiday = true,
            Word::Beside | Word::Watts => {}
            Word::ShortSeason(_) | Word::OtherUnit | Word::Unknown => has_more = true,
        }
    }
    seasons.dedup();
    day_types.dedup();
    has_more |= has_holiday && day_types != [SUNDAY];
    let what = match (seasons.as_slice(), day_types.as_slice()) {
        ([season], [day_type]) if !has_more => return Ok(DAY_TYPES * season + day_type),
        _ if name.is_empty() => return Err("the column has no name".into()),
        ([], []) => "no season and day",
        ([], _) => "no season",
        (_, []) => "no day",
        _ => "more than a season and a day",
    };
    let name = quoted(name);
    Err(format!(
        "{name} names {what}: a column is named as \"winter weekday\" or \"Winter Werktag\""
    ))
}

/// The unit of a text that says nothing else, as `[W]` or `in W`.
pub fn unit(text: &str) -> Option<Word> {
    let mut words = words(text);
    words.retain(|word| !matches!(word.as_str(), "in" | "leistung" | "power"));
    match words.as_slice() {
        [word] => Some(meaning(word)).filter(|word| matches!(word, Word::Watts | Word::OtherUnit)),
        _ => None,
    }
}

#[cfg(test)]
mod tests {
    use super::*;

    fn fault_of(name: &str) -> String {
        let fault = day(name).unwrap_err();
        let help = ": a column is named as \"winter weekday\" or \"Winter Werktag\"";
        fault.strip_suffix(help).expect("help").to_string()
    }

    #[test]
    fn days_have_their_places_in_both_languages() {
        let seasons = [
            ["Winter", "winter", "WINTER"],
            ["Sommer", "summer", "SUMMER"],
            ["Übergang", "transition", "ÜBERGANG"],
            ["Übergangszeit", "Uebergang", "uebergangszeit"],
        ];
        let day_types = [
            ["Werktag", "weekday", "Werktage", "WEEKDAYS"],
            ["Samstag", "Sonnabend", "Saturday", "samstag/Sonnabend"],
            [
                "Sonntag",
                "Sunday",
                "Sonntag/Feiertag",
                "Sonn- und Feiertag",
            ],
            [
                "Sonntag / Feiertag",
                "Sonn-/Feiertage",
                "Sundays and holidays",
                "Feiertag, Sonntag",
            ],
        ];
        for (season, season_names) in seasons.iter().enumerate() {
            for (day_type, day_type_names) in day_types.iter().enumerate() {
                let wanted = Ok(3 * season.min(2) + day_type.min(2));
                for season in season_names {
                    for day_type in day_type_names {
                        assert_eq!(day(&format!("{season} {day_type}")), wanted);
                        assert_eq!(day(&format!("{day_type} {season}")), wanted);
                        assert_eq!(day(&format!("{season}-{day_type}")), wanted);
                        assert_eq!(day(&format!("{day_type}_{season}\n[W]")), wanted);
                        assert_eq!(day(&format!("G0 {season}, {day_type} in W")), wanted);
                    }
                }
            }
        }
    }

    #[test]
    fn short_seasons_stand_before_a_day_type() {
        assert_eq!(day("Wi-Sonntag"), Ok(2));
        assert_eq!(day("So-Werktag"), Ok(3));
        assert_eq!(day("So-Sonntag"), Ok(5));
        assert_eq!(day("Üb-Samstag"), Ok(7));
        assert_eq!(day("so sonn- und feiertag"), Ok(5));
        assert_eq!(day("Sommer (So) Sonntag/Feiertag"), Ok(5));
        assert_eq!(day("Werktag Winter (Wi)"), Ok(0));
        assert_eq!(fault_of("Winter So"), "\"Winter So\" names no day");
        assert_eq!(fault_of("So"), "\"So\" names no season and day");
        assert_eq!(fault_of("Werktag So"), "\"Werktag So\" names no season");
        assert_eq!(
            fault_of("Winter So-Werktag"),
            "\"Winter So-Werktag\" names more than a season and a day"
        );
    }

    #[test]
    fn names_that_lack_something_are_told_so() {
        assert_eq!(day(""), Err("the column has no name".into()));
        assert_eq!(
            fault_of("Bemerkung"),
            "\"Bemerkung\" names no season and day"
        );
        assert_eq!(fault_of("[W]"), "\"[W]\" names no season and day");
        assert_eq!(fault_of("0:15"), "\"0:15\" names no season and day");
        assert_eq!(fault_of("Feiertag"), "\"Feiertag\" names no season and day");
        assert_eq!(fault_of("Winter"), "\"Winter\" names no day");
        assert_eq!(fault_of("winter Monday"), "\"winter Monday\" names no day");
        assert_eq!(fault_of("Sonntag"), "\"Sonntag\" names no season");
        for name in [
            "Winter Werktag Nord",
            "Winter Sommer Werktag",
            "Winter Werktag Samstag",
            "Winter Werktag/Feiertag",
            "Winter Samstag und Sonntag",
            "Sommer Üb-Werktag",
        ] {
            let what = "names more than a season and a day";
            assert_eq!(fault_of(name), format!("{name:?} {what}"));
        }
    }

    #[test]
    fn units_stand_alone() {
        for text in [
            "W",
            "[W]",
            "in W",
            "(Watt)",
            "Leistung [W]",
            "power in watts",
            "w",
        ] {
            assert_eq!(unit(text), Some(Word::Watts), "{text}");
        }
        for text in ["kW", "[kWh]", "in Wh", "Leistung in kW", "(KWH)"] {
            assert_eq!(unit(text), Some(Word::OtherUnit), "{text}");
        }
        for text in ["", "in", "G0", "1000 kWh/a", "Uhrzeit", "W W", "Winter [W]"] {
            assert_eq!(unit(text), None, "{text}");
        }
    }
}
