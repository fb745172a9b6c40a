//! The German states, and the regional days that source document 000 gives them.
use slp::RegionalDay;

use crate::text::{plain, quoted};

/// A German state.
#[derive(Debug, PartialEq, Eq)]
pub struct State {
    /// The official code.
    code: &'static str,
    /// The German name.
    pub name: &'static str,
    /// Other names.
    others: &'static [&'static str],
}

const fn state(code: &'static str, name: &'static str, others: &'static [&'static str]) -> State {
    State { code, name, others }
}

/// The states, in the order of their German names.
const STATES: [State; 16] = [
    state("BW", "Baden-Württemberg", &[]),
    state("BY", "Bayern", &["Bavaria"]),
    state("BE", "Berlin", &[]),
    state("BB", "Brandenburg", &[]),
    state("HB", "Bremen", &[]),
    state("HH", "Hamburg", &[]),
    state("HE", "Hessen", &["Hesse"]),
    state(
        "MV",
        "Mecklenburg-Vorpommern",
        &["Mecklenburg-Western Pomerania"],
    ),
    state("NI", "Niedersachsen", &["Lower Saxony"]),
    state(
        "NW",
        "Nordrhein-Westfalen",
        &["North Rhine-Westphalia", "NRW"],
    ),
    state("RP", "Rheinland-Pfalz", &["Rhineland-Palatinate"]),
    state("SL", "Saarland", &[]),
    state("SN", "Sachsen", &["Saxony"]),
    state("ST", "Sachsen-Anhalt", &["Saxony-Anhalt"]),
    state("SH", "Schleswig-Holstein", &[]),
    state("TH", "Thüringen", &["Thuringia"]),
];

/// A footnote of source document 000, step 4, in its own words.
struct Footnote {
    day: RegionalDay,
    /// The states that keep the day.
    whole: &'static [&'static str],
    /// The states of which some communities keep it, and which.
    part: &'static [(&'static str, &'static str)],
}

/// The year of the footnotes.
pub const FOOTNOTES_YEAR: u32 = 2000;

/// The footnotes 1 to 6.
const FOOTNOTES: [Footnote; 6] = [
    Footnote {
        day: RegionalDay::Epiphany,
        whole: &["Baden-Württemberg", "Bayern", "Sachsen-Anhalt"],
        part: &[],
    },
    Footnote {
        day: RegionalDay::CorpusChristi,
        whole: &[
            "Baden-Württemberg",
            "Bayern",
            "Hessen",
            "Nordrhein-Westfalen",
            "Rheinland-Pfalz",
            "Saarland",
        ],
        part: &[
            ("Sachsen", "in Sachsen in einzelnen Gemeinden"),
            (
                "Thüringen",
                "in Thüringen in Gemeinden mit überwiegend katholischer Bevölkerung",
            ),
        ],
    },
    Footnote {
        day: RegionalDay::Assumption,
        whole: &["Saarland"],
        part: &[(
            "Bayern",
            "in Bayern in Gemeinden mit überwiegend katholischer Bevölkerung",
        )],
    },
    Footnote {
        day: RegionalDay::Reformation,
        whole: &[
            "Brandenburg",
            "Mecklenburg-Vorpommern",
            "Sachsen",
            "Sachsen-Anhalt",
            "Thüringen",
        ],
        part: &[],
    },
    Footnote {
        day: RegionalDay::AllSaints,
        whole: &[
            "Baden-Württemberg",
            "Bayern",
            "Nordrhein-Westfalen",
            "Rheinland-Pfalz",
            "Saarland",
        ],
        part: &[],
    },
    Footnote {
        day: RegionalDay::Repentance,
        whole: &["Sachsen"],
        part: &[],
    },
];

impl State {
    /// The state of a name or code. The error says that the text is neither.
    pub fn parse(text: &str) -> Result<&'static State, String> {
        let wanted = plain(text);
        let is_meant = |state: &&State| {
            let names = [state.code, state.name].into_iter();
            let mut names = names.chain(state.others.iter().copied());
            names.any(|name| plain(name) == wanted)
        };
        STATES.iter().find(is_meant).ok_or_else(|| {
            let names = STATES.map(|state| format!("{} ({})", state.name, state.code));
            format!(
                "{} is no state: they are {}",
                quoted(text),
                names.join(", ")
            )
        })
    }

    /// The regional days of the whole state.
    pub fn days(&self) -> Vec<RegionalDay> {
        let notes = FOOTNOTES.iter();
        let own = notes.filter(|note| note.whole.contains(&self.name));
        own.map(|note| note.day).collect()
    }

    /// The regional days of some of its communities, with the footnote's words.
    pub fn days_in_part(&self) -> Vec<(RegionalDay, &'static str)> {
        let of_note = |note: &Footnote| {
            let mut parts = note.part.iter();
            let found = parts.find(|(state, _)| *state == self.name)?;
            Some((note.day, found.1))
        };
        FOOTNOTES.iter().filter_map(of_note).collect()
    }
}

#[cfg(test)]
mod tests {
    use super::*;

    #[test]
    fn a_state_has_names_and_a_code() {
        for (texts, code) in [
            (&["Bayern", "bavaria", "by", "BY"][..], "BY"),
            (
                &[
                    "Baden-Württemberg",
                    "BADEN WÜRTTEMBERG",
                    "baden-wuerttemberg",
                ],
                "BW",
            ),
            (&["Sachsen", "Saxony", "SN"], "SN"),
            (&["sachsen-anhalt", "Saxony-Anhalt"], "ST"),
            (&["niedersachsen", "lower-saxony"], "NI"),
            (&["NRW", "nw", "North Rhine-Westphalia"], "NW"),
            (&["Thüringen", "thueringen", "Thuringia"], "TH"),
        ] {
            for text in texts {
                assert_eq!(State::parse(text).unwrap().code, code, "{text}");
            }
        }
        for state in &STATES {
            assert_eq!(State::parse(state.name), Ok(state));
            assert_eq!(State::parse(state.code), Ok(state));
        }
        let what = State::parse("Preußen").unwrap_err();
        assert!(what.starts_with(
            "\"Preußen\" is no state: they are Baden-Württemberg (BW), Bayern (BY), "
        ));
        assert!(State::parse("").is_err());
    }

    #[test]
    fn the_footnotes_name_states_and_stand_in_the_order_of_the_days() {
        assert_eq!(FOOTNOTES.map(|note| note.day), RegionalDay::ALL);
        for note in FOOTNOTES {
            let parts = note.part.iter().map(|(state, _)| state);
            for name in note.whole.iter().chain(parts) {
                assert!(STATES.iter().any(|state| state.name == *name), "{name}");
            }
            for (state, words) in note.part {
                assert!(words.starts_with(&format!("in {state} in ")), "{words}");
            }
        }
    }
}
