//! `check`: whether profiles are accepted, and whether they are likely to be right.
use std::ffi::OsString;

use slp::Group;

use crate::arguments::{self, Grammar};
use crate::failure::{warn, Failure};
use crate::files::Made;
use crate::plausibility::{self, PAPER_YEAR};
use crate::profiles::Profiles;
use crate::run;

/// What it takes.
pub const GRAMMAR: Grammar = Grammar {
    name: "check",
    words: &["FILE", "GROUP"],
    least: 1,
    many: false,
    choices: &[],
};

/// Makes the report. What is doubted goes to standard error.
pub fn make(given: &[OsString]) -> Result<Made, Failure> {
    let arguments = arguments::parse(&GRAMMAR, given)?;
    let wanted = match arguments.word(1) {
        Some(word) => Some(run::group(&GRAMMAR, &word)?),
        None => None,
    };
    let profiles = Profiles::load(&arguments.words[..1])?;
    let found = profiles.groups()?;
    let names: Vec<&str> = found.iter().map(|group| group.name()).collect();
    let (name, names) = (profiles.name(), names.join(", "));
    let kind = match profiles.is_packed() {
        true => "profile file",
        false => "table",
    };
    let mut text = format!("{name}: accepted, a {kind} with {names}\n");
    let groups = match wanted {
        Some(group) => vec![group],
        None => found,
    };
    for group in groups {
        text += &line(&profiles, group)?;
    }
    Ok(Made::text(text))
}

/// What a year of a group has, and warnings of what is doubtful.
fn line(profiles: &Profiles, group: Group) -> Result<String, Failure> {
    let values = profiles.values(group)?;
    let energy = plausibility::yearly_energy(profiles, group).ok_or_else(|| {
        Failure::Refused(format!(
            "fault of this tool: the year of {group} is refused"
        ))
    })?;
    for doubt in plausibility::doubts(group, energy, &values) {
        warn(&format!("{}: {group}: {doubt}", profiles.name()));
    }
    let off = plausibility::deviation(energy);
    Ok(format!(
        "{group}: {energy} Wh in the year {PAPER_YEAR} for 1000 kWh a year ({off})\n"
    ))
}
