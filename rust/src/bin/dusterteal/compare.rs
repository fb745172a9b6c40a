//! `compare`: whether two groups of a file, or the same groups of two files, have the same values, or which cells differ.
use std::ffi::OsString;

use slp::Group;

use crate::amounts::{Decimal, DECIMAL};
use crate::arguments::{self, Grammar};
use crate::failure::Failure;
use crate::files::{Made, Output};
use crate::profiles::Profiles;
use crate::run::{self, OUTPUT};
use crate::table;

/// What it takes.
pub const GRAMMAR: Grammar = Grammar {
    name: "compare",
    words: &["FILE or OLD", "GROUP or NEW", "GROUP"],
    least: 2,
    many: false,
    choices: &[DECIMAL, OUTPUT],
};

/// Makes the report. Where the second word is a group, two groups of one file are compared, else two files.
pub fn make(given: &[OsString]) -> Result<Made, Failure> {
    let arguments = arguments::parse(&GRAMMAR, given)?;
    let decimal = Decimal::of(&GRAMMAR, &arguments)?;
    let word = |index| arguments.word(index);
    let (text, read) = match (word(1).unwrap_or_default().parse::<Group>(), word(2)) {
        (Ok(first), Some(second)) => {
            let second = run::group(&GRAMMAR, &second)?;
            let profiles = Profiles::load(&arguments.words[..1])?;
            (groups_of_a_file(&profiles, [first, second], decimal)?, 1)
        }
        (Ok(_), None) => return Err(GRAMMAR.fault("the second GROUP is missing")),
        (Err(_), wanted) => {
            let wanted = match wanted {
                Some(word) => Some(run::group(&GRAMMAR, &word)?),
                None => None,
            };
            if arguments.words[..2].iter().all(|word| word == "-") {
                return Err(GRAMMAR.fault("standard input can be read only once"));
            }
            let old = Profiles::load(&arguments.words[..1])?;
            let new = Profiles::load(&arguments.words[1..2])?;
            (two_files(&old, &new, wanted, decimal)?, 2)
        }
    };
    Ok(Made::of(
        Output::text(arguments.target(), text),
        arguments.words[..read].to_vec(),
    ))
}

/// Two groups of a file, compared by the proved call.
fn groups_of_a_file(
    profiles: &Profiles,
    [first, second]: [Group; 2],
    decimal: Decimal,
) -> Result<String, Failure> {
    let alike = slp::compare(&profiles.file, first, second).map_err(|refusal| {
        let missing = if refusal.place == 0 { first } else { second };
        profiles.refused(refusal, missing)
    })?;
    let tables = [profiles.values(first)?, profiles.values(second)?];
    let rows = rows(alike, &tables, decimal)?;
    let what = format!("{first} and {second}");
    Ok(report(&what, first.name(), second.name(), &rows))
}

fn two_files(
    old: &Profiles,
    new: &Profiles,
    wanted: Option<Group>,
    decimal: Decimal,
) -> Result<String, Failure> {
    let groups = |profiles: &Profiles| match wanted {
        Some(group) => profiles.values(group).map(|_| vec![group]),
        None => profiles.groups(),
    };
    let (before, after) = (groups(old)?, groups(new)?);
    let mut text = String::new();
    for group in Group::ALL {
        match (before.contains(&group), after.contains(&group)) {
            (true, true) => {
                let tables = [old.values(group)?, new.values(group)?];
                let rows = rows(alike(&tables)?, &tables, decimal)?;
                text += &report(group.name(), "old", "new", &rows);
            }
            (true, false) => text += &format!("{group}: only in {}\n", old.name()),
            (false, true) => text += &format!("{group}: only in {}\n", new.name()),
            (false, false) => {}
        }
    }
    Ok(text)
}

/// Whether two tables are alike by the proved call, to which they are lent as two groups of one file.
fn alike(tables: &[Vec<u16>; 2]) -> Result<bool, Failure> {
    let groups = [Group::H0, Group::G0];
    let mut file = vec![0; slp::file_length(groups.len())];
    slp::write(&groups, &tables.concat(), &mut file)
        .and_then(|()| slp::compare(&file, groups[0], groups[1]))
        .map_err(|refusal| Failure::Refused(refusal.to_string()))
}

/// The cells that differ, with their watts in both. Where the proved call says alike there must be none, else some.
fn rows(alike: bool, tables: &[Vec<u16>; 2], decimal: Decimal) -> Result<Vec<String>, Failure> {
    let pairs = tables[0].iter().zip(&tables[1]).enumerate();
    let differing = pairs.filter(|(_, (one, other))| one != other);
    let row = |(index, (one, other)): (usize, (&u16, &u16))| {
        let [one, other] = [one, other].map(|value| decimal.text(u64::from(*value), 1));
        format!(
            "{};{};{one};{other}\n",
            table::day_of(index),
            table::until(index)
        )
    };
    let rows: Vec<String> = differing.map(row).collect();
    if alike == rows.is_empty() {
        return Ok(rows);
    }
    Err(Failure::Refused(format!(
        "fault of this tool: the proved call says alike: {alike}, but {} cells differ",
        rows.len()
    )))
}

fn report(what: &str, one: &str, other: &str, rows: &[String]) -> String {
    match rows.len() {
        0 => format!("{what}: alike\n"),
        count => format!(
            "{what}: {count} of 864 cells differ\nday;until;{one} W;{other} W\n{}",
            rows.concat()
        ),
    }
}

#[cfg(test)]
mod tests {
    use super::*;
    use slp::GROUP_VALUES;

    #[test]
    fn cells_that_differ_from_the_proved_call_are_a_fault() {
        let same = [vec![5; GROUP_VALUES], vec![5; GROUP_VALUES]];
        let mut other = same.clone();
        other[1][863] = 6;
        assert_eq!((alike(&same), alike(&other)), (Ok(true), Ok(false)));
        assert_eq!(rows(true, &same, Decimal::Point), Ok(Vec::new()));
        let row = "transition Sunday;24:00;0.5;0.6\n".to_owned();
        assert_eq!(rows(false, &other, Decimal::Point), Ok(vec![row]));
        for (alike, tables) in [(false, same), (true, other)] {
            let fault = rows(alike, &tables, Decimal::Point).unwrap_err();
            assert!(fault.to_string().starts_with("fault of this tool"));
        }
    }
}
