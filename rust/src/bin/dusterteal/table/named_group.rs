//! The group that the lines before the rows name.
use slp::{Group, UnknownGroup};

use super::words::words;
use crate::sheet::{Fault, Line};
use crate::text::{is_digits, quoted};

/// The one group of these lines, where they name one.
pub fn find(lines: &[Line]) -> Result<Option<Group>, Fault> {
    let mut found: Option<(Group, usize)> = None;
    for line in lines {
        let first = line.field(0);
        if has_unknown_code(first) {
            let what = format!("{} is no group: {UnknownGroup}", quoted(first));
            return Err(line.fault_at(0, what));
        }
        for (column, field) in line.fields.iter().enumerate() {
            let Some(group) = group_of(field) else {
                continue;
            };
            let (first, number) = *found.get_or_insert((group, line.number));
            if group != first {
                let what = format!("{group} is named here, and {first} in line {number}");
                return Err(line.fault_at(column, what));
            }
        }
    }
    Ok(found.map(|(group, _)| group))
}

/// The group that a field names, as "G0", "Lastprofil G0", "G0 Gewerbe allgemein" or "Haushalt (H0)". A field with several groups
/// names none.
fn group_of(field: &str) -> Option<Group> {
    let words = words(field);
    let is_group = |word: &String| word.parse::<Group>().is_ok();
    let index = words.iter().position(is_group)?;
    let mut others = words[index + 1..].iter().filter(|word| is_group(word));
    let is_alone = others.all(|other| *other == words[index]);
    let group = words[index].parse().ok();
    let is_at_an_end = index == 0 || index + 1 == words.len();
    group.filter(|_| is_alone && (is_at_an_end || is_after_profile(&words, index)))
}

/// Whether a field is a code as groups have it, or has one after a word as "Lastprofil", but no group has that code.
fn has_unknown_code(field: &str) -> bool {
    let words = words(field);
    words.iter().enumerate().any(|(index, word)| {
        let is_named = words.len() == 1 || is_after_profile(&words, index);
        is_named && is_code(word) && word.parse::<Group>().is_err()
    })
}

/// Whether a word comes after one as "Lastprofil".
fn is_after_profile(words: &[String], index: usize) -> bool {
    let ends = ["profil", "profile", "gruppe", "group", "slp"];
    index > 0 && ends.iter().any(|end| words[index - 1].ends_with(end))
}

/// Whether a word is a letter and a number.
fn is_code(word: &str) -> bool {
    let number = word.strip_prefix(|c: char| c.is_ascii_alphabetic());
    number.is_some_and(is_digits)
}

#[cfg(test)]
mod tests {
    use super::super::WIDTH;
    use super::*;
    use crate::sheet;

    fn found(text: &str) -> Result<Option<Group>, String> {
        let sheet = sheet::read(text, WIDTH).expect("fields");
        find(&sheet.lines).map_err(|fault| fault.to_string())
    }

    #[test]
    fn a_field_names_a_group() {
        for text in [
            "G0",
            "g0",
            "Profil G0",
            "Lastprofil: g0",
            "VDEW-Lastprofil G0 (Gewerbe allgemein)",
            "G0 Gewerbe allgemein",
            "Gewerbe allgemein (G0)",
            "Kundengruppe G0",
            "SLP G0",
            ";;G0",
            "G0;Winter\nProfil G0;Werktag",
            "Lastprofile H0, G0-G6;;\nG0",
            "Uhrzeit;G0 Winter Werktag;G0 Winter Samstag",
        ] {
            assert_eq!(found(text), Ok(Some(Group::G0)), "{text}");
        }
        for group in Group::ALL {
            assert_eq!(found(&format!("Profil {group};;")), Ok(Some(group)));
        }
    }

    #[test]
    fn other_fields_name_none() {
        for text in [
            "",
            "Uhrzeit",
            "Zeit;Winter",
            "time",
            "until",
            "Uhrzeit nach einer 1/4-Stunde",
            "Profil G0/G1",
            "made by macro L1 of ours",
            ";X1",
            "Stand Q1 2020",
            "Profil 1",
            "[W]",
        ] {
            assert_eq!(found(text), Ok(None), "{text}");
        }
    }

    #[test]
    fn a_code_that_no_group_has_is_named() {
        let groups = "the groups are H0, G0, G1, G2, G3, G4, G5, G6, L0, L1, L2";
        for field in [
            "G9",
            "X1",
            "g7",
            "H25",
            "Profil G9",
            "Lastprofil H1 Haushalt",
        ] {
            assert_eq!(
                found(&format!("{field};Winter")),
                Err(format!("line 1, column 1: {field:?} is no group: {groups}"))
            );
        }
    }

    #[test]
    fn two_groups_are_a_fault() {
        assert_eq!(
            found("Lastprofil G0\n\nH0;Winter").unwrap_err(),
            "line 3, column 1: H0 is named here, and G0 in line 1"
        );
        assert_eq!(
            found("G0;L1").unwrap_err(),
            "line 1, column 2: L1 is named here, and G0 in line 1"
        );
    }
}
