//! The profiles that a run is made from: a profile file, or tables of which one is made.
use std::ffi::OsString;
use std::path::Path;

use slp::{Group, Refusal, RefusalKind, UnknownGroup, GROUP_VALUES};

use crate::amounts::Decimal;
use crate::failure::{warn, Failure};
use crate::files::Input;
use crate::table::{self, Table};
use crate::text;

/// What a profile file begins with.
const MARK: &[u8] = b"SLP";

/// The bytes before the first profile of a file, and those of a profile.
const HEAD: usize = slp::file_length(0);
const PROFILE: usize = slp::file_length(1) - HEAD;

/// A profile file in memory, and what it was read from.
#[derive(Debug, Clone, PartialEq, Eq)]
pub struct Profiles {
    /// The files that were read.
    pub sources: Vec<Input>,
    /// The profile file, accepted or not.
    pub file: Vec<u8>,
    /// The group of each source, where they are tables.
    tables: Vec<Group>,
}

impl Profiles {
    /// The profiles of one profile file or of tables.
    pub fn load(paths: &[OsString]) -> Result<Profiles, Failure> {
        Profiles::of(read(paths)?)
    }

    /// The profiles of tables, also where there is only one.
    pub fn load_tables(paths: &[OsString]) -> Result<Profiles, Failure> {
        Profiles::of_tables(read(paths)?)
    }

    fn of(sources: Vec<Input>) -> Result<Profiles, Failure> {
        match &sources[..] {
            [source] if is_profile_file(&source.bytes) => Ok(Profiles {
                file: source.bytes.clone(),
                sources,
                tables: Vec::new(),
            }),
            _ => Profiles::of_tables(sources),
        }
    }

    fn of_tables(sources: Vec<Input>) -> Result<Profiles, Failure> {
        let mut tables = tables(&sources)?;
        let groups = tables.iter().map(|(group, _)| *group).collect();
        tables.sort_by_key(|(group, _)| *group);
        Ok(Profiles {
            file: profile_file(&tables)?,
            sources,
            tables: groups,
        })
    }

    /// What messages call them.
    pub fn name(&self) -> String {
        let names: Vec<&str> = self
            .sources
            .iter()
            .map(|source| source.name.as_str())
            .collect();
        names.join(", ")
    }

    /// What messages call the file that a group was read from.
    pub fn source_of(&self, group: Group) -> String {
        let table = self.tables.iter().position(|known| *known == group);
        table.map_or_else(|| self.name(), |index| self.sources[index].name.clone())
    }

    /// Whether they were read from a profile file, and not from tables.
    pub fn is_packed(&self) -> bool {
        matches!(&self.sources[..], [source] if source.bytes == self.file)
    }

    /// The groups: questions 1 to 5.
    pub fn groups(&self) -> Result<Vec<Group>, Failure> {
        let mut groups = Vec::new();
        for group in Group::ALL {
            match slp::check(&self.file, group) {
                Ok(()) => groups.push(group),
                Err(refusal) if refusal.kind == RefusalKind::NoGroup => {}
                Err(refusal) => return Err(self.refused(refusal, group)),
            }
        }
        Ok(groups)
    }

    /// The values of a group: questions 1 to 6.
    pub fn values(&self, group: Group) -> Result<Vec<u16>, Failure> {
        let mut values = vec![0; GROUP_VALUES];
        slp::read(&self.file, group, &mut values)
            .map_err(|refusal| self.refused(refusal, group))?;
        Ok(values)
    }

    /// The failure that a refusal by questions 1 to 6 makes.
    pub fn refused(&self, refusal: Refusal, group: Group) -> Failure {
        let what = match refusal.kind {
            RefusalKind::NoGroup => {
                let groups = self.groups().unwrap_or_default();
                let names: Vec<&str> = groups.into_iter().map(Group::name).collect();
                format!(
                    "{group} is not in {}, which has {}",
                    self.name(),
                    names.join(", ")
                )
            }
            _ => format!("{}: {}", self.name(), self.fault(refusal)),
        };
        Failure::by_question(&what, refusal)
    }

    /// What stands at the place of a refusal by questions 1 to 5, and what is allowed.
    fn fault(&self, refusal: Refusal) -> String {
        let (file, place) = (&self.file, refusal.place);
        let byte = |at: usize| file.get(at).copied().unwrap_or_default();
        match refusal.kind {
            RefusalKind::NoMark => no_mark(file),
            RefusalKind::WrongVersion => {
                let version = u16::from_be_bytes([byte(3), byte(4)]);
                format!("the profile file has version {version}; version 1 is allowed")
            }
            RefusalKind::WrongLength => wrong_length(byte(5), file.len()),
            RefusalKind::BadCode => {
                let before = place.checked_sub(PROFILE).filter(|before| *before >= HEAD);
                bad_code(byte(place), before.map(byte))
            }
            RefusalKind::BadValue => {
                let value = u16::from_be_bytes([byte(place), byte(place + 1)]);
                let (cell, watts) = (cell_at(file, place), Decimal::Point.text(value.into(), 1));
                format!("{cell}: {watts} W; at most 2000.0 W is allowed")
            }
            kind => kind.to_string(),
        }
    }
}

fn read(paths: &[OsString]) -> Result<Vec<Input>, Failure> {
    paths.iter().map(|path| Input::read(path)).collect()
}

/// Whether a file is to be read as a profile file: it is too short for more than the mark, or it is no text. A table may have the
/// title "SLP G0".
fn is_profile_file(bytes: &[u8]) -> bool {
    let is_cut = bytes.len() < HEAD && bytes.starts_with(MARK);
    bytes.is_empty() || is_cut || text::decode(bytes).is_err()
}

fn no_mark(file: &[u8]) -> String {
    let what = match (file.len(), text::decode(file)) {
        (0, _) => "it is empty".to_owned(),
        (length, _) if file.starts_with(MARK) => format!("it has {length} bytes, fewer than 6"),
        (_, Err(what)) => format!("it is {what}"),
        (_, Ok(_)) => "it is text".to_owned(),
    };
    format!("this is no profile file: {what}")
}

fn wrong_length(count: u8, found: usize) -> String {
    if !(1..=11).contains(&count) {
        return format!("the profile file says that it has {count} profiles; 1 to 11 are allowed");
    }
    let expected = slp::file_length(count.into());
    let profiles = if count == 1 { "profile" } else { "profiles" };
    format!("the profile file has {found} bytes; with {count} {profiles} it should have {expected}")
}

fn bad_code(code: u8, before: Option<u8>) -> String {
    match (Group::from_code(code), before.and_then(Group::from_code)) {
        (Some(group), Some(before)) => {
            format!(
                "group code {code} ({group}) stands behind {} ({before}); the codes rise",
                before.code()
            )
        }
        _ => format!("group code {code}; 0 (H0) to 10 (L2) are allowed"),
    }
}

/// Group, day and time of the value that has this byte of a file whose codes are accepted.
fn cell_at(file: &[u8], offset: usize) -> String {
    let (profile, within) = ((offset - HEAD) / PROFILE, (offset - HEAD) % PROFILE);
    let group = Group::from_code(file[HEAD + PROFILE * profile]).expect("question 4 is passed");
    let index = (within - 1) / 2;
    format!("{group}, {}, {}", table::day_of(index), table::until(index))
}

/// The table of each file.
fn tables(sources: &[Input]) -> Result<Vec<(Group, Vec<u16>)>, Failure> {
    let mut tables: Vec<(Group, Vec<u16>)> = Vec::new();
    for source in sources {
        let (group, values) = table_of(source)?;
        if let Some(index) = tables.iter().position(|(known, _)| *known == group) {
            let (other, name) = (&sources[index].name, &source.name);
            let what = format!("{other} and {name} have the same group, {group}");
            return Err(Failure::Refused(what));
        }
        tables.push((group, values));
    }
    Ok(tables)
}

fn table_of(source: &Input) -> Result<(Group, Vec<u16>), Failure> {
    let name = &source.name;
    if source.bytes.starts_with(MARK) && is_profile_file(&source.bytes) {
        let what = format!("{name} is a profile file: only tables are put together");
        return Err(Failure::NotUnderstood(what));
    }
    let text = text::decode(&source.bytes)
        .map_err(|what| Failure::Refused(format!("{name} is {what}")))?;
    let Table { group, values } =
        table::parse(&text).map_err(|fault| Failure::Refused(format!("{name}, {fault}")))?;
    let by_name = group_of_name(name);
    if let (Some(group), Some(other)) = (group, by_name) {
        if group != other {
            warn(&format!(
                "{name} has a table of {group}, and not of {other}"
            ));
        }
    }
    match group.or(by_name) {
        Some(group) => Ok((group, values)),
        None => Err(Failure::Refused(format!(
            "{name} does not name its group: put it into the first field of the header or into a line above, or name the file by it, as \
             G0.csv; {UnknownGroup}"
        ))),
    }
}

/// The one group that a file's name has as a word: `G0.csv`, `G0_2026.csv`.
fn group_of_name(name: &str) -> Option<Group> {
    let stem = Path::new(name).file_stem()?.to_str()?;
    let mut groups = stem
        .split(|c: char| !c.is_alphanumeric())
        .filter_map(|word| word.parse().ok());
    let group = groups.next()?;
    groups.all(|other: Group| other == group).then_some(group)
}

/// The profile file of tables, made by the proved writing.
fn profile_file(tables: &[(Group, Vec<u16>)]) -> Result<Vec<u8>, Failure> {
    let groups: Vec<Group> = tables.iter().map(|(group, _)| *group).collect();
    let values: Vec<u16> = tables
        .iter()
        .flat_map(|(_, values)| values.iter().copied())
        .collect();
    let mut file = vec![0; slp::file_length(groups.len())];
    slp::write(&groups, &values, &mut file)
        .map_err(|refusal| Failure::Refused(refusal.to_string()))?;
    Ok(file)
}

#[cfg(test)]
mod tests {
    use super::*;

    fn packed(groups: &[Group]) -> Vec<u8> {
        let tables: Vec<_> = groups
            .iter()
            .map(|group| (*group, vec![1001; GROUP_VALUES]))
            .collect();
        profile_file(&tables).unwrap()
    }

    fn source(name: &str, bytes: Vec<u8>) -> Input {
        Input {
            path: name.into(),
            name: name.into(),
            bytes,
        }
    }

    fn loaded(bytes: Vec<u8>) -> Profiles {
        Profiles::of(vec![source("a.slp", bytes)]).unwrap()
    }

    fn fault_of(bytes: Vec<u8>) -> String {
        loaded(bytes).values(Group::G0).unwrap_err().to_string()
    }

    #[test]
    fn a_refused_file_is_told_by_what_stands_at_the_place() {
        let file = packed(&[Group::H0, Group::G0]);
        let with = |at: usize, byte: u8| {
            let mut file = file.clone();
            file[at] = byte;
            fault_of(file)
        };
        assert_eq!(
            fault_of(Vec::new()),
            "a.slp: this is no profile file: it is empty (question 1, place 0)"
        );
        assert_eq!(
            fault_of(b"SLP".to_vec()),
            "a.slp: this is no profile file: it has 3 bytes, fewer than 6 (question 1, place 0)"
        );
        assert_eq!(
            fault_of(b"PK\x03\x04\0\0\0\0".to_vec()).split(": ").nth(1),
            Some("this is no profile file")
        );
        assert_eq!(
            with(4, 7),
            "a.slp: the profile file has version 7; version 1 is allowed (question 2, place 0)"
        );
        assert_eq!(with(5, 0), "a.slp: the profile file says that it has 0 profiles; 1 to 11 are allowed (question 3, place 0)");
        assert_eq!(with(5, 3), "a.slp: the profile file has 3464 bytes; with 3 profiles it should have 5193 (question 3, place 0)");
        assert_eq!(
            with(6, 11),
            "a.slp: group code 11; 0 (H0) to 10 (L2) are allowed (question 4, place 6)"
        );
        assert_eq!(with(6, 5), "a.slp: group code 1 (G0) stands behind 5 (G4); the codes rise (question 4, place 1735)");
        let at = 1736 + 2 * (96 * 4 + 24);
        assert_eq!(with(at, 0xFF), format!("a.slp: G0, summer Saturday, 06:15: 6551.3 W; at most 2000.0 W is allowed (question 5, place {at})"));
    }

    #[test]
    fn a_missing_group_is_told_with_those_that_are_there() {
        let fault = loaded(packed(&[Group::H0, Group::L2]))
            .values(Group::G0)
            .unwrap_err();
        assert_eq!(
            fault.to_string(),
            "G0 is not in a.slp, which has H0, L2 (question 6, place 0)"
        );
    }

    #[test]
    fn groups_are_those_of_the_file() {
        let groups = [Group::G0, Group::G6, Group::L0];
        assert_eq!(loaded(packed(&groups)).groups(), Ok(groups.to_vec()));
    }

    #[test]
    fn tables_make_a_profile_file_in_any_order() {
        let table = |name, group| {
            source(
                name,
                table::format(group, &[1001; GROUP_VALUES]).into_bytes(),
            )
        };
        let sources = vec![table("l0.csv", Group::L0), table("h0.csv", Group::H0)];
        let profiles = Profiles::of(sources).unwrap();
        assert_eq!(profiles.file, packed(&[Group::H0, Group::L0]));
        assert_eq!(profiles.name(), "l0.csv, h0.csv");
        let sources = [Group::H0, Group::L0].map(|group| profiles.source_of(group));
        assert_eq!(sources, ["h0.csv", "l0.csv"]);
        let twice = vec![table("a.csv", Group::L0), table("b.csv", Group::L0)];
        assert_eq!(
            Profiles::of(twice).unwrap_err().to_string(),
            "a.csv and b.csv have the same group, L0"
        );
    }

    #[test]
    fn a_profile_file_is_told_from_a_table_with_that_title() {
        let text = table::format(Group::G0, &[1001; GROUP_VALUES]).replacen("G0", "SLP G0", 1);
        let table = || source("a.csv", text.clone().into_bytes());
        let profiles = Profiles::of(vec![table()]).unwrap();
        assert_eq!(profiles.file, packed(&[Group::G0]));
        let sources = vec![source("a.slp", packed(&[Group::H0])), table()];
        assert_eq!(
            Profiles::of(sources).unwrap_err().to_string(),
            "a.slp is a profile file: only tables are put together"
        );
    }

    #[test]
    fn a_table_without_a_group_has_that_of_its_name() {
        let text = table::format(Group::G0, &[1001; GROUP_VALUES]).replacen("G0", "Uhrzeit", 1);
        let named = |name| source(name, text.clone().into_bytes());
        assert_eq!(
            Profiles::of(vec![named("tables/g4.csv")]).unwrap().groups(),
            Ok(vec![Group::G4])
        );
        let fault = Profiles::of(vec![named("shop.csv")]).unwrap_err();
        assert!(fault
            .to_string()
            .starts_with("shop.csv does not name its group"));
    }
}
