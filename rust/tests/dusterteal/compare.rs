//! `compare`: groups that are alike, the cells that differ, and what is refused.
use std::fs;

use slp::Group;

use crate::made::{packed, table, values, with_value, DAYS, FILE, TABLE};
use crate::profile_file;
use crate::tool::{file, folder, run_with, says, stopped, written};

/// The made-up values with four cells changed.
fn changed() -> Vec<u16> {
    let cells = [(0, 0, 0), (1, 30, 20_000), (5, 47, 1), (8, 95, 1234)];
    let change = |values, (day, position, value)| with_value(values, day, position, value);
    cells.into_iter().fold(values(), change)
}

/// Those cells, with what they were before.
const CHANGES: [&str; 4] = [
    "winter weekday;00:15;83,0;0,0\n",
    "winter Saturday;07:45;128,1;2000,0\n",
    "summer Sunday;12:00;127,4;0,1\n",
    "transition Sunday;24:00;43,3;123,4\n",
];

/// The report of these changes, for what is called so.
fn differ(what: &str, one: &str, other: &str) -> String {
    let head = format!("{what}: 4 of 864 cells differ\nday;until;{one} W;{other} W\n");
    head + &CHANGES.concat()
}

/// A file in which G0 and L1 are alike, and H0 and L2, but not G0 and H0.
fn alike_and_not() -> Vec<u8> {
    let values = [changed(), values(), values(), changed()].concat();
    let groups = [Group::H0, Group::G0, Group::L1, Group::L2];
    profile_file::of(&groups.map(Group::code), &values)
}

#[test]
fn groups_of_a_file_are_alike_or_differ_in_cells() {
    let path = &file(&folder("compare_groups"), "a.slp", alike_and_not());
    let compared = |one, other| written(&["compare", path, one, other]);
    for group in ["H0", "G0", "L1", "L2"] {
        assert_eq!(
            compared(group, group),
            format!("{group} and {group}: alike\n")
        );
    }
    assert_eq!(compared("G0", "L1"), "G0 and L1: alike\n");
    assert_eq!(compared("l2", "h0"), "L2 and H0: alike\n");
    assert_eq!(compared("G0", "H0"), differ("G0 and H0", "G0", "H0"));
    assert_eq!(compared("L1", "L2"), differ("L1 and L2", "L1", "L2"));
    assert_eq!(
        written(&["compare", TABLE, "G0", "G0"]),
        "G0 and G0: alike\n"
    );
}

#[test]
fn the_last_cell_alone_makes_a_difference() {
    let folder = folder("compare_last");
    let last = *values().last().expect("values");
    let path = &file(
        &folder,
        "a.csv",
        table("G0", &with_value(values(), 8, 95, last + 1)),
    );
    assert_eq!(
        written(&["compare", path, TABLE]),
        "G0: 1 of 864 cells differ\nday;until;old W;new W\ntransition Sunday;24:00;43,4;43,3\n"
    );
}

#[test]
fn two_files_are_compared_group_by_group() {
    let folder = folder("compare_files");
    let old = &file(
        &folder,
        "old.slp",
        packed(&[Group::H0, Group::G0, Group::L0], &values()),
    );
    let new = [values(), changed(), values()].concat();
    let codes = [Group::H0, Group::G0, Group::L2].map(Group::code);
    let new = &file(&folder, "new.slp", profile_file::of(&codes, &new));
    let g0 = differ("G0", "old", "new");
    assert_eq!(
        written(&["compare", old, new]),
        format!("H0: alike\n{g0}L0: only in {old}\nL2: only in {new}\n")
    );
    assert_eq!(written(&["compare", old, new, "G0"]), g0);
    assert_eq!(written(&["compare", old, new, "h0"]), "H0: alike\n");
}

#[test]
fn tables_and_profile_files_are_compared_with_each_other() {
    let folder = folder("compare_tables");
    let table = &file(&folder, "new.csv", table("G0", &changed()));
    let g0 = differ("G0", "old", "new");
    for old in [TABLE, FILE] {
        assert_eq!(written(&["compare", old, table]), g0);
        assert_eq!(written(&["compare", old, table, "G0"]), g0);
        assert_eq!(written(&["compare", old, FILE]), "G0: alike\n");
    }
    let content = fs::read(table).expect("the table is there");
    let outcome = run_with(&["compare", TABLE, "-"], &content);
    assert_eq!((outcome.status, outcome.written), (0, g0.into_bytes()));
}

/// The place is 0 for the first group that is compared, 1 for the second.
#[test]
fn a_group_that_is_not_in_the_file_is_named() {
    for (one, other, missing, place) in [
        ("H0", "G0", "H0", 0),
        ("G0", "H0", "H0", 1),
        ("L1", "L2", "L1", 0),
    ] {
        let message =
            format!("{missing} is not in {FILE}, which has G0 (question 6, place {place})");
        says(&["compare", FILE, one, other], 1, &message);
    }
}

#[test]
fn a_named_group_that_is_not_in_both_files_is_refused() {
    let folder = folder("compare_missing");
    let h0 = &file(&folder, "h0.slp", packed(&[Group::H0], &values()));
    let message = format!("H0 is not in {FILE}, which has G0 (question 6, place 0)");
    says(&["compare", FILE, h0, "H0"], 1, &message);
    says(&["compare", h0, FILE, "H0"], 1, &message);
}

#[test]
fn files_that_cannot_be_read_or_are_not_accepted_are_named() {
    let folder = folder("compare_refused");
    let cut = &file(&folder, "cut.csv", "G0;winter weekday\n");
    let message = format!(
        "{cut}, line 1: the columns {} are missing",
        DAYS[1..].join(", ")
    );
    says(&["compare", FILE, cut], 1, &message);
    says(&["compare", cut, "G0", "G0"], 1, &message);
    for line in [
        &["compare", FILE, "nowhere.slp"][..],
        &["compare", "nowhere.slp", "G0", "G0"],
    ] {
        stopped(line, 3, &["cannot read nowhere.slp: "]);
    }
}
