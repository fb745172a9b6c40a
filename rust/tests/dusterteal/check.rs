//! `check`: what is accepted, a year's energy, and what is doubted.
use std::path::Path;

use slp::Group;

use crate::made::{packed, table, values, with_value, FILE, QUARTERS, TABLE};
use crate::tool::{file, folder, run, says, warnings, written};

/// The days that source document 000 lists for the year 2000 in step 4.
const HOLIDAYS: [u32; 11] = [
    20000101, 20000421, 20000423, 20000424, 20000501, 20000601, 20000611, 20000612, 20001003,
    20001225, 20001226,
];

/// The energy of the year 2000 for 1,000 kWh a year, in Wh.
fn energy(group: Group, values: &[u16]) -> u64 {
    let request = reference::Request {
        file: &packed(&[group], values),
        group: group.code(),
        first: 20000101,
        last: 20001231,
        holidays: &HOLIDAYS,
        yearly: 1000,
        carry: 0,
    };
    let mut figures = vec![0; 366 * 100];
    reference::expand(&request, &mut figures).expect("accepted");
    figures.into_iter().map(u64::from).sum()
}

/// What `check` says of a group's year.
fn line(group: Group, values: &[u16]) -> String {
    let energy = energy(group, values);
    let percent = (energy as f64 - 1e6) / 1e4;
    format!("{group}: {energy} Wh in the year 2000 for 1000 kWh a year ({percent:+.4} %)\n")
}

/// What `check` writes, with warnings or without.
fn checked(arguments: &[&str]) -> String {
    let outcome = run(&[&["check"], arguments].concat());
    assert_eq!(outcome.status, 0, "{}", outcome.said);
    String::from_utf8(outcome.written).expect("text")
}

/// The warnings of `check` for a table of G0, without the file's name and the group.
fn doubts(folder: &Path, values: &[u16]) -> Vec<String> {
    doubts_of(folder, "G0", values)
}

fn doubts_of(folder: &Path, group: &str, values: &[u16]) -> Vec<String> {
    let path = &file(folder, "table.csv", table(group, values));
    let beginning = format!("{path}: {group}: ");
    let without = |warning: &String| warning.strip_prefix(&beginning).expect(warning).to_owned();
    warnings(&["check", path]).iter().map(without).collect()
}

#[test]
fn a_table_and_a_profile_file_are_accepted_with_their_groups_and_energy() {
    let year = line(Group::G0, &values());
    assert_eq!(
        written(&["check", TABLE]),
        format!("{TABLE}: accepted, a table with G0\n{year}")
    );
    assert_eq!(
        written(&["check", FILE]),
        format!("{FILE}: accepted, a profile file with G0\n{year}")
    );
}

#[test]
fn each_group_of_a_file_has_its_line_or_the_one_that_is_named() {
    let folder = folder("check_groups");
    let path = &file(&folder, "all.slp", packed(&Group::ALL, &values()));
    let first = format!(
        "{path}: accepted, a profile file with H0, G0, G1, G2, G3, G4, G5, G6, L0, L1, L2\n"
    );
    let lines = Group::ALL.map(|group| line(group, &values()));
    assert_eq!(checked(&[path]), first.clone() + &lines.concat());
    for (group, line) in Group::ALL.iter().zip(lines) {
        assert_eq!(checked(&[path, group.name()]), first.clone() + &line);
    }
}

/// Only the group that is named is doubted.
#[test]
fn a_named_group_alone_is_doubted() {
    let folder = folder("check_named");
    let groups = [Group::H0, Group::G0];
    let path = &file(&folder, "a.slp", packed(&groups, &[1001; 864]));
    let groups_of = |arguments: &[&str]| {
        let warnings = warnings(arguments);
        groups.map(|group| {
            warnings
                .iter()
                .any(|warning| warning.contains(&format!(": {group}: ")))
        })
    };
    assert_eq!(groups_of(&["check", path]), [true, true]);
    assert_eq!(groups_of(&["check", path, "H0"]), [true, false]);
    assert_eq!(groups_of(&["check", path, "g0"]), [false, true]);
}

#[test]
fn a_group_that_is_not_there_is_refused() {
    let message = format!("H0 is not in {FILE}, which has G0 (question 6, place 0)");
    says(&["check", FILE, "H0"], 1, &message);
}

/// Values of G0 whose year has this energy, which is not far from 1,000 kWh.
fn values_with(wanted: u64) -> Vec<u16> {
    // All values raised or lowered, and one of a transition Sunday raised to hit the last Wh.
    let shifted = |all: u16, one: u16| {
        let values: Vec<u16> = values().iter().map(|value| value + all - 30).collect();
        let last = *values.last().expect("values");
        with_value(values, 8, QUARTERS - 1, last + one)
    };
    let reaches = |all: u16, one: u16| energy(Group::G0, &shifted(all, one)) >= wanted;
    let first = |reaches: &dyn Fn(u16) -> bool| {
        let steps: Vec<u16> = (0..4000).collect();
        steps.partition_point(|step| !reaches(*step)) as u16
    };
    let all = first(&|all| all > 60 || reaches(all, 0)) - 1;
    let one = first(&|one| reaches(all, one));
    let values = shifted(all, one);
    assert_eq!(energy(Group::G0, &values), wanted);
    values
}

#[test]
fn a_year_that_is_more_than_one_and_a_half_percent_off_is_doubted() {
    let folder = folder("check_energy");
    let doubt = "a year is more than 1.5 % off 1000 kWh (source document 000, step 4)";
    for (energy, expected) in [
        (984_999, &[doubt][..]),
        (985_000, &[]),
        (1_015_000, &[]),
        (1_015_001, &[doubt]),
    ] {
        assert_eq!(doubts(&folder, &values_with(energy)), expected, "{energy}");
    }
    assert_eq!(doubts(&folder, &[0; 864])[0], doubt);
}

/// The values of a table in which they are divided.
fn divided(by: u16) -> Vec<u16> {
    let divided = |value: &u16| (value + by / 2) / by;
    values().iter().map(divided).collect()
}

#[test]
fn values_in_another_unit_are_known_by_the_years_energy() {
    let folder = folder("check_units");
    for (by, unit) in [(1000, "kW"), (4, "Wh")] {
        let doubt = format!("the values look like {unit}; they should be W for 1000 kWh a year");
        let doubts = doubts(&folder, &divided(by));
        assert_eq!(doubts[0], doubt);
        assert!(
            !doubts.iter().any(|doubt| doubt.contains("1.5 %")),
            "{doubts:?}"
        );
    }
}

#[test]
fn a_series_of_values_in_another_unit_is_warned_of() {
    let folder = folder("check_series");
    for (by, unit) in [(1000, "kW"), (4, "Wh")] {
        let path = &file(&folder, "table.csv", table("G0", &divided(by)));
        let warning = format!("{path}: the values of G0 look like {unit}: see `dusterteal check`");
        let options = ["--profiles", path, "--holidays", "none"];
        for subcommand in ["series", "sums", "days", "page", "request"] {
            let line = [&[subcommand, "G0", "2000", "1000"][..], &options].concat();
            assert_eq!(warnings(&line), [warning.as_str()], "{subcommand}");
        }
        assert_eq!(warnings(&["pack", path]), [warning.as_str()]);
    }
}

/// A year that is more than an eighth off 1,000 kWh is told; the flat profile of the listing is not.
#[test]
fn a_series_of_another_energy_altogether_is_warned_of() {
    let folder = folder("check_far");
    for (value, energy, is_warned) in [
        (900, 790_560, true),
        (1001, 879_278, false),
        (1400, 1_229_760, true),
        (0, 0, true),
    ] {
        let path = &file(&folder, "table.csv", table("G0", &vec![value; 864]));
        let warning = format!(
            "{path}: a year of G0 has {energy} Wh for 1000 kWh a year: see `dusterteal check`"
        );
        let line = [
            "days",
            "G0",
            "2000",
            "1000",
            "--profiles",
            path,
            "--holidays",
            "none",
        ];
        assert_eq!(warnings(&line).contains(&warning), is_warned, "{value}");
    }
}

/// Other doubts are those of `check` alone.
#[test]
fn a_series_is_not_warned_of_for_less() {
    let profiles = ["--profiles", "examples/constant.csv", "--holidays", "none"];
    let line = [&["series", "G0", "2000", "1000"][..], &profiles].concat();
    assert_eq!(written(&line).lines().count(), 1 + 35_136);
    assert_eq!(warnings(&["check", "examples/constant.csv"]).len(), 2);
}

/// Values in which a day's table is that of another.
fn copied(values: &[u16], from: usize, to: usize) -> Vec<u16> {
    let mut values = values.to_vec();
    values.copy_within(QUARTERS * from..QUARTERS * (from + 1), QUARTERS * to);
    values
}

#[test]
fn equal_day_tables_are_named() {
    let folder = folder("check_equal");
    let equal = copied(&copied(&values(), 3, 6), 4, 7);
    let named = |days: &str| format!("these days have equal tables: {days}");
    let expected = [
        named("summer weekday, transition weekday"),
        named("summer Saturday, transition Saturday"),
    ];
    let is_named = |doubt: &String| doubt.starts_with("these days");
    let doubts = |values: &[u16]| {
        let doubts = doubts(&folder, values).into_iter();
        doubts.filter(is_named).collect::<Vec<_>>()
    };
    assert_eq!(doubts(&equal), expected);
    assert_eq!(doubts(&with_value(equal, 6, 95, 1)), expected[1..]);
    assert_eq!(doubts(&values()), [""; 0]);
}

#[test]
fn a_sunday_above_the_weekday_is_odd_for_trade_but_not_at_the_weekend() {
    let folder = folder("check_sundays");
    let above = with_value(copied(&values(), 0, 2), 2, 0, 20_000);
    let doubts = |group: Group| {
        let doubts = doubts_of(&folder, group.name(), &above).into_iter();
        let odd = |doubt: &String| doubt.ends_with("odd for trade");
        doubts.filter(odd).collect::<Vec<_>>()
    };
    for group in Group::ALL {
        let expected = match group {
            Group::H0 | Group::G6 | Group::L0 | Group::L1 | Group::L2 => &[][..],
            _ => &["winter Sunday lies above winter weekday, which is odd for trade"],
        };
        assert_eq!(doubts(group), expected, "{group}");
    }
}

/// A warning is no refusal: exit status 0, and the report is written whole.
#[test]
fn what_is_doubted_is_accepted() {
    let folder = folder("check_accepted");
    let path = &file(&folder, "table.csv", table("G0", &divided(4)));
    let expected = format!(
        "{path}: accepted, a table with G0\n{}",
        line(Group::G0, &divided(4))
    );
    assert_eq!(checked(&[path]), expected);
}
