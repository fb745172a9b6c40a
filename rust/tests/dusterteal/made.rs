//! Profile files and tables that the tests make.
use std::fs;

use slp::{Group, GROUP_VALUES};

use crate::profile_file;
use crate::repository;

/// A table of made-up values for G0, whose year has nearly 1,000 kWh, and the profile file of it.
pub const TABLE: &str = "examples/made_up.csv";
pub const FILE: &str = "examples/made_up.slp";

/// The days of a table's columns.
pub const DAYS: [&str; 9] = [
    "winter weekday",
    "winter Saturday",
    "winter Sunday",
    "summer weekday",
    "summer Saturday",
    "summer Sunday",
    "transition weekday",
    "transition Saturday",
    "transition Sunday",
];

/// The quarter hours of a day.
pub const QUARTERS: usize = 96;

/// A file of the repository.
pub fn stored(name: &str) -> Vec<u8> {
    fs::read(repository::path(name)).expect(name)
}

/// The values of the table `TABLE`, in tenths of a watt.
pub fn values() -> Vec<u16> {
    let mut values = vec![0; GROUP_VALUES];
    reference::read(&stored(FILE), Group::G0.code(), &mut values).expect("the file is accepted");
    values
}

/// These values with another in a day's column at a position.
pub fn with_value(mut values: Vec<u16>, day: usize, position: usize, value: u16) -> Vec<u16> {
    values[QUARTERS * day + position] = value;
    values
}

/// The profile file of these groups, each with the same values.
pub fn packed(groups: &[Group], values: &[u16]) -> Vec<u8> {
    let codes: Vec<u8> = groups.iter().map(|group| group.code()).collect();
    profile_file::of(&codes, &values.repeat(groups.len()))
}

/// The time at which the quarter hour at a position ends, 00:15 to 24:00.
pub fn until(position: usize) -> String {
    let minutes = 15 * (position + 1);
    format!("{:02}:{:02}", minutes / 60, minutes % 60)
}

/// Tenths of a watt with a decimal comma.
pub fn watts(tenths: u16) -> String {
    format!("{},{}", tenths / 10, tenths % 10)
}

/// The 96 rows of a table with these days as columns; `row` makes each of its position and its values.
pub fn rows(
    values: &[u16],
    days: [usize; 9],
    row: impl Fn(usize, &[u16]) -> String,
) -> Vec<String> {
    let of = |position: usize| days.map(|day| values[QUARTERS * day + position]);
    (0..QUARTERS)
        .map(|position| row(position, &of(position)))
        .collect()
}

/// A plain table, with semicolons and decimal commas.
pub fn table(group: &str, values: &[u16]) -> String {
    let rows = rows(values, [0, 1, 2, 3, 4, 5, 6, 7, 8], |position, values| {
        let values: Vec<String> = values.iter().copied().map(watts).collect();
        format!("{};{}\n", until(position), values.join(";"))
    });
    format!("{group};{}\n{}", DAYS.join(";"), rows.concat())
}
