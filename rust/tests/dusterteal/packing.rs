//! `pack` and `unpack`, and binary output.
use std::fs;
use std::path::Path;
use std::process::{Command, Output};

use slp::Group;

use crate::made::{packed, stored, table, values, with_value, FILE, TABLE};
use crate::profile_file;
use crate::tool::{command, file, folder, run, run_with, says, text, written};

/// Values of each group's own.
fn values_of(group: Group) -> Vec<u16> {
    with_value(values(), 4, 40, 1000 + u16::from(group.code()))
}

/// A table of each group; their paths.
fn tables(folder: &Path, groups: &[Group]) -> Vec<String> {
    let table = |group: &Group| {
        let name = format!("{group}.csv");
        file(folder, &name, table(group.name(), &values_of(*group)))
    };
    groups.iter().map(table).collect()
}

#[test]
fn packing_and_unpacking_undo_each_other() {
    let folder = folder("packing_both");
    let mut groups = Group::ALL;
    let codes = groups.map(Group::code);
    let expected = profile_file::of(&codes, &groups.map(values_of).concat());
    for _ in 0..groups.len() {
        groups.rotate_left(4);
        let tables = tables(&folder, &groups);
        let made = &text(&folder.join("all.slp"));
        let mut line = vec!["pack", "-o", made];
        line.extend(tables.iter().map(String::as_str));
        assert_eq!(written(&line), "");
        assert!(fs::read(made).expect("the file is there") == expected);
        for (group, path) in groups.iter().zip(&tables) {
            let table = fs::read_to_string(path).expect("the table is there");
            assert_eq!(written(&["unpack", made, group.name()]), table);
        }
    }
}

#[test]
fn the_example_is_packed_and_unpacked() {
    assert!(run(&["pack", TABLE]).written == stored(FILE));
    assert_eq!(written(&["unpack", FILE, "g0"]), table("G0", &values()));
}

#[test]
fn a_group_that_is_not_there_is_not_unpacked() {
    let folder = folder("packing_group");
    let out = folder.join("h0.csv");
    let message = format!("H0 is not in {FILE}, which has G0 (question 6, place 0)");
    says(&["unpack", FILE, "H0", "-o", &text(&out)], 1, &message);
    assert!(!out.exists());
}

/// A table in any form is unpacked to the plain one.
#[test]
fn a_table_is_unpacked_to_a_plain_one() {
    let folder = folder("packing_table");
    let other = table("G0", &values())
        .replace(';', "\t")
        .replace('\n', "\r\n");
    for path in [TABLE, &file(&folder, "other.csv", other)] {
        assert_eq!(written(&["unpack", path, "G0"]), table("G0", &values()));
    }
    let text = &file(&folder, "letter.txt", "Guten Tag,\n");
    says(
        &["unpack", text, "G0"],
        1,
        &format!(
            "{text}, line 1: the header is missing: no line names columns as \"winter weekday\""
        ),
    );
}

#[test]
fn a_profile_file_is_not_packed() {
    let folder = folder("packing_packed");
    let out = folder.join("out.slp");
    let message = format!("{FILE} is a profile file: only tables are put together");
    for tables in [&[FILE][..], &[TABLE, FILE], &[FILE, TABLE]] {
        let line = [&["pack", "-o", out.to_str().expect("text")], tables].concat();
        says(&line, 2, &message);
        assert!(!out.exists());
    }
}

#[test]
fn a_table_on_standard_input_is_packed() {
    let outcome = run_with(&["pack", "-", "-o", "-"], &stored(TABLE));
    assert!((outcome.status, outcome.written) == (0, stored(FILE)));
    let outcome = run_with(&["unpack", "-", "G0"], &stored(FILE));
    assert!((outcome.status, outcome.written) == (0, table("G0", &values()).into_bytes()));
}

/// The request of the listing in document 01.
fn request() -> [&'static str; 8] {
    let constant = "examples/constant.csv";
    let period = "2000-03-25..2000-03-26";
    [
        "request",
        "G0",
        period,
        "1000",
        "--profiles",
        constant,
        "--holidays",
        "none",
    ]
}

#[test]
fn binary_output_goes_through_a_pipe() {
    let mut expected = vec![Group::G0.code()];
    for number in [20000325_u32, 20000326, 1000] {
        expected.extend(number.to_be_bytes());
    }
    expected.extend([0, 0]);
    expected.extend(packed(&[Group::G0], &[1001; 864]));
    assert!(run(&request()).written == expected);
}

/// Runs the tool at a terminal, which the command `script` lends.
fn at_terminal(arguments: &[&str]) -> Output {
    let tool = command(arguments);
    let words = std::iter::once(tool.get_program()).chain(tool.get_args());
    let line: Vec<String> = words
        .map(|word| format!("'{}'", word.to_str().expect("text")))
        .collect();
    Command::new("script")
        .args(["-qec", &line.join(" "), "/dev/null"])
        .current_dir(tool.get_current_dir().expect("a folder"))
        .output()
        .expect("the command script, which lends a terminal, is needed for this test")
}

#[test]
fn binary_output_does_not_go_to_a_terminal() {
    for line in [
        &request()[..],
        &["pack", TABLE],
        &["pack", TABLE, "-o", "-"],
        &["pack", TABLE, "-o", "/dev/stdout"],
        &["pack", TABLE, "-o", "/dev/tty"],
    ] {
        let output = at_terminal(line);
        assert_eq!(output.status.code(), Some(2), "{line:?}");
        assert_eq!(
            String::from_utf8(output.stdout).expect("text"),
            "dusterteal: the output is binary and not for a terminal: name a file with -o, or pipe it\r\n"
        );
    }
}

#[test]
fn text_goes_to_a_terminal() {
    let output = at_terminal(&["unpack", FILE, "G0"]);
    assert_eq!(output.status.code(), Some(0));
    assert_eq!(
        String::from_utf8(output.stdout).expect("text"),
        table("G0", &values()).replace('\n', "\r\n")
    );
}

#[test]
fn binary_output_goes_to_a_file_from_a_terminal() {
    let out = folder("packing_terminal").join("a.slp");
    let output = at_terminal(&["pack", TABLE, "-o", &text(&out)]);
    assert_eq!((output.status.code(), output.stdout), (Some(0), Vec::new()));
    assert!(fs::read(out).expect("the file is there") == stored(FILE));
}
