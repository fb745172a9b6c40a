//! Files that are read and written: what cannot be, what takes the place of what, and that nothing is half written.
use std::fs::{self, File};
use std::io::{BufRead, BufReader, Read};
use std::os::unix::fs::{symlink, FileTypeExt, MetadataExt, PermissionsExt};
use std::path::Path;
use std::process::{Command, Stdio};
use std::time::{Duration, Instant};

use crate::made::{stored, FILE, TABLE};
use crate::tool::{
    self, command, expect_stopped, file, folder, run, run_with, says, stopped, text, written,
};

const LIST: &str = "examples/holidays_2000.txt";

/// A series of two days.
fn series<'a>(profiles: &'a str, holidays: &'a str, more: &[&'a str]) -> Vec<&'a str> {
    let words = ["series", "G0", "2000-03-25..2000-03-26", "1000"];
    let options = ["--profiles", profiles, "--holidays", holidays];
    [&words[..], &options, more].concat()
}

/// What it writes.
fn expected() -> String {
    let text = written(&series(TABLE, LIST, &[]));
    assert_eq!(text.lines().count(), 1 + 96 + 92);
    text
}

/// A series that goes to a file.
fn series_to(path: &Path) -> Vec<String> {
    let line = series(TABLE, LIST, &["-o"]);
    line.into_iter()
        .map(str::to_owned)
        .chain([text(path)])
        .collect()
}

fn words(line: &[String]) -> Vec<&str> {
    line.iter().map(String::as_str).collect()
}

fn content(path: &Path) -> String {
    fs::read_to_string(path).expect("the file is there")
}

/// The names in a folder.
fn names(folder: &Path) -> Vec<String> {
    let entries = fs::read_dir(folder).expect("the folder is there");
    let name = |entry: fs::DirEntry| entry.file_name().into_string().expect("text");
    let mut names: Vec<String> = entries
        .map(|entry| name(entry.expect("an entry")))
        .collect();
    names.sort();
    names
}

// What is read.

/// The lines that read a file of profiles or of holidays.
fn readers(path: &str) -> Vec<Vec<&str>> {
    vec![
        series(path, "none", &[]),
        series(TABLE, path, &[]),
        vec!["day", "2000", "--holidays", path],
        vec!["check", path],
        vec!["compare", FILE, path],
        vec!["pack", path],
        vec!["unpack", path, "G0"],
    ]
}

/// The last of these can be opened but not read, whoever the user is.
#[test]
fn files_that_cannot_be_read_are_named() {
    let folder = folder("files_unreadable");
    for path in [
        &text(&folder.join("nowhere.csv")),
        &text(&folder),
        "/proc/self/mem",
    ] {
        for line in readers(path) {
            stopped(&line, 3, &[&format!("dusterteal: cannot read {path}: ")]);
        }
    }
}

/// The superuser reads it all the same, so the test's own reading says what is expected.
#[test]
fn a_file_without_permission_is_named() {
    let folder = folder("files_permission");
    let path = &file(&folder, "closed.csv", stored(TABLE));
    fs::set_permissions(path, fs::Permissions::from_mode(0o000)).expect("the owner may");
    match fs::read(path) {
        Ok(_) => assert_eq!(written(&series(path, LIST, &[])), expected()),
        Err(_) => stopped(
            &series(path, LIST, &[]),
            3,
            &[&format!("cannot read {path}: ")],
        ),
    }
}

#[test]
fn an_endless_file_is_refused_quickly() {
    let begun = Instant::now();
    let message = "/dev/zero has more than 1048576 bytes: that is no table, list or profile file";
    for line in readers("/dev/zero") {
        says(&line, 1, message);
    }
    assert!(begun.elapsed() < Duration::from_secs(5));
}

#[test]
fn profiles_and_holidays_come_from_standard_input() {
    let expected = expected();
    for (line, input) in [
        (series("-", LIST, &[]), TABLE),
        (series("-", LIST, &["-o", "-"]), FILE),
        (series(TABLE, "-", &[]), LIST),
    ] {
        let outcome = run_with(&line, &stored(input));
        assert_eq!((outcome.status, outcome.said.as_str()), (0, ""), "{line:?}");
        assert_eq!(outcome.written, expected.as_bytes(), "{line:?}");
    }
    let outcome = run_with(&series("-", LIST, &[]), b"nothing");
    expect_stopped(
        &outcome,
        1,
        &["dusterteal: standard input, line 1: the header is missing: "],
    );
}

#[test]
fn an_empty_name_is_shown() {
    for line in readers("") {
        stopped(&line, 3, &["dusterteal: cannot read \"\": "]);
    }
    let line = series(TABLE, "none", &["-o", ""]);
    stopped(&line, 3, &["dusterteal: cannot write \"\": "]);
}

// What is written.

#[test]
fn standard_output_may_be_named() {
    assert_eq!(written(&series(TABLE, LIST, &["-o", "-"])), expected());
    assert_eq!(written(&series(TABLE, LIST, &["--output=-"])), expected());
}

/// The lines that write to standard output.
fn writers() -> Vec<Vec<&'static str>> {
    vec![
        vec![],
        vec!["--help"],
        vec!["--version"],
        series(TABLE, "none", &[]),
        vec![
            "sums",
            "G0",
            "2000",
            "1",
            "--profiles",
            TABLE,
            "--holidays",
            "none",
        ],
        vec![
            "page",
            "G0",
            "2000",
            "1",
            "--profiles",
            TABLE,
            "--holidays",
            "none",
        ],
        vec!["day", "2000"],
        vec!["check", TABLE],
        vec!["compare", FILE, TABLE],
        vec!["pack", TABLE],
        vec!["unpack", FILE, "G0"],
    ]
}

#[test]
fn a_full_standard_output_is_told() {
    for line in writers() {
        let full = File::create("/dev/full").expect("the device is there");
        let output = command(&line).stdout(full).output().expect("the tool runs");
        assert_eq!(output.status.code(), Some(3), "{line:?}");
        let said = String::from_utf8(output.stderr).expect("text");
        assert!(
            said.starts_with("dusterteal: cannot write standard output: "),
            "{said}"
        );
    }
}

/// Where nothing can be said, the exit status still tells.
#[test]
fn a_full_standard_error_does_not_change_the_exit_status() {
    for (line, status) in [
        (series(TABLE, "nowhere.txt", &[]), 3),
        (series("README.md", "none", &[]), 1),
        (vec!["serie"], 2),
        // This one warns.
        (vec!["day", "2001", "--holidays", LIST], 0),
    ] {
        let full = File::create("/dev/full").expect("the device is there");
        let output = command(&line).stderr(full).output().expect("the tool runs");
        assert_eq!(output.status.code(), Some(status), "{line:?}");
        assert_eq!(output.stdout.is_empty(), status != 0, "{line:?}");
    }
}

/// A device as the system's own, of the test's own where the user may make one: a faulty tool run by the superuser would put a
/// file in its place, and other users cannot replace that of the system.
fn device(folder: &Path, name: &str, minor: &str) -> String {
    let path = text(&folder.join(name));
    let made = Command::new("mknod")
        .args(["-m", "666", &path, "c", "1", minor])
        .output()
        .expect("the command mknod is on the machine");
    match made.status.success() {
        true => path,
        false => format!("/dev/{name}"),
    }
}

fn full_device(folder: &Path) -> String {
    device(folder, "full", "7")
}

#[test]
fn a_device_is_written_to_and_stays_a_device() {
    let folder = folder("files_device");
    let (full, null) = (&full_device(&folder), &device(&folder, "null", "3"));
    for option in ["-o", "--carry-out", "--about"] {
        let line = series(TABLE, "none", &[option, full]);
        stopped(&line, 3, &[&format!("dusterteal: cannot write {full}: ")]);
    }
    assert_eq!(written(&series(TABLE, "none", &["-o", null])), "");
    for device in [full, null] {
        let kind = fs::metadata(device)
            .expect("the device is there")
            .file_type();
        assert!(kind.is_char_device(), "{device}");
    }
}

/// A reader that closes the pipe has what it wanted. The series is longer than a pipe holds.
#[test]
fn a_closed_pipe_is_no_failure() {
    let year = [
        "series",
        "G0",
        "2000",
        "1000",
        "--profiles",
        TABLE,
        "--holidays",
        "none",
    ];
    let mut child = command(&year)
        .stdout(Stdio::piped())
        .stderr(Stdio::piped())
        .spawn()
        .expect("the tool runs");
    let mut first = String::new();
    let mut pipe = BufReader::new(child.stdout.take().expect("a pipe"));
    pipe.read_line(&mut first).expect("a line");
    drop(pipe);
    assert_eq!(first, "date;until;offset;Wh\n");
    let mut said = String::new();
    let mut messages = child.stderr.take().expect("a pipe");
    messages.read_to_string(&mut said).expect("text");
    assert_eq!(
        (child.wait().expect("an end").code(), said.as_str()),
        (Some(0), "")
    );
}

#[test]
fn places_that_cannot_be_written_are_named() {
    let folder = folder("files_places");
    let below_a_file = folder.join("file").join("a.csv");
    fs::write(folder.join("file"), "old").expect("written");
    for path in [
        &folder.join("nowhere").join("a.csv"),
        &folder,
        &below_a_file,
    ] {
        let message = format!("dusterteal: cannot write {}: ", path.display());
        stopped(&words(&series_to(path)), 3, &[&message]);
    }
    assert_eq!(names(&folder), ["file"]);
}

#[test]
fn an_old_file_is_replaced_whole() {
    let folder = folder("files_replaced");
    let path = folder.join("series.csv");
    for old in ["", "old\n", &"old line\n".repeat(10_000)] {
        fs::write(&path, old).expect("written");
        assert_eq!(written(&words(&series_to(&path))), "");
        assert_eq!(content(&path), expected());
    }
    assert_eq!(names(&folder), ["series.csv"]);
}

#[test]
fn an_old_file_keeps_its_permissions() {
    let path = folder("files_mode").join("series.csv");
    fs::write(&path, "old").expect("written");
    fs::set_permissions(&path, fs::Permissions::from_mode(0o640)).expect("the owner may");
    assert_eq!(written(&words(&series_to(&path))), "");
    let mode = fs::metadata(&path).expect("the file is there").mode();
    assert_eq!((mode & 0o777, content(&path)), (0o640, expected()));
}

/// The file behind the link is written, be it there already or not, and the link stays.
#[test]
fn a_symbolic_link_is_followed() {
    let folder = folder("files_link");
    let (real, link) = (folder.join("real.csv"), folder.join("link.csv"));
    symlink("middle.csv", &link).expect("the link is made");
    symlink("real.csv", folder.join("middle.csv")).expect("the link is made");
    for _ in ["new", "old"] {
        assert_eq!(written(&words(&series_to(&link))), "");
        assert_eq!(content(&real), expected());
        fs::write(&real, "old").expect("written");
    }
    assert_eq!(names(&folder), ["link.csv", "middle.csv", "real.csv"]);
    assert!(fs::symlink_metadata(&link)
        .expect("the link is there")
        .is_symlink());
    assert!(fs::symlink_metadata(&real)
        .expect("the file is there")
        .is_file());
}

#[test]
fn links_in_a_circle_are_told() {
    let folder = folder("files_circle");
    let link = folder.join("a.csv");
    symlink("b.csv", &link).expect("the link is made");
    symlink("a.csv", folder.join("b.csv")).expect("the link is made");
    stopped(&words(&series_to(&link)), 3, &["cannot write "]);
    assert_eq!(names(&folder), ["a.csv", "b.csv"]);
}

#[test]
fn a_run_that_stops_leaves_the_old_file_and_nothing_beside_it() {
    let folder = folder("files_kept");
    let path = &file(&folder, "series.csv", "old");
    let since = ["-o", path, "--since", "2001-01-01"];
    for line in [
        series("README.md", "none", &["-o", path]),
        series(TABLE, "nowhere.txt", &["-o", path]),
        series(TABLE, "none", &["-o", path, "--carry", "40000"]),
        series(TABLE, "none", &since),
        vec!["pack", FILE, "-o", path],
        vec!["unpack", FILE, "H0", "-o", path],
        vec!["day", "1995", "-o", path],
    ] {
        let outcome = run(&line);
        assert!(outcome.status != 0 && !outcome.said.is_empty(), "{line:?}");
        assert_eq!(content(Path::new(path)), "old", "{line:?}");
    }
    assert_eq!(names(&folder), ["series.csv"]);
}

#[test]
fn where_a_file_beside_the_series_cannot_be_written_the_series_stays_as_it_was() {
    let folder = folder("files_beside");
    let full = &full_device(&tool::folder("files_beside_device"));
    let path = &file(&folder, "series.csv", "old");
    let nowhere = &text(&folder.join("nowhere").join("a.txt"));
    let other = &text(&folder.join("other.txt"));
    for (option, rest) in [("--carry-out", "--about"), ("--about", "--carry-out")] {
        for unwritable in [nowhere, &text(&folder), full] {
            let line = series(
                TABLE,
                "none",
                &["-o", path, option, unwritable, rest, other],
            );
            stopped(
                &line,
                3,
                &[&format!("dusterteal: cannot write {unwritable}: ")],
            );
            assert_eq!(content(Path::new(path)), "old");
        }
    }
    assert_eq!(names(&folder), ["series.csv"]);
    written(&series(TABLE, LIST, &["-o", path, "--carry-out", other]));
    assert_eq!(names(&folder), ["other.txt", "series.csv"]);
    assert_eq!(content(Path::new(path)), expected());
}

fn expect_taken(line: &[&str], name: &str) {
    says(
        line,
        1,
        &format!("{name} is read or written already: name another file"),
    );
}

#[test]
fn what_is_read_is_not_written() {
    let folder = folder("files_taken");
    let table = &file(&folder, "g0.csv", stored(TABLE));
    let list = &file(&folder, "list.txt", stored(LIST));
    let link = &text(&folder.join("link.csv"));
    symlink(table, link).expect("the link is made");
    let roundabout = &text(&folder.join("..").join("files_taken").join("g0.csv"));
    for name in [table, list, link, roundabout] {
        for option in ["-o", "--carry-out", "--about"] {
            expect_taken(&series(table, list, &[option, name]), name);
        }
    }
    for name in [table, link] {
        expect_taken(&["pack", table, "-o", name], name);
        expect_taken(&["unpack", table, "G0", "-o", name], name);
    }
    expect_taken(&["day", "2000", "--holidays", list, "-o", list], list);
    assert_eq!(fs::read(table).expect("the table is there"), stored(TABLE));
    assert_eq!(fs::read(list).expect("the list is there"), stored(LIST));
}

#[test]
fn no_file_is_written_twice() {
    let folder = folder("files_twice");
    let path = &text(&folder.join("a.csv"));
    let roundabout = &text(&folder.join(".").join("a.csv"));
    let link = &text(&folder.join("link.csv"));
    symlink("a.csv", link).expect("the link is made");
    for (out, other) in [(path, path), (path, roundabout), (path, link), (link, path)] {
        for option in ["--carry-out", "--about"] {
            expect_taken(&series(TABLE, "none", &["-o", out, option, other]), out);
            assert_eq!(names(&folder), ["link.csv"]);
        }
    }
    expect_taken(
        &series(TABLE, "none", &["--carry-out", "-"]),
        "standard output",
    );
}

/// What stands before and behind in the file that standard output goes to is kept.
#[test]
fn standard_output_by_its_other_names_keeps_what_is_there() {
    let folder = folder("files_names_of_output");
    let tool = env!("CARGO_BIN_EXE_dusterteal");
    let expected = format!("first\n{}last\n", written(&["day", "2000-03-26"]));
    for name in ["-", "/dev/stdout", "/dev/fd/1", "/proc/self/fd/1"] {
        let path = text(&folder.join("out.txt"));
        let line = format!("(echo first; '{tool}' day 2000-03-26 -o {name}; echo last) >'{path}'");
        let status = Command::new("bash")
            .args(["-c", &line])
            .status()
            .expect("bash runs");
        assert!(status.success(), "{name}");
        assert_eq!(fs::read_to_string(&path).expect("text"), expected, "{name}");
    }
}

#[test]
fn an_open_file_is_written_behind_what_it_has() {
    let folder = folder("files_open");
    let (tool, path) = (
        env!("CARGO_BIN_EXE_dusterteal"),
        text(&folder.join("out.txt")),
    );
    let line = format!("exec 5>'{path}'; echo first >&5; '{tool}' day 2000-03-26 -o /dev/fd/5");
    let status = Command::new("bash")
        .args(["-c", &line])
        .status()
        .expect("bash runs");
    assert!(status.success());
    let expected = format!("first\n{}", written(&["day", "2000-03-26"]));
    assert_eq!(fs::read_to_string(&path).expect("text"), expected);
}

/// Standard output that is open for reading only takes nothing, which must not pass for done.
#[test]
fn standard_output_that_cannot_be_written_to_is_said() {
    let read_only = fs::File::open("/dev/null").expect("the device opens");
    let output = command(&["day", "2000"])
        .stdout(read_only)
        .output()
        .expect("the tool runs");
    assert_eq!(output.status.code(), Some(3));
    let said = String::from_utf8(output.stderr).expect("text");
    assert!(
        said.starts_with("dusterteal: cannot write standard output: "),
        "{said}"
    );
}

#[test]
fn a_file_with_a_long_name_is_written() {
    let path = text(&folder("files_long").join("a".repeat(250)));
    assert_eq!(written(&["day", "2000-03-26", "-o", &path]), "");
    assert_eq!(fs::read_to_string(path).expect("text").lines().count(), 2);
}
