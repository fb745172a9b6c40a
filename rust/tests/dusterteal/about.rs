//! `--about` and `--carry-out`: how a series was made, so that it can be made again.
use std::fs;
use std::path::{Path, PathBuf};
use std::process::{Command, Stdio};

use crate::expected::{expect_text, Run, Source};
use crate::tool::{
    command, expect_stopped, file, folder, run_with, text, warned, written, Outcome,
};

/// The SHA-256 of a file, by the system's `sha256sum`.
fn sha256(path: &str) -> String {
    let output = Command::new("sha256sum")
        .stdin(fs::File::open(path).expect("the file"))
        .output()
        .expect("sha256sum runs");
    let said = String::from_utf8(output.stdout).expect("text");
    said.split_whitespace().next().expect("a sum").to_owned()
}

/// What an account says of a file.
fn account_of(what: &str, name: &str, path: &str) -> String {
    let length = fs::metadata(path).expect("the file").len();
    format!("{what}: {name}, {length} bytes, SHA-256 {}\n", sha256(path))
}

fn content(path: impl AsRef<Path>) -> String {
    fs::read_to_string(path).expect("the file")
}

/// The paths that a test's run writes to.
struct Written {
    output: String,
    about: String,
    carry: String,
}

impl Written {
    fn to(folder: &Path) -> Written {
        let path = |name| text(&folder.join(name));
        Written {
            output: path("series.csv"),
            about: path("about.txt"),
            carry: path("carry.txt"),
        }
    }

    fn options(&self) -> [&str; 6] {
        let Written {
            output,
            about,
            carry,
        } = self;
        ["-o", output, "--about", about, "--carry-out", carry]
    }
}

#[test]
fn an_account_has_all_that_a_series_is_made_from_and_what_came_out() {
    let folder = folder("about_all");
    let (source, to) = (Source::usual(&folder), Written::to(&folder));
    let beginning = ["--since", "1999-12-01", "--carry", "17"];
    let words = source.command(&["series", "H0", "2000-Q2", "3500"]);
    let words = [&words[..], &beginning, &to.options()].concat();
    warned(&words, &["lists no date of 1999"]);
    let run = Run {
        since: Some(19_991_201),
        carry: 17,
        ..source.run(0, 20_000_401, 20_000_630)
    };
    let (_, made) = run.figures();
    let expected = [
        format!("version: {}", written(&["--version"])),
        format!("arguments: {}\n", words.join(" ")),
        account_of("tool", "dusterteal", env!("CARGO_BIN_EXE_dusterteal")),
        account_of("profiles", &source.profiles, &source.profiles),
        account_of("holidays", &source.list, &source.list),
        "run: from 1999-12-01 with carry 17 / 40000 Wh\n".to_owned(),
        format!(
            "period: 2000-04-01 to 2000-06-30 with carry {} / 40000 Wh\n",
            run.carry_before()
        ),
        format!(
            "count: {} quarter hours\ntotal: {} Wh\ncarry: {} / 40000 Wh\n",
            made.count, made.total, made.carry
        ),
        account_of("output", &to.output, &to.output),
    ];
    expect_text(&content(&to.about), &expected.concat(), "about");
    expect_text(&content(&to.output), &run.csv(), "output");
    assert_eq!(content(&to.carry), format!("{}\n", made.carry));
}

#[test]
fn tables_standard_input_and_standard_output_are_accounted_for() {
    let folder = folder("about_standard");
    let source = Source::usual(&folder);
    let about = text(&folder.join("about.txt"));
    let table = |group: &str| {
        let path = text(&folder.join(format!("{group}.csv")));
        written(&["unpack", &source.profiles, group, "-o", &path]);
        path
    };
    let (g0, l2) = (table("G0"), table("L2"));
    let words = [
        "sums",
        "L2",
        "2000",
        "3500",
        "--holidays",
        "none",
        "--about",
        &about,
    ];
    let words = [&words[..], &["--profiles", "-", &l2]].concat();
    let outcome = run_with(&words, &fs::read(&g0).expect("the table"));
    assert_eq!((outcome.status, outcome.said.as_str()), (0, ""));
    let printed = folder.join("printed.csv");
    fs::write(&printed, &outcome.written).expect("the output is kept");
    let account = content(&about);
    for part in [
        account_of("profiles", "standard input", &g0),
        account_of("profiles", &l2, &l2),
        "\nholidays: none\n".to_owned(),
        account_of("output", "standard output", &text(&printed)),
    ] {
        assert!(account.contains(&part), "{part} is not in {account}");
    }
    assert!(account.contains(&format!("\narguments: {}\n", words.join(" "))));
}

/// The arguments stand as a shell takes them, also where a name has blanks and quotes.
#[test]
fn the_arguments_of_an_account_make_the_series_again() {
    let folder = folder("about_again").join("it's a folder; $HOME");
    fs::create_dir(&folder).expect("the folder is made");
    let (source, to) = (Source::usual(&folder), Written::to(&folder));
    let words = source.command(&["series", "G0", "2000-10", "3500", "--unit=kWh", "--wide"]);
    written(&[&words[..], &to.options()].concat());
    let made = [&to.output, &to.about, &to.carry].map(content);
    for path in [&to.output, &to.carry] {
        fs::remove_file(path).expect("it is there");
    }
    let arguments = made[1]
        .lines()
        .find_map(|line| line.strip_prefix("arguments: "));
    let arguments = arguments.expect("the arguments");
    let tool = command(&[]);
    let status = Command::new("sh")
        .args(["-c", &format!("exec \"$0\" {arguments}")])
        .arg(tool.get_program())
        .current_dir(tool.get_current_dir().expect("the repository"))
        .status();
    assert!(status.expect("a shell").success());
    assert_eq!([&to.output, &to.about, &to.carry].map(content), made);
}

/// A run in which the only programs that are found are those in a folder.
fn run_with_programs(words: &[&str], programs: &Path) -> Outcome {
    let output = command(words)
        .env("PATH", programs)
        .stdin(Stdio::null())
        .output()
        .expect("the tool runs");
    Outcome {
        status: output.status.code().expect("the tool ends by itself"),
        written: output.stdout,
        said: String::from_utf8(output.stderr).expect("messages are text"),
    }
}

/// A folder with a program of this name and text.
fn program(folder: &Path, name: &str, script: &str) -> PathBuf {
    use std::os::unix::fs::PermissionsExt;
    let programs = folder.join(name);
    fs::create_dir(&programs).expect("the folder is made");
    let path = file(&programs, "sha256sum", script);
    let mode = fs::Permissions::from_mode(0o755);
    fs::set_permissions(path, mode).expect("it may be run");
    programs
}

#[test]
fn without_sha256sum_nothing_is_written() {
    let folder = folder("about_missing");
    let (source, to) = (Source::usual(&folder), Written::to(&folder));
    let words = source.command(&["series", "G0", "2000", "3500"]);
    let words = [&words[..], &to.options()].concat();
    let nothing = folder.join("nothing");
    fs::create_dir(&nothing).expect("the folder is made");
    let sum = "0".repeat(64);
    for programs in [
        nothing,
        program(&folder, "fails", "#!/bin/sh\nexit 1\n"),
        program(
            &folder,
            "fails_late",
            &format!("#!/bin/sh\necho {sum}\nexit 1\n"),
        ),
        program(
            &folder,
            "says_little",
            "#!/bin/sh\nwhile read -r line; do :; done; echo 0\n",
        ),
    ] {
        let outcome = run_with_programs(&words, &programs);
        expect_stopped(&outcome, 3, &["sha256sum, which --about needs, failed: "]);
        for path in [&to.output, &to.about, &to.carry] {
            assert!(!Path::new(path).exists(), "{path}");
        }
    }
}

#[test]
fn without_sha256sum_old_files_stay_as_they_were() {
    let folder = folder("about_stays");
    let (source, to) = (Source::usual(&folder), Written::to(&folder));
    let words = source.command(&["series", "G0", "2000", "3500"]);
    for path in [&to.output, &to.about, &to.carry] {
        fs::write(path, "old").expect("an old file");
    }
    let programs = program(&folder, "fails", "#!/bin/sh\nexit 1\n");
    let outcome = run_with_programs(&[&words[..], &to.options()].concat(), &programs);
    expect_stopped(&outcome, 3, &["sha256sum"]);
    for path in [&to.output, &to.about, &to.carry] {
        assert_eq!(content(path), "old");
    }
    // Without --about it is not needed.
    let outcome = run_with_programs(&[&words[..], &["-o", &to.output]].concat(), &programs);
    assert_eq!((outcome.status, outcome.said.as_str()), (0, ""));
    expect_text(
        &content(&to.output),
        &source.run(1, 20_000_101, 20_001_231).csv(),
        "output",
    );
}

/// The last carry may go to standard output where the series goes to a file.
#[test]
fn the_last_carry_is_written_alone() {
    let folder = folder("about_carry");
    let source = Source::usual(&folder);
    let output = text(&folder.join("series.csv"));
    let (_, made) = source.run(0, 20_000_101, 20_000_131).figures();
    for subcommand in ["series", "sums"] {
        let words = source.command(&[subcommand, "H0", "2000-01", "3500", "-o", &output]);
        let carry = written(&[&words[..], &["--carry-out", "-"]].concat());
        assert_eq!(carry, format!("{}\n", made.carry));
    }
}
