//! The commands and files of `examples`: the README's first command, run whole, what sets it up, and files that the tool and the
//! library make of each other.
mod repository;
#[allow(dead_code)] // the tests of the tool use the rest
#[path = "dusterteal/tool.rs"]
mod tool;

use std::fs;
use std::os::unix::fs::PermissionsExt;
use std::path::Path;
use std::process::{Command, Output};

use tool::{folder, text, written};

fn stored(name: &str) -> Vec<u8> {
    fs::read(repository::path(name)).unwrap()
}

fn stored_text(name: &str) -> String {
    String::from_utf8(stored(name)).unwrap()
}

/// Runs a command of `examples` that has to succeed.
fn run(name: &str) -> Output {
    let output = Command::new(repository::path("examples").join(name))
        .output()
        .expect("it runs");
    assert!(
        output.status.success(),
        "{}",
        String::from_utf8_lossy(&output.stderr)
    );
    output
}

#[test]
fn the_listing_is_made_from_readable_input() {
    let output = run("listing");
    assert!(stored("target/listing/request") == stored("crates/slp/stdin"));
    assert_eq!(output.stdout, stored("crates/slp/stdout"));
}

#[test]
fn the_exercise_shows_92_figures_and_how_far_their_sum_is_off() {
    let text = String::from_utf8(run("exercise").stdout).unwrap();
    let profiles: Vec<&str> = text.split("\n\n").collect();
    let [title, made_up, flat] = profiles[..] else {
        panic!("{text}");
    };
    assert!(
        title.contains("26 March 2000") && title.contains("92 quarter hours"),
        "{title}"
    );
    for (profile, name, sum) in [(made_up, "made_up", 2108), (flat, "constant", 2302)] {
        assert_eq!(figures(profile), figures_of_series(name), "{name}");
        assert_eq!(
            figures(profile).iter().map(|(_, wh)| wh).sum::<u32>(),
            sum,
            "{name}"
        );
        assert!(profile.contains("92 figures"), "{profile}");
        assert!(
            profile.contains(&format!("Their sum is {sum} Wh.")),
            "{profile}"
        );
        assert!(profile.contains("less than 1 Wh."), "{profile}");
    }
    assert!(
        made_up.contains("exact energy is 2108.500 Wh: 0.500 Wh off"),
        "{made_up}"
    );
    assert!(made_up.contains("a wrong hour shows"), "{made_up}");
    assert!(
        flat.contains("exact energy is 2302.300 Wh: 0.300 Wh off"),
        "{flat}"
    );
    assert!(
        flat.contains("a wrong hour dropped would not show"),
        "{flat}"
    );
}

/// The labels and figures that the exercise prints: lines of four times, each with its figure behind it.
fn figures(profile: &str) -> Vec<(String, u32)> {
    let lines = profile
        .lines()
        .map(|line| line.split_whitespace().collect::<Vec<_>>());
    let of_figures = lines.filter(|words| words.len() == 8 && words[0].contains(':'));
    let pairs = of_figures.flat_map(|words| {
        words
            .chunks(2)
            .map(|pair| [pair[0], pair[1]])
            .collect::<Vec<_>>()
    });
    pairs
        .map(|[time, figure]| (time.to_owned(), figure.parse().unwrap()))
        .collect()
}

/// The same of the series that it leaves in `target`.
fn figures_of_series(name: &str) -> Vec<(String, u32)> {
    let text = stored_text(&format!("target/exercise/{name}.csv"));
    let fields = |line: &str| line.split(';').map(str::to_owned).collect::<Vec<_>>();
    let figures: Vec<_> = text
        .lines()
        .skip(1)
        .map(fields)
        .map(|f| (f[1].clone(), f[3].parse().unwrap()))
        .collect();
    assert_eq!(figures.len(), 92);
    figures
}

// What sets the examples up, tried in a repository of its own with an `rt` and a `cargo` that only note that they were called.

struct Repository {
    root: std::path::PathBuf,
}

/// What `rt` makes in a crate's folder.
const BUILDS: &str = "mkdir -p out; touch out/slp out/libexports.a";

impl Repository {
    fn new(name: &str) -> Repository {
        let root = folder(name);
        for folder in [
            "examples",
            "tools",
            "crates/slp",
            "crates/exports",
            "commands",
        ] {
            fs::create_dir_all(root.join(folder)).unwrap();
        }
        fs::write(root.join("crates.txt"), "").unwrap();
        for script in ["examples/set_up", "tools/build"] {
            fs::copy(repository::path(script), root.join(script)).unwrap();
        }
        let repository = Repository { root };
        repository.command("rt", BUILDS);
        repository.command(
            "cargo",
            "mkdir -p rust/target/release; touch rust/target/release/dusterteal",
        );
        repository
    }

    fn command(&self, name: &str, does: &str) {
        let path = self.root.join("commands").join(name);
        fs::write(
            &path,
            format!(
                "#!/bin/sh\necho {name} \"$1\" >>'{}/calls'\n{does}\n",
                self.root.display()
            ),
        )
        .unwrap();
        fs::set_permissions(&path, fs::Permissions::from_mode(0o755)).unwrap();
    }

    fn set_up(&self) -> Output {
        self.set_up_by("/usr/bin:/bin")
    }

    /// Sets up with its own commands and those of other folders.
    fn set_up_by(&self, folders: &str) -> Output {
        let search = format!("{}:{folders}", self.root.join("commands").display());
        let mut command = Command::new("/bin/bash");
        command.arg(self.root.join("examples/set_up"));
        command.env("PATH", search).output().expect("it runs")
    }

    /// Which commands were called, and what was said.
    fn calls(&self) -> (String, String) {
        let _ = fs::remove_file(self.root.join("calls"));
        let output = self.set_up();
        assert!(output.status.success(), "{output:?}");
        let calls = fs::read_to_string(self.root.join("calls")).unwrap();
        (calls, String::from_utf8(output.stderr).unwrap())
    }

    /// Makes everything in the crates' folder newer than what was built.
    fn change_a_crate(&self) {
        std::thread::sleep(std::time::Duration::from_millis(20));
        fs::write(self.root.join("crates/changed"), "").unwrap();
    }
}

#[test]
fn setting_up_says_how_long_it_takes_and_is_done_once() {
    let repository = Repository::new("set_up_once");
    let (calls, said) = repository.calls();
    assert_eq!(calls, "rt run\nrt lib\ncargo build\n");
    assert!(
        said.contains("about ten minutes") && said.contains("some seconds, once"),
        "{said}"
    );
    assert_eq!(repository.calls(), ("cargo build\n".into(), String::new()));
    repository.change_a_crate();
    let (calls, said) = repository.calls();
    assert_eq!(calls, "rt run\nrt lib\ncargo build\n");
    assert!(said.contains("about ten minutes"), "{said}");
}

#[test]
fn a_crate_that_changes_meanwhile_is_taken_for_new() {
    let repository = Repository::new("set_up_meanwhile");
    let changed = repository.root.join("crates/changed");
    let changed = changed.display();
    repository.command("rt", &format!("sleep 0.02; touch '{changed}'; {BUILDS}"));
    let (calls, _) = repository.calls();
    assert_eq!(repository.calls().0, calls);
    assert!(calls.starts_with("rt run\n"), "{calls}");
}

#[test]
fn what_building_needs_is_looked_for_before_the_proof() {
    for (missing, kept) in [("cargo", "cc"), ("cc", "cargo")] {
        let repository = Repository::new(&format!("set_up_without_{missing}"));
        repository.command(kept, "");
        let _ = fs::remove_file(repository.root.join("commands").join(missing));
        for name in ["dirname", "mktemp", "rm", "mkdir", "flock", "find"] {
            let link = repository.root.join("commands").join(name);
            std::os::unix::fs::symlink(Path::new("/usr/bin").join(name), link).unwrap();
        }
        let output = repository.set_up_by("");
        let said = String::from_utf8(output.stderr).unwrap();
        assert_eq!(output.status.code(), Some(1), "{said}");
        assert_eq!(
            said,
            format!("set_up: {missing} is not found: README.md says what building needs\n")
        );
        assert!(!repository.root.join("calls").exists());
    }
}

#[test]
fn a_step_that_fails_is_shown() {
    for (name, called, failing) in [
        ("rt", "tools/build", "set_up_rt"),
        ("cargo", "cargo build --release", "set_up_cargo"),
    ] {
        let repository = Repository::new(failing);
        repository.command(name, "echo something is wrong\nexit 1");
        let output = repository.set_up();
        let said = String::from_utf8(output.stderr).unwrap();
        assert!(!output.status.success(), "{said}");
        assert!(
            said.contains(&format!(
                "something is wrong\nset_up: this failed: {called}"
            )),
            "{said}"
        );
        assert_eq!(output.stdout, b"");
    }
}

#[test]
fn a_missing_kit_is_said() {
    let repository = Repository::new("set_up_without");
    fs::remove_file(repository.root.join("commands/rt")).unwrap();
    let output = repository.set_up();
    let said = String::from_utf8(output.stderr).unwrap();
    assert!(!output.status.success());
    assert_eq!(
        said,
        "set_up: the Rattle kit (rt) is not found: README.md says where it comes from\n"
    );
}

// The README.

/// The README's commands for the tool that can be pasted as they stand: all but those for a table of the reader's own, `G0.csv`; and
/// the one that changes a list.
fn pasted() -> Vec<String> {
    let readme = stored_text("README.md");
    let commands = readme
        .lines()
        .filter_map(|line| line.strip_prefix("    "))
        .filter(|line| line.starts_with("dusterteal ") || line.starts_with("sed "));
    let whole = commands.filter(|line| !line.contains(" G0.csv"));
    whole.map(str::to_owned).collect()
}

/// What a command of the README writes that is pasted in the repository's folder. Only the regional days of a state are warned of.
fn paste(command: &str) -> String {
    let tool = Path::new(env!("CARGO_BIN_EXE_dusterteal"));
    let path = format!(
        "{}:{}",
        tool.parent().expect("a folder").display(),
        std::env::var("PATH").unwrap()
    );
    let output = Command::new("sh")
        .args(["-c", command])
        .current_dir(repository::path(""))
        .env("PATH", path)
        .output()
        .expect("it runs");
    let said = String::from_utf8_lossy(&output.stderr);
    assert!(output.status.success(), "{command}: {said}");
    assert_eq!(said.is_empty(), !command.contains(" --state "), "{said}");
    String::from_utf8(output.stdout).expect("text")
}

#[test]
fn the_commands_of_the_readme_run() {
    let commands = pasted();
    let subcommands: Vec<&str> = commands
        .iter()
        .map(|line| line.trim_start_matches("dusterteal "))
        .filter_map(|line| line.split(' ').next())
        .collect();
    assert_eq!(
        subcommands,
        [
            "series",
            "sums",
            "deliveries",
            "days",
            "page",
            "explain",
            "day",
            "holidays",
            "check",
            "compare",
            "holidays",
            "sed",
            "day",
            "days",
            "days"
        ]
    );
    let mut agreements = 0;
    for command in &commands {
        let is_file = command.contains(" -o ") || command.starts_with("sed");
        let written = paste(command);
        assert_eq!(written.is_empty(), is_file, "{command}");
        if command.starts_with("dusterteal day ") && command.ends_with("agreement.txt") {
            agreements += 1;
            let eves = [
                "Sunday;listed: works agreement",
                "Saturday;31 December, not listed",
            ];
            assert!(eves.iter().all(|eve| written.contains(eve)), "{written}");
        }
    }
    assert_eq!(agreements, 1);
}

/// The lines of a series that the README shows are those of its first command's run.
#[test]
fn the_lines_of_the_readme_are_those_of_its_series() {
    let readme = stored_text("README.md");
    let shown: Vec<&str> = readme
        .lines()
        .filter_map(|line| line.strip_prefix("    2000-10-29;"))
        .collect();
    assert_eq!(shown.len(), 2);
    let command = pasted()
        .remove(0)
        .replace("2000-Q2", "2000-10-29")
        .replace("target/series.csv", "-");
    let series = paste(&command);
    for line in shown {
        assert!(series.contains(&format!("\n2000-10-29;{line}\n")), "{line}");
    }
}

/// A column of CSV without its header.
fn column(csv: &str, index: usize) -> Vec<&str> {
    let lines = csv.lines().skip(1);
    lines
        .map(|line| line.split(';').nth(index).expect(line))
        .collect()
}

/// The lines of deliveries that the README shows are the first of its command's. Each month has the metered kWh of its reading, and is
/// balanced by its energy in `sums`.
#[test]
fn the_deliveries_of_the_readme_are_those_of_its_readings() {
    let commands = pasted();
    let of = |name: &str| {
        commands
            .iter()
            .find(|line| line.contains(name))
            .expect(name)
    };
    let deliveries = paste(of(" deliveries "));
    let first = deliveries.split_inclusive('\n').take(3);
    let shown: String = first.map(|line| format!("    {line}")).collect();
    assert!(stored_text("README.md").contains(&format!("\n{shown}\n")));

    let sums = paste(&of(" sums ").replace(" --unit kWh", ""));
    assert_eq!(column(&deliveries, 2), column(&sums, 3));
    let readings = stored_text("examples/readings_2000.csv");
    let readings = readings.split_once("date;kWh\n").expect("a header").1;
    let metered: Vec<String> = readings
        .lines()
        .map(|line| format!("{}000", &line[11..]))
        .collect();
    assert_eq!(column(&deliveries, 1)[..12], metered);
}

/// The page that the README shows is what its command writes.
#[test]
fn the_page_of_the_readme_is_that_of_its_command() {
    let commands = pasted();
    let command = commands.iter().find(|line| line.contains(" page "));
    let page = paste(command.expect("a command for a page"));
    let shown: String = page.lines().map(|line| format!("    {line}\n")).collect();
    assert!(
        stored_text("README.md").contains(&format!("\n{shown}\n")),
        "{shown}"
    );
}

// The files.

#[test]
fn the_made_up_values_are_those_of_the_formula() {
    let mut values = [0; slp::GROUP_VALUES];
    slp::read(&stored("examples/made_up.slp"), slp::Group::G0, &mut values).unwrap();
    let mut wanted = Vec::new();
    for c in 0..9 {
        let (s, d) = ([2, 0, 1][c / 3], c % 3);
        wanted.extend(
            (0..96).map(|r: usize| {
                630 + 20 * r.min(95 - r) + 100 * s - 150 * d + (7 * r + 11 * c) % 10
            }),
        );
    }
    assert!(values.into_iter().map(usize::from).eq(wanted));
}

#[test]
fn packing_the_table_makes_the_profile_file() {
    let out = text(&folder("packed").join("made_up.slp"));
    assert_eq!(written(&["pack", "examples/made_up.csv", "-o", &out]), "");
    assert!(fs::read(Path::new(&out)).unwrap() == stored("examples/made_up.slp"));
}

#[test]
fn unpacking_the_profile_file_makes_the_table() {
    let table = stored_text("examples/made_up.csv");
    let remarks_left_out: String = table
        .split_inclusive('\n')
        .filter(|line| !line.starts_with('#'))
        .collect();
    assert_eq!(
        written(&["unpack", "examples/made_up.slp", "G0"]),
        remarks_left_out
    );
}

#[test]
fn the_years_listing_and_request_are_made_anew() {
    let year = [
        "G0",
        "2000",
        "3500",
        "--profiles",
        "examples/made_up.slp",
        "--holidays",
        "examples/holidays_2000.txt",
    ];
    let listing = written(&[&["days"], &year[..]].concat());
    assert!(listing == stored_text("examples/year_2000.txt"));
    let outcome = tool::run(&[&["request"], &year[..]].concat());
    assert!(outcome.written == stored("examples/year_2000.request"));
}

/// The listing of a request of `examples/christmas_eve`, as stored, as the tool and the program make it anew, and as the independent
/// implementation has it.
fn december_1999(list: &str) -> String {
    let holidays = format!("examples/christmas_eve/{list}.txt");
    let arguments = [
        "G0",
        "1999-12-23..1999-12-31",
        "40000",
        "--profiles",
        "examples/made_up.csv",
        "--holidays",
        &holidays,
    ];
    let listing = stored_text(&format!("examples/christmas_eve/{list}.listing"));
    assert_eq!(written(&[&["days"], &arguments[..]].concat()), listing);
    let request = format!("examples/christmas_eve/{list}.request");
    let made = tool::run(&[&["request"], &arguments[..]].concat());
    assert!(made.written == stored(&request), "{list}");
    let program = Command::new(repository::path("target/bin/slp"))
        .stdin(fs::File::open(repository::path(&request)).unwrap())
        .output()
        .expect("target/bin/slp runs: `tools/build` builds it");
    assert_eq!(String::from_utf8(program.stdout).unwrap(), listing);
    assert_eq!(reference::program::text(&made.written), listing);
    listing
}

/// 24 and 31 December 1999 are Fridays: a works agreement's 24 December makes that day a Sunday and lowers the total. No other line
/// changes: for 40,000 kWh a year the carry is always 0.
#[test]
fn a_works_agreements_christmas_eve_changes_that_day() {
    let (public, agreed) = ("public_holidays", "works_agreement");
    let [without, with] = [public, agreed].map(december_1999);
    let day_types = |listing: &str| {
        let days = listing.lines().filter(|line| line.starts_with("1999"));
        let day_types: Vec<&str> = days.map(|line| &line[8..13]).collect();
        day_types.join(", ")
    };
    assert_eq!(
        day_types(&without),
        "23 W1, 24 W2, 25 W3, 26 W3, 27 W1, 28 W1, 29 W1, 30 W1, 31 W2"
    );
    assert_eq!(
        day_types(&with),
        "23 W1, 24 W3, 25 W3, 26 W3, 27 W1, 28 W1, 29 W1, 30 W1, 31 W2"
    );
    let lines = without.lines().zip(with.lines());
    let differ: Vec<(&str, &str)> = lines.filter(|(a, b)| a != b).collect();
    let [(saturday, sunday), (_, total)] = differ[..] else {
        panic!("{differ:?}");
    };
    assert!(total.starts_with("total 9 864 "), "{total}");
    let readme = stored_text("README.md");
    assert!(readme.contains(&format!("\n    {saturday}\n    {sunday}\n")));
}
