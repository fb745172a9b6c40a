//! `page`: its bytes by the independent implementation, the largest page, a carry that is handed on, and what is refused.
use std::fs;

use reference::{Expansion, Request};

use crate::draw::Draw;
use crate::drawn::{self, on_two_threads};
use crate::expected::{borrowed, expect_text, Run, Source};
use crate::made::{packed, stored, TABLE};
use crate::tool::{self, file, folder, run, says, stopped, warned, written};

const REQUESTS: usize = 120;

/// The bytes of a line.
const LINE: usize = 38;

/// The arguments of the worked page: document 01's flat profile, two days of March 2000, 1,000 kWh.
const ARGUMENTS: [&str; 8] = [
    "page",
    "G0",
    "2000-03-25..2000-03-26",
    "1000",
    "--profiles",
    "examples/constant.csv",
    "--holidays",
    "none",
];

const MARCH: &str = "2000-03-25 T2     96             2402\n\
                     2000-03-26 T3     92             2302\n\
                     total      --    188             4704\n";

/// The worked page's arguments with more behind them.
fn march<'a>(options: &[&'a str]) -> Vec<&'a str> {
    [&ARGUMENTS, options].concat()
}

// The page.

#[test]
fn the_worked_page() {
    assert_eq!(written(&ARGUMENTS), MARCH);
    assert_eq!(written(&march(&["-o", "-"])), MARCH);
    let path = tool::text(&folder("page_worked").join("page.txt"));
    assert_eq!(written(&march(&["-o", &path])), "");
    assert_eq!(fs::read_to_string(path).expect("the page"), MARCH);
}

/// 24,000 / 40,000 Wh and the 16,000 that the first day leaves from carry 0 are 1 Wh.
#[test]
fn the_worked_page_with_a_carry() {
    let page = written(&march(&["--carry", "24000"]));
    let expected = MARCH.replace("2402", "2403").replace("4704", "4705");
    assert_eq!(page, expected);
    assert_eq!(written(&march(&["--carry", "0"])), MARCH);
}

/// What the independent implementation writes for a run, and answers.
fn page_of(run: &Run) -> (String, Expansion) {
    let request = Request {
        file: &run.source.file,
        group: run.group,
        first: run.first,
        last: run.last,
        holidays: &run.source.holidays,
        yearly: run.yearly,
        carry: run.carry_before(),
    };
    let mut page = vec![0; LINE * (run.days().count() + 1)];
    let made = reference::page(&request, &mut page).expect("the run is accepted");
    (String::from_utf8(page).expect("text"), made)
}

/// Also of runs that begin with some carry, or before their period.
#[test]
fn the_pages_of_random_runs_are_those_of_the_independent_implementation() {
    let folder = folder("page_random");
    let seeds: Vec<usize> = (0..REQUESTS).collect();
    on_two_threads(&seeds, |seed| {
        let draw = &mut Draw::new(2_000 + *seed as u64);
        let period = drawn::period(draw);
        let source = drawn::source(draw, &folder, &seed.to_string(), period.0);
        let run = drawn::handed_on(draw, &source, period);
        let carry = tool::text(&folder.join(format!("{seed}.carry")));
        let mut words = run.words("page");
        words.extend(["--carry-out".to_owned(), carry.clone()]);
        let page = warned(&borrowed(&words), &[]);
        let (expected, made) = page_of(&run);
        expect_text(&page, &expected, (seed, words));
        let last = fs::read_to_string(carry).expect("the carry");
        assert_eq!(last, format!("{}\n", made.carry));
    });
}

/// A number in a field of a line, behind spaces.
fn number(line: &str, field: std::ops::Range<usize>) -> u64 {
    let digits = line[field].trim_start_matches(' ');
    digits.parse().expect(line)
}

/// Count and Wh of a line.
fn numbers(line: &str) -> (u64, u64) {
    (number(line, 14..20), number(line, 21..37))
}

/// Four years, every value 2000.0 W, the largest use and carry. The sums of the last line are read back from the lines above it.
#[test]
fn the_largest_page() {
    let folder = folder("page_largest");
    let groups = [slp::Group::H0, slp::Group::G0];
    let profiles = &file(&folder, "largest.slp", packed(&groups, &[20_000; 864]));
    let out = &tool::text(&folder.join("page.txt"));
    for group in ["H0", "G0"] {
        let line = ["page", group, "2000..2003", "1000000000", "-o", out];
        let options = ["--profiles", profiles, "--holidays", "none"];
        let line = [&line[..], &options, &["--carry", "39999"]].concat();
        assert_eq!(warned(&line, &["for 1000 kWh a year"]), "");
        let page = fs::read_to_string(out).expect("the page");
        assert_eq!(page.len(), 55_556, "{group}");
        let lines: Vec<&str> = page.split_inclusive('\n').collect();
        assert!(lines.iter().all(|line| line.len() == LINE), "{group}");
        let (total, days) = lines.split_last().expect("lines");
        assert_eq!(days.len(), 1_461, "{group}");
        assert!(days[0].starts_with("2000-01-01 W2 "), "{}", days[0]);
        assert!(days[1_460].starts_with("2003-12-31 W2 "), "{}", days[1_460]);
        let sums = days.iter().map(|line| numbers(line));
        let sums = sums.fold((0, 0), |(a, b), (count, energy)| (a + count, b + energy));
        assert_eq!(numbers(total), sums, "{group}");
        assert_eq!(sums.0, 140_256, "{group}");
        if group == "G0" {
            assert_eq!(*total, "total      -- 140256   70128000000000\n");
        }
    }
}

/// The lines are those of `days`, but for the spaces that set the fields, where the run begins with carry 0.
#[test]
fn the_days_are_those_of_days() {
    let source = Source::usual(&folder("page_days"));
    for group in ["H0", "G0", "L2"] {
        let lines = |subcommand| written(&source.command(&[subcommand, group, "2000", "3500"]));
        let (page, days) = (lines("page"), lines("days"));
        let fields = |line: &str| line.split_whitespace().collect::<Vec<_>>().join(" ");
        let page: Vec<String> = page.lines().map(fields).collect();
        let days: Vec<&str> = days.lines().collect();
        assert_eq!(page[..366], days[..366], "{group}");
        let total: Vec<&str> = page[366].split(' ').collect();
        let expected = format!("total 366 {} {} ", total[2], total[3]);
        assert!(days[366].starts_with(&expected), "{group}: {}", days[366]);
    }
}

// A run that begins before the page.

const MONTHS: [&str; 12] = [
    "2000-01", "2000-02", "2000-03", "2000-04", "2000-05", "2000-06", "2000-07", "2000-08",
    "2000-09", "2000-10", "2000-11", "2000-12",
];

/// The lines above the last one.
fn days_of(page: &str) -> &str {
    &page[..page.len() - LINE]
}

#[test]
fn the_pages_of_months_join_to_that_of_the_year() {
    let folder = folder("page_months");
    let source = Source::usual(&folder);
    let carry = &tool::text(&folder.join("carry.txt"));
    for group in ["H0", "G0"] {
        let page = |period, options: &[&str]| {
            let words = source.command(&["page", group, period, "3501"]);
            written(&[&words, options].concat())
        };
        let year = page("2000", &[]);
        let since: Vec<String> = MONTHS
            .iter()
            .map(|month| days_of(&page(month, &["--since", "2000-01-01"])).to_owned())
            .collect();
        expect_text(&since.concat(), days_of(&year), (group, "since"));

        fs::write(carry, "0\n").expect("the carry is written");
        let handed_on: Vec<String> = MONTHS
            .iter()
            .map(|month| {
                let before = fs::read_to_string(carry).expect("the carry");
                let options = ["--carry", before.trim_end(), "--carry-out", carry];
                days_of(&page(month, &options)).to_owned()
            })
            .collect();
        expect_text(&handed_on.concat(), days_of(&year), (group, "carry"));
        let alone = page("2000-04", &[]);
        assert!(
            !year.contains(days_of(&alone)),
            "{group}: a month by itself"
        );
    }
}

/// Each day's energy, and the sum, are those of the same run's series.
#[test]
fn the_energy_is_that_of_sums() {
    let source = Source::usual(&folder("page_sums"));
    let run = ["--since", "2000-01-01", "--carry", "39999"];
    let of = |subcommand, more: &[&str]| {
        let words = source.command(&[subcommand, "H0", "2000-Q4", "3501"]);
        written(&[&words[..], &run, more].concat())
    };
    let sums = of("sums", &["--by", "day"]);
    let energies = sums.lines().skip(1).map(|line| {
        let fields: Vec<&str> = line.split(';').collect();
        (
            fields[0].to_owned(),
            fields[2].parse().unwrap(),
            fields[3].parse().unwrap(),
        )
    });
    let page = of("page", &[]);
    let lines = page.lines().map(|line| {
        let (count, energy) = numbers(line);
        (line[..10].trim_end().to_owned(), count, energy)
    });
    assert!(lines.eq(energies), "{page}\n{sums}");
}

// What is refused.

#[test]
fn a_carry_that_is_too_large_is_named_by_its_option() {
    for carry in ["40000", "4294967296"] {
        let message = format!("--carry {carry}: a carry is 0 to 39999 (question 11, place 0)");
        says(&march(&["--carry", carry]), 1, &message);
    }
    assert_eq!(written(&march(&["--carry", "39999"])).len(), MARCH.len());
}

#[test]
fn a_period_that_is_too_long_is_refused_as_in_days() {
    for subcommand in ["page", "days"] {
        let mut line = ARGUMENTS;
        line[0] = subcommand;
        line[2] = "2000..2004-01-01";
        says(
            &line,
            1,
            "PERIOD 2000..2004-01-01: 2000-01-01 to 2004-01-01 has 1462 days; a period has at most 1461 (question 8, place 0)",
        );
    }
}

/// A page has one form.
#[test]
fn what_is_no_option_is_named() {
    let known = "its options are --profiles, --holidays, --since, --carry, --carry-out, -o";
    for option in ["--unit", "--decimal", "--wide", "--by", "--about"] {
        let said = format!("page: {option:?} is no option: {known}\n");
        let see = "See `dusterteal page --help`.";
        stopped(&march(&[option, "x"]), 2, &[&said, see]);
    }
    stopped(
        &march(&["--carry", "x"]),
        2,
        &["page: --carry: \"x\" is no whole number"],
    );
}

#[test]
fn a_refused_page_leaves_the_old_files() {
    let folder = folder("page_kept");
    let page = &file(&folder, "page.txt", "old");
    let carry = &file(&folder, "carry.txt", "old");
    let outputs = ["-o", page, "--carry-out", carry];
    for (options, status) in [
        (&["--carry", "40000"][..], 1),
        (&["--since", "2000-04-01"], 1),
        (&["--carry", "1,5"], 2),
    ] {
        let outcome = run(&[&march(&outputs), options].concat());
        assert_eq!(outcome.status, status, "{}", outcome.said);
        assert_eq!(outcome.written, b"");
        for path in [page, carry] {
            assert_eq!(fs::read_to_string(path).expect("it is there"), "old");
        }
    }
    assert_eq!(written(&march(&outputs)), "");
    assert_eq!(fs::read_to_string(page).expect("the page"), MARCH);
    assert_eq!(fs::read_to_string(carry).expect("the carry"), "28000\n");
}

#[test]
fn no_file_is_read_and_written_or_written_twice() {
    let folder = folder("page_taken");
    let table = &file(&folder, "g0.csv", stored(TABLE));
    let line = [
        "page",
        "G0",
        "2000",
        "1000",
        "--profiles",
        table,
        "--holidays",
        "none",
    ];
    let taken = format!("{table} is read or written already: name another file");
    for option in ["-o", "--carry-out"] {
        says(&[&line[..], &[option, table]].concat(), 1, &taken);
    }
    let both = "standard output is read or written already: name another file";
    says(&march(&["--carry-out", "-"]), 1, both);
}
