//! Parts of a series that join to the whole: by `--since`, and by a carry that is handed on.
use std::fs;
use std::path::Path;

use crate::draw::{self, Draw};
use crate::expected::{dashed, expect_text, Run, Source};
use crate::tool::{self, folder, warned, written};

const MONTHS: [&str; 12] = [
    "2000-01", "2000-02", "2000-03", "2000-04", "2000-05", "2000-06", "2000-07", "2000-08",
    "2000-09", "2000-10", "2000-11", "2000-12",
];
const QUARTERS: [&str; 4] = ["2000-Q1", "2000-Q2", "2000-Q3", "2000-Q4"];

fn series(source: &Source, group: &str, period: &str, options: &[&str]) -> String {
    let words = source.command(&["series", group, period, "3500"]);
    written(&[&words, options].concat())
}

/// The lines behind the header.
fn body(text: &str) -> &str {
    text.split_once('\n').expect("a header").1
}

/// The parts of 2000, each made by `make`, are the year's lines.
fn expect_joined(source: &Source, group: &str, parts: &[&str], make: impl Fn(&str) -> String) {
    let joined: Vec<String> = parts
        .iter()
        .map(|part| body(&make(part)).to_owned())
        .collect();
    let year = series(source, group, "2000", &[]);
    expect_text(&joined.concat(), body(&year), (group, parts));
}

#[test]
fn months_and_quarters_since_new_year_join_to_the_year() {
    let source = Source::usual(&folder("joining_since"));
    for group in ["H0", "G0"] {
        for parts in [&MONTHS[..], &QUARTERS, &["2000-01", "2000-02..2000-12"]] {
            expect_joined(&source, group, parts, |part| {
                series(&source, group, part, &["--since", "2000-01-01"])
            });
        }
    }
}

/// A part that begins with the carry in a file and leaves the last carry there.
fn handed_on(source: &Source, group: &str, part: &str, carry: &Path) -> String {
    let before = fs::read_to_string(carry).expect("the carry");
    let carry = tool::text(carry);
    let options = ["--carry", before.trim_end(), "--carry-out", &carry];
    series(source, group, part, &options)
}

#[test]
fn parts_that_hand_their_carry_on_join_to_the_year() {
    let folder = folder("joining_carry");
    let source = Source::usual(&folder);
    let pieces = pieces(&mut Draw::new(1));
    let pieces: Vec<&str> = pieces.iter().map(String::as_str).collect();
    let carry = folder.join("carry.txt");
    for (code, group) in [(0, "H0"), (1, "G0")] {
        let (_, made) = source.run(code, 20_000_101, 20_001_231).figures();
        for parts in [&MONTHS[..], &QUARTERS, &pieces] {
            fs::write(&carry, "0\n").expect("the carry is written");
            expect_joined(&source, group, parts, |part| {
                handed_on(&source, group, part, &carry)
            });
            let last = fs::read_to_string(&carry).expect("the carry");
            assert_eq!(last, format!("{}\n", made.carry));
        }
    }
}

/// The year 2000 in random pieces, many of them a few days long.
fn pieces(draw: &mut Draw) -> Vec<String> {
    let [mut first, end] = [20_000_101, 20_001_231].map(|date| draw::index_of(date).unwrap());
    let mut pieces = Vec::new();
    while first <= end {
        let length = draw.pick(&[1, 1, 2, 7, 30, 60]);
        let last = end.min(first + length - 1);
        let dates = [first, last].map(|index| dashed(draw::date_at(index)));
        pieces.push(dates.join(".."));
        first = last + 1;
    }
    pieces
}

/// Also where the days before are more than a call may have, 1,461.
#[test]
fn a_run_since_years_ago_hands_its_carry_on_to_the_period() {
    let source = Source::usual(&folder("joining_years"));
    for (group, name) in [(0, "H0"), (1, "G0")] {
        for (since, carry) in [(20_051_231, 0), (20_030_630, 39_999), (19_960_101, 5)] {
            let run = Run {
                since: Some(since),
                carry,
                ..source.run(group, 20_100_701, 20_100_930)
            };
            let (since, carry) = (dashed(since), carry.to_string());
            let words = source.command(&["series", name, "2010-Q3", "3500"]);
            let options = ["--since", &since, "--carry", &carry];
            let text = warned(
                &[&words[..], &options].concat(),
                &["lists no date of", "2010"],
            );
            expect_text(&text, &run.csv(), run);
        }
    }
}

#[test]
fn without_a_beginning_or_a_carry_a_part_begins_anew() {
    let source = Source::usual(&folder("joining_anew"));
    for (code, group) in [(0, "H0"), (1, "G0")] {
        let alone = series(&source, group, "2000-Q2", &[]);
        let run = source.run(code, 20_000_401, 20_000_630);
        expect_text(&alone, &run.csv(), group);
        assert_eq!(series(&source, group, "2000-Q2", &["--carry", "0"]), alone);
        let since = series(&source, group, "2000-Q2", &["--since", "2000-01-01"]);
        let pairs = alone.lines().zip(since.lines());
        assert!(pairs.filter(|(alone, since)| alone != since).count() > 0);
    }
}
