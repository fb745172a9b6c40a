//! `days` and `request`: byte for byte what the program `slp` prints and reads.
use std::fs;
use std::process::{Command, Stdio};

use crate::draw::Draw;
use crate::drawn::{self, on_two_threads};
use crate::expected::{borrowed, Source};
use crate::repository;
use crate::tool::{folder, run, stopped, text, warned, written};

const REQUESTS: usize = 60;

/// The arguments of document 01's listing.
const LISTING: [&str; 7] = [
    "g0",
    "2000-03-25..2000-03-26",
    "1000",
    "--profiles",
    "examples/constant.csv",
    "--holidays",
    "none",
];

/// The arguments of the example year.
const YEAR: [&str; 7] = [
    "G0",
    "2000",
    "3500",
    "--profiles",
    "examples/made_up.csv",
    "--holidays",
    "examples/holidays_2000.txt",
];

fn words<'a>(subcommand: &'a str, arguments: &[&'a str]) -> Vec<&'a str> {
    [&[subcommand], arguments].concat()
}

/// The bytes of a file in the repository.
fn content(below: &str) -> Vec<u8> {
    fs::read(repository::path(below)).unwrap_or_else(|error| panic!("{below}: {error}"))
}

/// The request that the tool makes of some arguments.
fn request(arguments: &[&str]) -> Vec<u8> {
    let outcome = run(&words("request", arguments));
    assert_eq!(outcome.status, 0, "{}", outcome.said);
    outcome.written
}

/// What the program prints for a request, which it reads from a file.
fn printed(request: &str) -> String {
    let output = Command::new(repository::path("target/bin/slp"))
        .stdin(fs::File::open(request).expect("the request"))
        .stderr(Stdio::inherit())
        .output()
        .expect("target/bin/slp runs: `tools/build` builds it");
    assert!(output.status.success());
    String::from_utf8(output.stdout).expect("text")
}

#[test]
fn a_request_has_the_bytes_that_the_program_reads() {
    assert_eq!(request(&LISTING), content("crates/slp/stdin"));
    assert_eq!(request(&YEAR), content("examples/year_2000.request"));
    let mut packed = YEAR;
    packed[4] = "examples/made_up.slp";
    assert_eq!(request(&packed), content("examples/year_2000.request"));
}

#[test]
fn days_prints_document_01s_listing_and_the_example_year() {
    for (arguments, expected) in [
        (&LISTING, "crates/slp/stdout"),
        (&YEAR, "examples/year_2000.txt"),
    ] {
        let text = written(&words("days", arguments));
        assert_eq!(text.into_bytes(), content(expected), "{expected}");
    }
    assert_eq!(
        written(&words("days", &LISTING)),
        "2000-03-25 T2 96 2402\n2000-03-26 T3 92 2302\ntotal 2 188 4704 28000\n"
    );
}

#[test]
fn days_prints_what_the_program_prints_for_the_request() {
    let folder = folder("days_random");
    let seeds: Vec<usize> = (0..REQUESTS).collect();
    on_two_threads(&seeds, |seed| {
        let draw = &mut Draw::new(1_000 + *seed as u64);
        let period = drawn::period(draw);
        let source = drawn::source(draw, &folder, &seed.to_string(), period.0);
        let run = drawn::run(draw, &source, period);
        let request = text(&folder.join(format!("{seed}.request")));
        let (days, mut ask) = (run.words("days"), run.words("request"));
        ask.extend(["-o".to_owned(), request.clone()]);
        assert_eq!(warned(&borrowed(&ask), &[]), "");
        let listing = warned(&borrowed(&days), &[]);
        assert!(listing.contains("\ntotal "), "{listing}");
        assert_eq!(listing, printed(&request), "{days:?}");
    });
}

/// The program begins every period with carry 0.
#[test]
fn neither_takes_another_beginning() {
    let source = Source::usual(&folder("days_options"));
    for subcommand in ["days", "request"] {
        for option in [["--since", "2000-01-01"], ["--carry", "0"]] {
            let words = source.command(&[subcommand, "G0", "2000-Q2", "3500"]);
            let said = format!("{subcommand}: {:?} is no option", option[0]);
            let see = format!("See `dusterteal {subcommand} --help`.");
            stopped(&[&words[..], &option].concat(), 2, &[&said, &see]);
        }
    }
}
