//! Help, and the words and options of a command line: their order, and what is not understood.
use crate::made::{FILE, TABLE};
use crate::tool::{says, stopped, written};

/// The subcommands that the first help has, and those for binary files.
const USUAL: [&str; 10] = [
    "series",
    "sums",
    "deliveries",
    "days",
    "page",
    "explain",
    "day",
    "holidays",
    "check",
    "compare",
];
const BINARY: [&str; 3] = ["pack", "unpack", "request"];

fn all() -> impl Iterator<Item = &'static str> {
    USUAL.into_iter().chain(BINARY)
}

/// The words of a line that has none with a space in it.
fn words(line: &str) -> Vec<&str> {
    line.split(' ').collect()
}

fn lists(help: &str, subcommand: &str) -> bool {
    let is_its_line = |line: &str| line.starts_with(&format!("  {subcommand} "));
    help.lines().any(is_its_line)
}

#[test]
fn the_first_help_has_all_subcommands_but_those_for_binary_files() {
    let help = written(&[]);
    assert!(USUAL.into_iter().all(|name| lists(&help, name)), "{help}");
    assert!(!BINARY.into_iter().any(|name| lists(&help, name)), "{help}");
    assert!(help.contains("Exit status: 0 done, 1 refused or not accepted, 2 not understood, 3 could not read or write."));
    for option in ["--help", "-h", "help"] {
        assert_eq!(written(&[option]), help, "{option}");
    }
}

#[test]
fn the_whole_help_has_the_others_behind_it() {
    let whole = written(&["--help", "all"]);
    let more = whole.strip_prefix(&written(&[])).expect("the first help");
    assert!(BINARY.into_iter().all(|name| lists(more, name)), "{more}");
}

#[test]
fn each_subcommand_has_its_help() {
    for name in all() {
        let help = written(&[name, "--help"]);
        assert!(help.starts_with(&format!("dusterteal {name} ")), "{help}");
        for line in [
            format!("--help {name}"),
            format!("help {name}"),
            format!("{name} -h"),
            format!("{name} G0 --nonsense --help"),
        ] {
            assert_eq!(written(&words(&line)), help, "{line}");
        }
    }
}

/// The help of `series` names each word and option that the tests below use.
#[test]
fn the_help_of_series_names_its_words_and_options() {
    let help = written(&["--help", "series"]);
    for name in [
        "GROUP",
        "PERIOD",
        "KWH",
        "--profiles",
        "--holidays",
        "--since",
        "--carry",
        "--carry-out",
        "--unit",
        "--decimal",
        "--wide",
        "--about",
        "-o",
    ] {
        assert!(lists(&help, name), "{name}: {help}");
    }
}

/// The offsets of October's two hours, as the help says them.
#[test]
fn the_help_of_series_tells_octobers_hours_apart() {
    let help = written(&["series", "--help"]);
    assert!(
        help.contains("the first has +02:00, the second +01:00"),
        "{help}"
    );
}

#[test]
fn the_version_is_that_of_the_package() {
    let version = format!("dusterteal {}\n", env!("CARGO_PKG_VERSION"));
    for option in ["--version", "-V"] {
        assert_eq!(written(&[option]), version);
    }
}

const SUBCOMMANDS: &str =
    "they are series, sums, deliveries, days, page, explain, day, holidays, check, compare, pack, unpack, request";

#[test]
fn what_is_no_subcommand_is_named() {
    for (line, what) in [
        (
            "serie G0",
            format!("\"serie\" is no subcommand: {SUBCOMMANDS}"),
        ),
        (
            "Series",
            format!("\"Series\" is no subcommand: {SUBCOMMANDS}"),
        ),
        (
            "--wide",
            format!("\"--wide\" is no subcommand: {SUBCOMMANDS}"),
        ),
        (
            "--help serie",
            format!("\"serie\" is no subcommand: {SUBCOMMANDS}"),
        ),
        (
            "--help series sums",
            "\"sums\" is one argument too many".into(),
        ),
        ("--version 2", "\"2\" is one argument too many".into()),
    ] {
        says(
            &words(line),
            2,
            &format!("{what}\nSee `dusterteal --help`."),
        );
    }
}

/// The tool does not understand the line and says this of it.
fn expect_not_understood(line: &str, what: &str) {
    let words = words(line);
    let message = format!("{0}: {what}\nSee `dusterteal {0} --help`.", words[0]);
    says(&words, 2, &message);
}

#[test]
fn what_is_no_option_is_named_with_those_that_are() {
    for (line, option, options) in [
        (
            "series G0 2000 1000 --hollidays none",
            "--hollidays",
            "its options are --profiles, --holidays, --since, --carry, --carry-out, --unit, --decimal, --wide, --about, -o",
        ),
        ("days G0 2000 1000 --carry 1", "--carry", "its options are --profiles, --holidays, -o"),
        (
            "page G0 2000 1000 --unit kWh",
            "--unit",
            "its options are --profiles, --holidays, --since, --carry, --carry-out, -o",
        ),
        ("day 2000 --wide", "--wide", "its options are --holidays, -o"),
        (
            "holidays 2000 --holidays none",
            "--holidays",
            "its options are --regional, --state, -o",
        ),
        ("pack -x", "-x", "its options are -o"),
        ("check a.csv -o b", "-o", "it has none"),
        (
            "compare a.csv b.csv --group=G0",
            "--group",
            "its options are --decimal, -o",
        ),
    ] {
        expect_not_understood(line, &format!("\"{option}\" is no option: {options}"));
    }
}

#[test]
fn missing_and_surplus_arguments_are_named() {
    for (line, what) in [
        ("series", "GROUP is missing"),
        ("series G0", "PERIOD is missing"),
        ("series G0 2000", "KWH is missing"),
        ("sums G0 2000 --holidays none", "KWH is missing"),
        ("days G0 2000", "KWH is missing"),
        ("page G0 2000", "KWH is missing"),
        ("explain G0 2000-01-01", "TIME is missing"),
        ("explain G0 2000-01-01 00:15", "KWH is missing"),
        ("day", "PERIOD is missing"),
        ("holidays --state Bayern", "PERIOD is missing"),
        ("check", "FILE is missing"),
        ("compare", "FILE or OLD is missing"),
        ("compare a.csv", "GROUP or NEW is missing"),
        ("compare a.csv G0", "the second GROUP is missing"),
        ("pack", "TABLE.csv is missing"),
        ("unpack a.slp", "GROUP is missing"),
        ("request G0 2000", "KWH is missing"),
        (
            "series G0 2000-03-25 2000-03-26 1000",
            "it takes GROUP PERIOD KWH, and 4 words are given: \"G0\" \"2000-03-25\" \"2000-03-26\" \"1000\"; a period is one word, as 2026-01-15..2026-02-14, and a value with blanks stands in quotes",
        ),
        (
            "days G0 2000 1000 2000",
            "it takes GROUP PERIOD KWH, and 4 words are given: \"G0\" \"2000\" \"1000\" \"2000\"; a period is one word, as 2026-01-15..2026-02-14, and a value with blanks stands in quotes",
        ),
        (
            "explain G0 29.10.2000 02:15 +02:00 3500",
            "it takes GROUP DATE TIME KWH, and 5 words are given: \"G0\" \"29.10.2000\" \"02:15\" \"+02:00\" \"3500\"; time and offset are one word, as 02:15+01:00",
        ),
        (
            "day 2000 2001",
            "it takes PERIOD, and 2 words are given: \"2000\" \"2001\"; a period is one word, as 2026-01-15..2026-02-14, and a value with blanks stands in quotes",
        ),
        (
            "holidays 2000 Bayern",
            "it takes PERIOD, and 2 words are given: \"2000\" \"Bayern\"; a period is one word, as 2026-01-15..2026-02-14, and a value with blanks stands in quotes",
        ),
        (
            "unpack a.slp G0 b.csv",
            "it takes FILE.slp GROUP, and 3 words are given: \"a.slp\" \"G0\" \"b.csv\"",
        ),
    ] {
        expect_not_understood(line, what);
    }
}

#[test]
fn options_that_are_given_twice_or_without_a_value_are_named() {
    for (options, what) in [
        (
            "--holidays none --holidays none",
            "--holidays is given twice",
        ),
        ("-o a --output b", "-o is given twice"),
        ("--wide --wide", "--wide is given twice"),
        ("--wide=1", "--wide takes no value"),
        ("--holidays", "--holidays needs a value"),
        ("--profiles", "--profiles needs a value"),
        ("--profiles --wide", "--profiles needs a value"),
        ("-o", "-o needs a value"),
        ("--unit Joule", "--unit: \"Joule\" is none of Wh, kWh, kW"),
        (
            "--decimal=,",
            "--decimal: \",\" is neither \"comma\" nor \"point\"",
        ),
        (
            "--decimal dot",
            "--decimal: \"dot\" is neither \"comma\" nor \"point\"",
        ),
    ] {
        expect_not_understood(&format!("series G0 2000 1000 {options}"), what);
    }
}

#[test]
fn profiles_and_holidays_must_be_named() {
    let profiles = "--profiles is missing: name a profile file or CSV tables";
    let holidays = "--holidays is missing: it takes german, german:NAME,.. with regional days, a file with one date a line, or none";
    for name in ["series", "sums", "days", "page", "request"] {
        let line = |options: &str| format!("{name} G0 2000 1000{options}");
        expect_not_understood(&line(""), profiles);
        expect_not_understood(&line(" --holidays none"), profiles);
        expect_not_understood(&line(&format!(" --profiles {TABLE}")), holidays);
    }
    expect_not_understood("explain G0 2000-01-01 00:15 1000", profiles);
}

#[test]
fn standard_input_is_read_once() {
    for line in [
        "series G0 2000 1000 --profiles - --holidays -",
        "sums G0 2000 1000 --profiles - - --holidays none",
        "request G0 2000 1000 --profiles=- --holidays=-",
        "explain G0 2000-01-01 00:15 1000 --holidays - --profiles -",
        "compare - -",
        "pack - -",
    ] {
        expect_not_understood(line, "standard input can be read only once");
    }
}

/// One request in many words.
#[test]
fn words_and_options_stand_in_any_order() {
    let usual = written(&words(&format!(
        "series G0 2000-03-26 1000 --profiles {TABLE} --holidays none --unit kWh --decimal point"
    )));
    assert_eq!(usual.lines().count(), 93);
    for line in [
        format!("series --holidays none --unit kWh --decimal point --profiles {TABLE} -- G0 2000-03-26 1000"),
        format!("series --profiles {TABLE} G0 2000-03-26 1000 --decimal=point --unit=kWh --holidays=none"),
        format!("series g0 --unit kwh 26.03.2000 --profiles={TABLE} 1000 --decimal point --holidays none"),
        format!("series --holidays=none G0 --decimal=point 26.3.2000 --unit=KWH 01000 --profiles {TABLE}"),
        format!("series G0 --profiles {FILE} 2000-03-26 1000 --holidays none --unit=kWh --decimal=point -o -"),
    ] {
        assert_eq!(written(&words(&line)), usual, "{line}");
    }
}

#[test]
fn texts_that_are_no_group_are_named() {
    let groups = "the groups are H0, G0, G1, G2, G3, G4, G5, G6, L0, L1, L2";
    for group in ["G7", "0", "H0,G0", "Haushalt", ""] {
        let what = format!("{group:?} is no group: {groups}");
        for line in [
            &["series", group, "2000", "1000"][..],
            &["explain", group, "2000-01-01", "00:15", "1000"],
            &["check", TABLE, group],
            &["compare", FILE, "G0", group],
            &["unpack", FILE, group],
        ] {
            stopped(line, 2, &[&format!("dusterteal: {}: {what}\n", line[0])]);
        }
    }
}

/// The first wrong word is the one that is named, and a profile of 2025 is told from a slip.
#[test]
fn the_first_wrong_word_is_named() {
    stopped(
        &["series", "4711", "G0", "2000"],
        2,
        &["series: \"4711\" is no group"],
    );
    let later = "L2; the profiles of 2025 have tables by month, which do not fit yet\n";
    stopped(
        &["series", "H25", "2000", "4711"],
        2,
        &["series: \"H25\" is no group", later],
    );
}

#[test]
fn texts_that_are_no_period_are_named() {
    let forms = "2026, 2026-Q2, 2026-03, 2026-03-26, 26.03.2026 or 2026-01-15..2026-02-14, with two points between";
    for period in [
        "26",
        "2000-Q5",
        "2000-3",
        "20000326",
        "2000-03-26..",
        "2000-2001",
        "März",
        "",
    ] {
        let what = format!("{period:?} is no period: {forms}");
        for line in [
            &["series", "G0", period, "1000"][..],
            &["request", "G0", period, "1000"],
            &["day", period],
            &["holidays", period],
        ] {
            stopped(line, 2, &[&format!("dusterteal: {}: {what}\n", line[0])]);
        }
    }
}

#[test]
fn texts_that_are_no_date_are_named() {
    let forms = "write it as 2026-03-26 or 26.03.2026";
    for date in ["2000", "2000-3-26", "26.03.00", "26.03.", "20000326", ""] {
        let what = format!("{date:?} is no date: {forms}");
        let explain = ["explain", "G0", date, "00:15", "1000"];
        stopped(&explain, 2, &[&format!("explain: DATE: {what}\n")]);
        let series = ["series", "G0", "2000", "1000", "--since", date];
        stopped(&series, 2, &[&format!("series: --since: {what}\n")]);
    }
}

#[test]
fn texts_that_are_no_number_are_named() {
    for number in [
        "3.500", "3,500", "3 500", "-1", "+1", "1e3", "3500kWh", "x", "",
    ] {
        let what = |range| format!("{number:?} is no whole number, {range}, without separators");
        let (kwh, carry) = (what("0 to 1000000000"), what("0 to 39999"));
        let series = ["series", "G0", "2000", number];
        stopped(&series, 2, &[&format!("series: KWH: {kwh}\n")]);
        let explain = ["explain", "G0", "2000-01-01", "00:15", number];
        stopped(&explain, 2, &[&format!("explain: KWH: {kwh}\n")]);
        let sums = ["sums", "G0", "2000", "1000", "--carry", number];
        stopped(&sums, 2, &[&format!("sums: --carry: {carry}\n")]);
    }
}
