//! `--holidays german`: the days worked out in place of a list, for every run that the tool can make.
use std::fs;
use std::path::Path;

use crate::calendar::{expected_row, without_why, HEADER};
use crate::draw;
use crate::expected::{dashed, expect_text, Source};
use crate::tool::{command, folder, run, run_with, says, stopped, text, warned, warnings, written};

/// The bits of the regional days that `german:NAME,..` names.
const CHOICES: [(&str, u8); 4] = [
    ("german", 0),
    ("german:all", 63),
    ("GERMAN:Fronleichnam,epiphany", 3),
    ("german:repentance-day", 32),
];

/// The dates of some years, by the independent implementation.
fn dates(first: u32, last: u32, choice: u8) -> Vec<u32> {
    let of_year = |year| {
        let mut list = [0; 17];
        let length = reference::holidays(year, choice, &mut list).expect("a year of the span");
        list[..length].to_vec()
    };
    (first..=last).flat_map(of_year).collect()
}

/// The regional days of `german:NAME,..` as the option `--regional` has them.
fn regional(which: &str) -> &str {
    which.split_once(':').map_or("none", |(_, names)| names)
}

/// A file with the holidays of some years, as `holidays` writes it.
fn list(folder: &Path, years: &str, which: &str) -> String {
    let path = text(&folder.join("list.txt"));
    let line = [
        "holidays",
        years,
        "--regional",
        regional(which),
        "-o",
        &path,
    ];
    assert_eq!(written(&line), "", "{years} {which}");
    path
}

/// What the tool writes for words with `--holidays` and its value behind them; the value must not matter for what it says.
fn with_holidays(words: &[&str], value: &str) -> (Vec<u8>, String) {
    let outcome = run(&[words, &["--holidays", value]].concat());
    assert_eq!(outcome.status, 0, "{words:?} {value}: {}", outcome.said);
    (outcome.written, outcome.said)
}

/// Runs of every subcommand with a list, and the years of each.
const RUNS: [(&str, &str); 12] = [
    ("series G0 2000 3500", "2000"),
    ("series H0 2008-04-30..2008-05-23 100000", "2008"),
    (
        "series L2 2007-12-30..2009-01-02 77 --wide --unit kWh",
        "2007..2009",
    ),
    (
        "series H0 2026-Q2 3500 --since 2024-11-15 --carry 39999",
        "2024..2026",
    ),
    ("sums G0 2025..2028 3500 --by day", "2025..2028"),
    ("sums H0 2026 3500 --since 2025-06-01", "2025..2026"),
    ("days G0 2096..2099 3500", "2096..2099"),
    ("days H0 1996 3500", "1996"),
    (
        "explain G0 2000-06-22 12:00 3500 --since 2000-01-01",
        "2000",
    ),
    (
        "explain H0 2008-05-01 00:15 3500 --since 2006-12-24",
        "2006..2008",
    ),
    ("request G0 2000-Q2 3500", "2000"),
    ("request L2 2007-11-22..2011-11-21 3500", "2007..2011"),
];

/// Byte for byte the same as with the list in a file, and no word more.
#[test]
fn the_days_worked_out_are_those_of_the_list() {
    let folder = folder("german_list");
    let source = Source::usual(&folder);
    for (line, years) in RUNS {
        let words: Vec<&str> = line.split(' ').collect();
        let words = [&words[..], &["--profiles", &source.profiles]].concat();
        for (which, _) in CHOICES {
            let by_list = with_holidays(&words, &list(&folder, years, which));
            assert!(!by_list.0.is_empty());
            assert!(
                with_holidays(&words, which) == by_list,
                "{line} with {which} is another than with a list"
            );
        }
        // Other days make another output, so that the lists are read.
        let [federal, all] = ["german", "german:all"].map(|which| with_holidays(&words, which));
        assert!(federal != all, "{line}");
    }
}

#[test]
fn the_calendar_is_that_of_the_list() {
    let folder = folder("german_calendar");
    for (period, years) in [
        ("2000", "2000"),
        ("2008-04-30..2008-05-02", "2008"),
        ("1996-01-01..2010-12-31", "1996..2010"),
    ] {
        for (which, _) in CHOICES {
            let by_list = written(&["day", period, "--holidays", &list(&folder, years, which)]);
            let worked_out = written(&["day", period, "--holidays", which]);
            expect_text(&worked_out, &by_list, (period, which));
        }
    }
}

/// A day is named as with a list.
#[test]
fn a_day_has_its_name() {
    let why = |date: &str, which: &str| {
        let text = written(&["day", date, "--holidays", which]);
        text.lines()
            .nth(1)
            .expect("a row")
            .split(';')
            .nth(5)
            .expect("a reason")
            .to_owned()
    };
    assert_eq!(why("2000-04-21", "german"), "listed: Good Friday");
    assert_eq!(
        why("2008-05-01", "german"),
        "listed: May Day and Ascension Day"
    );
    assert_eq!(why("2000-06-22", "german"), "Monday to Friday");
    assert_eq!(
        why("2000-06-22", "german:fronleichnam"),
        "listed: Corpus Christi"
    );
    assert_eq!(why("1999-12-24", "german:all"), "24 December, not listed");
    let source = Source::usual(&folder("german_name"));
    let words = [
        "explain",
        "G0",
        "2000-06-22",
        "12:00",
        "3500",
        "--since",
        "2000-01-01",
    ];
    let words = [&words[..], &["--profiles", &source.profiles]].concat();
    let text = written(&[&words[..], &["--holidays", "german:all"]].concat());
    assert!(text.contains("listed: Corpus Christi"), "{text}");
}

/// The calendar of the whole span, whose 1,767 dates no list of one call can hold, by the independent implementation.
#[test]
fn the_whole_span_in_one_calendar() {
    for (which, choice) in [("german", 0), ("german:all", 63)] {
        let text = written(&["day", "1996..2099", "--holidays", which]);
        let rows = text.strip_prefix(HEADER).expect("the header");
        let mut expected = String::new();
        for year in draw::span().chunk_by(|day, next| day.year == next.year) {
            let holidays = dates(year[0].year, year[0].year, choice);
            expected.extend(year.iter().map(|day| expected_row(day, &holidays)));
        }
        expect_text(&without_why(rows), &expected, which);
    }
}

/// The figures of households in 2099, and the last carry, of a run from 1996-01-01 with carry 7 and all regional days: by the
/// independent implementation, year by year with the carry handed on.
fn last_year(source: &Source) -> (Vec<u32>, u32) {
    let (mut carry, mut figures) = (7, Vec::new());
    for year in 1996..=2099 {
        figures = vec![0; 366 * 100];
        let request = reference::Request {
            file: &source.file,
            group: 0,
            first: 10_000 * year + 101,
            last: 10_000 * year + 1231,
            holidays: &dates(year, year, 63),
            yearly: 3_500,
            carry,
        };
        let made = reference::expand(&request, &mut figures).expect("the year is accepted");
        figures.truncate(made.count);
        carry = made.carry;
    }
    (figures, carry)
}

#[test]
fn a_run_through_the_whole_span() {
    let folder = folder("german_span");
    let source = Source::usual(&folder);
    let path = text(&folder.join("series.csv"));
    let words =
        "series H0 2099 3500 --since 1996-01-01 --carry 7 --holidays german:all --carry-out -";
    let words: Vec<&str> = words.split(' ').collect();
    let options = ["--profiles", &source.profiles, "-o", &path];
    let said = written(&[&words[..], &options].concat());
    let series = fs::read_to_string(&path).expect("the series");
    let figure = |line: &str| line.rsplit(';').next().and_then(|field| field.parse().ok());
    let found: Option<Vec<u32>> = series.lines().skip(1).map(figure).collect();
    let (figures, carry) = last_year(&source);
    assert!(found == Some(figures));
    assert_eq!(said, format!("{carry}\n"));
}

/// The longest period by the tool and by the program's own text.
#[test]
fn the_longest_period_has_the_days_of_five_years() {
    let source = Source::usual(&folder("german_longest"));
    let (first, last) = (20_021_231, 20_061_230);
    let holidays = dates(2002, 2006, 63);
    assert_eq!(holidays.len(), 85);
    let mut input = vec![1];
    for number in [first, last, 3_500] {
        input.extend(u32::to_be_bytes(number));
    }
    input.extend(85_u16.to_be_bytes());
    input.extend(holidays.iter().flat_map(|date| date.to_be_bytes()));
    input.extend(&source.file);
    let period = format!("{}..{}", dashed(first), dashed(last));
    let words = |subcommand| {
        let options = ["--profiles", &source.profiles, "--holidays", "german:all"];
        let outcome = run(&[&[subcommand, "G0", &period, "3500"], &options[..]].concat());
        assert_eq!((outcome.status, outcome.said.as_str()), (0, ""));
        outcome.written
    };
    assert!(words("request") == input);
    assert!(words("days") == reference::program::text(&input).as_bytes());
}

/// What is not asked of a list is not warned of: every year has its days.
#[test]
fn no_year_is_without_a_day() {
    assert_eq!(
        warnings(&["day", "1999..2004", "--holidays", "german"]),
        [""; 0]
    );
}

#[test]
fn an_account_says_how_the_list_was_worked_out() {
    let folder = folder("german_about");
    let source = Source::usual(&folder);
    let about = text(&folder.join("about.txt"));
    for (which, period, said) in [
        (
            "german",
            "2000-Q2",
            "german, 11 dates of 2000 worked out by the proved call: the days of all of Germany, and no regional ones",
        ),
        (
            "german:Allerheiligen,epiphany",
            "2007-12..2008-01",
            "german, 25 dates of 2007 to 2008 worked out by the proved call: the days of all of Germany, and Epiphany, All Saints' Day",
        ),
    ] {
        let words = ["sums", "G0", period, "3500", "--profiles", &source.profiles];
        let options = ["--holidays", which, "--about", &about];
        written(&[&words[..], &options].concat());
        let account = fs::read_to_string(&about).expect("the account");
        assert!(account.contains(&format!("\nholidays: {said}\n")), "{account}");
        assert!(account.contains(&format!(" --holidays {which} ")), "{account}");
    }
    let words = ["sums", "G0", "2008", "3500", "--profiles", &source.profiles];
    let options = [
        "--holidays",
        "german",
        "--since",
        "1999-05-01",
        "--about",
        &about,
    ];
    written(&[&words[..], &options].concat());
    let account = fs::read_to_string(&about).expect("the account");
    assert!(
        account.contains("\nholidays: german, 109 dates of 1999 to 2008 worked out"),
        "{account}"
    );
}

/// A file called `german` is named by its path.
#[test]
fn a_file_called_german_is_read_by_its_path() {
    let folder = folder("german_file");
    fs::write(folder.join("german"), "2000-06-22 of the file\n").expect("the file");
    let day = |which| {
        let mut command = command(&["day", "2000-06-22", "--holidays", which]);
        let output = command
            .current_dir(&folder)
            .output()
            .expect("the tool runs");
        String::from_utf8(output.stdout).expect("text")
    };
    assert!(day("german").contains(";Monday to Friday;"));
    assert!(day("./german").contains(";listed: of the file;"));
    let whole = text(&folder.join("german"));
    assert!(day(&whole).contains(";listed: of the file;"));
}

/// The profiles may come from standard input beside it.
#[test]
fn standard_input_is_left_for_the_profiles() {
    let source = Source::usual(&folder("german_input"));
    let words = [
        "days",
        "G0",
        "2000",
        "3500",
        "--holidays",
        "german",
        "--profiles",
    ];
    let expected = written(&[&words[..], &[&source.profiles]].concat());
    let outcome = run_with(&[&words[..], &["-"]].concat(), &source.file);
    assert_eq!((outcome.status, outcome.said.as_str()), (0, ""));
    assert!(outcome.written == expected.as_bytes());
}

/// What is outside the span, or no period, and what is said of it.
const OUTSIDE: [(&str, &str); 7] = [
    (
        "1995",
        "1995-01-01 lies outside 1996-01-01 to 2099-12-31 (question 7, place 0)",
    ),
    (
        "2100",
        "2100-01-01 lies outside 1996-01-01 to 2099-12-31 (question 7, place 0)",
    ),
    (
        "1995..1997",
        "1995-01-01 lies outside 1996-01-01 to 2099-12-31 (question 7, place 0)",
    ),
    (
        "2099..2100",
        "2100-12-31 lies outside 1996-01-01 to 2099-12-31 (question 7, place 1)",
    ),
    (
        "0000..9999",
        "0000-01-01 lies outside 1996-01-01 to 2099-12-31 (question 7, place 0)",
    ),
    (
        "2000..2001-02-29",
        "2001-02-29 does not exist: February 2001 has 28 days (question 7, place 1)",
    ),
    (
        "2005..2000",
        "2005-01-01 to 2000-12-31 ends before it begins (question 8, place 0)",
    ),
];

/// A year that has no list leads to the refusals that the user expects of its dates.
#[test]
fn dates_outside_the_span_are_refused_as_dates() {
    let source = Source::usual(&folder("german_refused"));
    let options = ["--profiles", &source.profiles, "--holidays", "german:all"];
    for (period, what) in OUTSIDE {
        let message = format!("PERIOD {period}: {what}");
        for subcommand in ["series", "sums", "days", "page", "request"] {
            let words = [subcommand, "G0", period, "3500"];
            says(&[&words[..], &options].concat(), 1, &message);
        }
        says(&["day", period, "--holidays", "german:all"], 1, &message);
    }
    let explain = ["explain", "G0", "1995-01-01", "00:15", "3500"];
    let message = format!("DATE 1995-01-01: {}", OUTSIDE[0].1);
    says(&[&explain[..], &options].concat(), 1, &message);
}

#[test]
fn a_run_that_begins_outside_the_span_is_refused() {
    let source = Source::usual(&folder("german_since"));
    let words = [
        "series",
        "G0",
        "2000",
        "3500",
        "--profiles",
        &source.profiles,
    ];
    for (since, message) in [
        (
            "1995-12-31",
            "--since: 1995-12-31 lies outside 1996-01-01 to 2099-12-31 (question 7, place 0)",
        ),
        (
            "2001-01-01",
            "--since 2001-01-01 lies after the first day that is asked for, 2000-01-01",
        ),
    ] {
        let options = ["--holidays", "german", "--since", since];
        says(&[&words[..], &options].concat(), 1, message);
    }
}

/// What names no regional day, what is wrong, and what may be meant.
const UNKNOWN: [(&str, &str, &str); 6] = [
    ("german:easter", "\"easter\" is no regional day", ""),
    ("German:", "a name is missing", ""),
    ("german:epiphany,x", "\"x\" is no regional day", ""),
    (
        "german:Bavaria",
        "\"Bavaria\" is no regional day",
        "; the list of a state is made by `dusterteal holidays YEAR --state Bayern -o FILE` and read by --holidays FILE",
    ),
    (
        "german:epiphany,Christmas-Eve",
        "\"Christmas-Eve\" is no regional day",
        OTHER_DAYS,
    ),
    (
        "german:2026-12-24",
        "\"2026-12-24\" is no regional day",
        OTHER_DAYS,
    ),
];

/// What is said to someone who wants a day that is not worked out.
pub const OTHER_DAYS: &str = "; any other day, as 24 December, is a line in a file: `dusterteal holidays YEAR -o FILE` writes a list, put the day in and say --holidays FILE";

#[test]
fn a_date_is_no_file() {
    for which in [
        "german,2026-12-24",
        "german+24.12.2026",
        "2026-12-24",
        "Heiligabend",
    ] {
        let what = format!("cannot read {which}: ");
        let hint = format!("or none{OTHER_DAYS}\n");
        stopped(&["day", "2026", "--holidays", which], 3, &[&what, &hint]);
    }
    let missing = ["day", "2026", "--holidays", "holidays.2026"];
    let outcome = run(&missing);
    assert!(
        outcome
            .said
            .ends_with("a file with one date a line, or none\n"),
        "{}",
        outcome.said
    );
}

#[test]
fn names_that_are_no_regional_days_are_not_understood() {
    let source = Source::usual(&folder("german_names"));
    let series = [
        "series",
        "G0",
        "2000",
        "3500",
        "--profiles",
        &source.profiles,
    ];
    for (which, fault, hint) in UNKNOWN {
        let names = "the regional days are epiphany (Heilige Drei Könige), ";
        let what = format!("--holidays: {fault}: {names}");
        let line = [&series[..], &["--holidays", which]].concat();
        let end = format!("or say all or none{hint}\nSee `dusterteal series --help`.");
        stopped(&line, 2, &["series: ", &what, &end]);
        let end = format!("or say all or none{hint}\nSee `dusterteal day --help`.");
        let line = ["day", "2000", "--holidays", which];
        stopped(&line, 2, &["day: ", &what, &end]);
    }
}

/// Where there is such a file, it may be meant.
#[test]
fn a_file_whose_name_begins_with_german_is_thought_of() {
    let folder = folder("german_like");
    fs::write(folder.join("german:easter"), "2000-04-23\n").expect("the file");
    let mut command = command(&["day", "2000", "--holidays", "german:easter"]);
    let output = command
        .current_dir(&folder)
        .output()
        .expect("the tool runs");
    let said = String::from_utf8(output.stderr).expect("text");
    let hint = "; or say all or none; the file of this name is ./german:easter\n";
    assert!(said.contains(hint), "{said}");
}

/// The options of `holidays` are not those of a run, which is told where to go.
#[test]
fn the_options_of_a_list_are_sent_to_it() {
    let hint = "; `dusterteal holidays` takes it and writes a list, which --holidays reads\n";
    for option in ["--state", "--regional"] {
        let line = ["series", "G0", "2000", "3500", option, "all"];
        let fault = format!("series: \"{option}\" is no option: its options are --profiles, ");
        stopped(&line, 2, &[&fault, hint]);
    }
}

#[test]
fn a_word_that_is_no_file_is_told_what_is_taken() {
    let told = "; --holidays takes german, german:NAME,.. with regional days, a file with one date a line, or none\n";
    let line = ["day", "2000", "--holidays", "germany"];
    stopped(&line, 3, &["cannot read germany: ", told]);
    let hint = "or none; the list of a state is made by `dusterteal holidays YEAR --state Bayern -o FILE` and read by --holidays FILE\n";
    stopped(&["day", "2000", "--holidays", "Bayern"], 3, &[hint]);
}

/// The list of a file is still asked as a whole: 401 dates are refused though the run has fewer.
#[test]
fn a_file_with_too_many_dates_is_still_refused() {
    let path = text(&folder("german_many").join("list.txt"));
    let warning = "a file with more than 400 is refused; for so long a run say --holidays german:epiphany,all-saints\n";
    let line = [
        "holidays",
        "1996..2099",
        "--regional",
        "all-saints,epiphany",
    ];
    warned(&[&line[..], &["-o", &path]].concat(), &[warning]);
    let message = format!("{path}, line 403: the list has 1351 dates; at most 400 are allowed (question 9, place 400)");
    says(&["day", "2000", "--holidays", &path], 1, &message);
}
