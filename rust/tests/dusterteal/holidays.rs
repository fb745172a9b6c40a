//! The list of holidays: how it may be written, and what is said of it.
use std::path::Path;

use crate::expected::federal_list;
use crate::made::{table, values, FILE, TABLE};
use crate::tool::{file, folder, says, warned, warnings, written};

const LIST: &str = "examples/holidays_2000.txt";

/// The dates of `LIST`, with names.
const NAMED: [(&str, &str); 9] = [
    ("2000-01-01", "Neujahr"),
    ("2000-04-21", "Karfreitag"),
    ("2000-04-24", "Ostermontag"),
    ("2000-05-01", "1. Mai"),
    ("2000-06-01", "Christi Himmelfahrt"),
    ("2000-06-12", "Pfingstmontag"),
    ("2000-10-03", "Tag der Deutschen Einheit"),
    ("2000-12-25", "1. Weihnachtstag"),
    ("2000-12-26", "2. Weihnachtstag"),
];

/// A list with a line for each date and name.
fn list(line: impl Fn(&str, &str) -> String) -> String {
    let lines = NAMED.map(|(date, name)| line(date, name) + "\n");
    lines.concat()
}

/// A date as dd.mm.yyyy.
fn in_german(date: &str) -> String {
    let parts: Vec<&str> = date.rsplit('-').collect();
    parts.join(".")
}

/// The same without zeros before day and month.
fn in_short_german(date: &str) -> String {
    let parts = date.rsplit('-').map(|part| part.trim_start_matches('0'));
    parts.collect::<Vec<_>>().join(".")
}

fn arguments<'a>(subcommand: &'a str, period: &'a str, holidays: &'a str) -> Vec<&'a str> {
    let options = ["--profiles", TABLE, "--holidays", holidays];
    [&[subcommand, "G0", period, "1000"][..], &options].concat()
}

/// The listing of the year, where the list is `LIST`.
fn listing() -> String {
    written(&arguments("days", "2000", LIST))
}

fn named(line: impl Fn(&str, &str) -> String) -> Vec<u8> {
    list(line).into_bytes()
}

/// The list in each form that is taken, and whether it has the names.
fn forms() -> Vec<(Vec<u8>, bool)> {
    let plain = list(|date, _| date.to_owned());
    let spaced = list(|date, name| format!("{date} {name}"));
    vec![
        (plain.clone().into_bytes(), false),
        (named(|date, _| in_german(date)), false),
        (named(|date, _| in_short_german(date)), false),
        (named(|date, _| format!(" {date};; ")), false),
        (spaced.clone().into_bytes(), true),
        (named(|date, name| format!("{date};{name}")), true),
        (named(|date, name| format!("{date},{name}")), true),
        (named(|date, name| format!("{date}\t{name}")), true),
        (named(|date, name| format!("{date}; {name};")), true),
        (named(|date, name| format!("{date};\"{name}\"")), true),
        (named(|date, name| format!("\"{date}\",\"{name}\"")), true),
        (
            named(|date, name| format!("{} {name}", in_german(date))),
            true,
        ),
        (
            format!("# remark\n\n{spaced}\n  # end\n").into_bytes(),
            true,
        ),
        (
            format!("Datum;Feiertag\n{}", spaced.replacen(' ', ";", 1)).into_bytes(),
            true,
        ),
        (format!("\u{feff}{spaced}").into_bytes(), true),
        (spaced.replace('\n', "\r\n").into_bytes(), true),
        (spaced.trim_end().as_bytes().to_vec(), true),
    ]
}

#[test]
fn every_form_of_the_list_gives_the_same_figures() {
    let folder = folder("holidays_forms");
    let expected = listing();
    for (content, _) in forms() {
        let said = String::from_utf8_lossy(&content).into_owned();
        let path = &file(&folder, "list.txt", content);
        assert_eq!(
            written(&arguments("days", "2000", path)),
            expected,
            "{said}"
        );
    }
}

/// Why a day has its day type, by the calendar.
fn why(date: &str, holidays: &str) -> String {
    let calendar = written(&["day", date, "--holidays", holidays]);
    let row = calendar.lines().nth(1).expect("a row");
    row.split(';').nth(5).expect("a reason").to_owned()
}

#[test]
fn names_stand_behind_the_dates() {
    let folder = folder("holidays_names");
    for (content, has_names) in forms() {
        let said = String::from_utf8_lossy(&content).into_owned();
        let path = &file(&folder, "list.txt", content);
        for (date, name) in [NAMED[1], NAMED[3], NAMED[6]] {
            let expected = match has_names {
                true => format!("listed: {name}"),
                false => "listed".to_owned(),
            };
            assert_eq!(why(date, path), expected, "{said}");
        }
    }
}

#[test]
fn names_may_be_in_windows_1252() {
    let folder = folder("holidays_windows_1252");
    let path = &file(&folder, "list.txt", b"06.01.2000 Heilige Drei K\xF6nige\n");
    assert_eq!(why("2000-01-06", path), "listed: Heilige Drei Könige");
}

#[test]
fn a_list_that_is_not_in_order_is_put_in_order_with_a_warning() {
    let folder = folder("holidays_order");
    let lines: Vec<String> = NAMED
        .iter()
        .rev()
        .map(|(date, _)| in_german(date))
        .collect();
    let path = &file(&folder, "list.txt", lines.join("\n"));
    let line = arguments("days", "2000", path);
    let [.., (before, _), (last, _)] = NAMED;
    let warning = format!("{path}, line 2: {before} stands behind {last}; the dates are sorted");
    assert_eq!(warnings(&line), [warning.as_str()]);
    assert_eq!(warned(&line, &[&warning]), listing());
}

fn no_date_of(path: &str, years: &str) -> Vec<String> {
    match years {
        "" => Vec::new(),
        _ => vec![format!(
            "{path} lists no date of {years}: no day counts as a holiday there"
        )],
    }
}

#[test]
fn a_year_without_a_listed_date_is_warned_of() {
    let folder = folder("holidays_years");
    let path = &file(&folder, "list.txt", federal_list(&[2000, 2002]));
    for (period, years) in [
        ("2000", ""),
        ("2001", "2001"),
        ("2002-12-31", ""),
        ("1999-12-31..2003-01-01", "1999, 2001, 2003"),
    ] {
        let expected = no_date_of(path, years);
        for subcommand in ["series", "sums", "days", "page", "request"] {
            let line = arguments(subcommand, period, path);
            assert_eq!(warnings(&line), expected, "{line:?}");
        }
        assert_eq!(warnings(&["day", period, "--holidays", path]), expected);
    }
    let explain = [
        "explain",
        "G0",
        "2001-03-26",
        "00:15",
        "1000",
        "--profiles",
        TABLE,
    ];
    let line = [&explain[..], &["--holidays", path, "--since", "2001-03-26"]].concat();
    assert_eq!(warnings(&line), no_date_of(path, "2001"));
}

/// The warning of a list that lacks some public holidays.
fn missing(path: &str, days: &str) -> Vec<String> {
    match days {
        "" => Vec::new(),
        _ => vec![format!(
            "{path} does not list {days}: a list stands in place of german and needs the public holidays too"
        )],
    }
}

/// A list of a works agreement's day alone stands in place of the public holidays: the first one that it lacks is named. One with both
/// is not warned of.
#[test]
fn a_list_without_the_days_of_all_of_germany_is_warned_of() {
    let folder = folder("holidays_missing");
    let alone = &file(&folder, "alone.txt", "2026-12-24 works agreement\n");
    let whole = federal_list(&[2026]).replace("2026-12-25\n", "2026-12-24\n2026-12-25\n");
    let whole = &file(&folder, "whole.txt", whole);
    for (period, missed) in [
        ("2026", "2026-01-01 (New Year's Day), which all of Germany keeps, nor 8 more such days of the run"),
        ("2026-Q4", "2026-10-03 (Day of German Unity), which all of Germany keeps, nor 2 more such days of the run"),
        ("2026-12-24..2026-12-25", "2026-12-25 (Christmas Day), which all of Germany keeps"),
        ("2026-12-24", ""),
    ] {
        let expected = missing(alone, missed);
        for subcommand in ["series", "sums", "days", "page", "request"] {
            let line = arguments(subcommand, period, alone);
            assert_eq!(warnings(&line), expected, "{line:?}");
            assert_eq!(warnings(&arguments(subcommand, period, whole)), [""; 0]);
        }
        assert_eq!(warnings(&["day", period, "--holidays", alone]), expected);
        assert_eq!(warnings(&["day", period, "--holidays", whole]), [""; 0]);
    }
}

/// A list of the tool's that says it has a day, and lacks it, is warned of; also one of whose dates none is left.
#[test]
fn a_list_of_the_tools_that_lost_days_is_warned_of() {
    let folder = folder("holidays_lost");
    let list = written(&["holidays", "2026..2027"]);
    let without = |lost: &[&str]| {
        let is_kept = |line: &&str| !lost.iter().any(|lost| line.starts_with(lost));
        let lines = list.lines().filter(is_kept);
        lines.map(|line| line.to_owned() + "\n").collect::<String>()
    };
    for (period, lost, missed) in [
        ("2026..2027", &["2026-12-2"][..], "2026-12-25 (Christmas Day), which all of Germany keeps, nor one more such day of the run"),
        ("2026..2027", &["2027"], "2027-01-01 (New Year's Day), which all of Germany keeps, nor 6 more such days of the run"),
        ("2026-12", &["2026", "2027"], "2026-12-25 (Christmas Day), which all of Germany keeps, nor one more such day of the run"),
        ("2026-02", &["2026", "2027"], ""),
        ("2026..2027", &[], ""),
    ] {
        let path = &file(&folder, "list.txt", without(lost));
        let expected = missing(path, missed);
        assert_eq!(warnings(&["day", period, "--holidays", path]), expected);
        assert_eq!(warnings(&arguments("days", period, path)), expected);
    }
}

/// What is refused is not warned of.
#[test]
fn a_refused_list_is_said_to_be_refused_alone() {
    let path = &file(&folder("holidays_refused"), "list.txt", "2026-02-30\n");
    let refusal = format!("{path}, line 1: 2026-02-30 does not exist: February 2026 has 28 days (question 9, place 0)");
    says(&["day", "2026", "--holidays", path], 1, &refusal);
    says(&arguments("days", "2026", path), 1, &refusal);
}

/// A date that is mistyped stands outside the days that a list of the tool's says it has.
#[test]
fn a_date_outside_the_lists_own_days_is_warned_of() {
    let folder = folder("holidays_outside");
    let list = written(&["holidays", "2026"]);
    let lines = list.lines().count();
    let path = &file(
        &folder,
        "list.txt",
        list.clone() + "2027-12-24 works agreement\n",
    );
    let warning = format!("{path}, line {}: 2027-12-24 lies outside the days that the list says it has, from 2026-01-01 to 2026-12-31", lines + 1);
    assert_eq!(warnings(&arguments("days", "2026-Q4", path)), [warning]);
    let path = &file(
        &folder,
        "two.txt",
        list + &written(&["holidays", "2027"]) + "2027-12-31\n",
    );
    assert_eq!(warnings(&arguments("days", "2026-Q4", path)), [""; 0]);
}

#[test]
fn an_empty_list_is_warned_of_for_every_year() {
    let path = &file(&folder("holidays_empty"), "list.txt", "# nothing yet\n");
    let line = arguments("sums", "2000-12-31..2001-01-01", path);
    assert_eq!(warnings(&line), no_date_of(path, "2000 to 2001"));
}

/// The years before the period count, since their figures have their part in the carry.
#[test]
fn a_year_of_the_run_without_a_listed_date_is_warned_of() {
    for subcommand in ["series", "sums"] {
        let mut line = arguments(subcommand, "2000-03-26", LIST);
        line.extend(["--since", "1998-12-31"]);
        assert_eq!(warnings(&line), no_date_of(LIST, "1998 to 1999"));
    }
}

#[test]
fn no_list_is_not_warned_of() {
    let mut line = arguments("series", "2001", "none");
    line.extend(["--since", "1996-01-01"]);
    assert_eq!(written(&line).lines().count(), 1 + 96 * 365);
    assert_eq!(written(&["day", "2001"]).lines().count(), 1 + 365);
}

/// The list is refused in these words, by a series and by the calendar.
fn expect_fault(path: &str, message: &str) {
    says(&arguments("series", "2000", path), 1, message);
    says(&["day", "2000", "--holidays", path], 1, message);
}

#[test]
fn a_line_that_is_no_date_is_named() {
    let folder = folder("holidays_lines");
    for (content, line, said) in [
        ("2000-01-01\n\n# x\n1 May 2000\n", 4, "1 May 2000"),
        ("Karfreitag 21.04.2000\n", 1, "Karfreitag 21.04.2000"),
        ("2000-01-01\n20000421\n", 2, "20000421"),
        ("2000-01-01\n21.04.00\n", 2, "21.04.00"),
        ("2000-01-01\nDatum\n", 2, "Datum"),
        ("2000/01/01\n", 1, "2000/01/01"),
    ] {
        let path = &file(&folder, "list.txt", content);
        let message = format!(
            "{path}, line {line}: {said:?} does not begin with a date, 2026-03-26 or 26.03.2026"
        );
        expect_fault(path, &message);
    }
}

fn in_utf_16(text: &str, folder: &Path) -> String {
    let bytes = text.encode_utf16().flat_map(u16::to_le_bytes);
    file(folder, "utf_16.txt", bytes.collect::<Vec<u8>>())
}

#[test]
fn files_that_are_no_list_are_told_by_what_they_are() {
    let folder = folder("holidays_binary");
    for (path, kind) in [
        (FILE, "a profile file"),
        (
            &in_utf_16("\u{feff}2000-01-01\r\n", &folder),
            "UTF-16 text: save it as CSV in UTF-8",
        ),
        (
            &file(&folder, "book.xlsx", b"PK\x03\x04\x14\0"),
            "a spreadsheet or zip archive (.xlsx, .ods): save the sheet as CSV",
        ),
        (&file(&folder, "any", b"\0\x01\x02"), "a binary file"),
    ] {
        expect_fault(
            path,
            &format!("{path} is {kind}; a list of holidays has one date a line"),
        );
    }
}

#[test]
fn a_table_is_no_list() {
    let table = table("G0", &values());
    let path = &file(&folder("holidays_table"), "g0.csv", table);
    let message = format!(
        "{path}, line 1: \"G0;winter weekday;winter Saturday;winter\".. does not begin with a date, \
         2026-03-26 or 26.03.2026"
    );
    expect_fault(path, &message);
}
