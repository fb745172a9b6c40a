//! Whole tables, as other programs write them.
use super::*;
use crate::text::decode;

const ROW: &str = "1,0;2,0;3,0;4,0;5,0;6,0;7,0;8,0;9,0";

/// Values that differ, so that none can stand in for another.
fn values() -> Vec<u16> {
    (0..GROUP_VALUES).map(|index| 23 * index as u16).collect()
}

fn table(group: Option<Group>) -> Table {
    let values = values();
    Table { group, values }
}

/// The rows of a table, made of each position and its values in the order of `days`.
fn rows(days: [usize; 9], row: impl Fn(usize, Vec<u16>) -> String) -> String {
    let values = values();
    let of_position = |position| days.map(|day| values[QUARTERS * day + position]).to_vec();
    let rows = (0..QUARTERS).map(|position| row(position, of_position(position)));
    rows.collect()
}

fn joined(values: &[u16], separator: &str, value: impl Fn(&u16) -> String) -> String {
    values.iter().map(value).collect::<Vec<_>>().join(separator)
}

/// A formatted table, changed in one line: `None` takes it away.
fn with_line(number: usize, line: Option<&str>) -> String {
    let text = format(Group::L0, &values());
    let mut lines: Vec<&str> = text.lines().collect();
    lines.splice(number - 1..number, line);
    lines.join("\n")
}

/// A formatted table with another row at a line, of which the beginning is given.
fn with_row(number: usize, time: &str) -> String {
    with_line(number, Some(&format!("{time};{ROW}")))
}

fn fault_of(text: &str) -> String {
    parse(text).expect_err("a fault").to_string()
}

#[test]
fn a_formatted_table_parses_to_itself() {
    let text = format(Group::L0, &values());
    assert_eq!(parse(&text), Ok(table(Some(Group::L0))));
    let lines: Vec<&str> = text.lines().collect();
    assert!(lines[0].starts_with("L0;winter weekday;winter Saturday;"));
    assert!(lines[1].starts_with("00:15;0,0;220,8;"));
    assert!(lines[96].starts_with("24:00;218,5;"));
    assert_eq!((lines.len(), text.ends_with('\n')), (97, true));
}

#[test]
fn points_and_every_separator_are_taken() {
    let points = format(Group::L0, &values()).replace(',', ".");
    for separator in [";", ",", "\t"] {
        let text = points.replace(';', separator);
        assert_eq!(parse(&text), Ok(table(Some(Group::L0))));
        let text = format!("sep={separator}\r\n{}", text.replace('\n', "\r\n"));
        assert_eq!(parse(&text), Ok(table(Some(Group::L0))));
    }
}

#[test]
fn a_german_sheet_with_two_header_lines_in_windows_1252_is_taken() {
    let head = "Lastprofil G0, Gewerbe allgemein (1000 kWh/a);;;;;;;;;;\n\
                ;;;;;;;;;;\n\
                ;Winter;;;Sommer;;;\u{dc}bergangszeit;;;\n\
                [W];Samstag;Sonntag;Werktag;Samstag;Sonntag;Werktag;Samstag;Sonntag;Werktag;\n";
    let rows = rows([1, 2, 0, 4, 5, 3, 7, 8, 6], |position, values| {
        let minutes = 15 * (position + 1) % 1440;
        let values = joined(&values, ";", |value| {
            format!("{},{}", value / 10, value % 10)
        });
        format!("{}:{:02};{values};\n", minutes / 60, minutes % 60)
    });
    let text = format!("{head}{rows};;;;;;;;;;\n\n").replace('\n', "\r\n");
    let bytes: Vec<u8> = text
        .chars()
        .map(|c| u8::try_from(c).expect("Latin-1"))
        .collect();
    assert!(bytes.contains(&0xDC) && std::str::from_utf8(&bytes).is_err());
    let text = decode(&bytes).expect("text");
    assert!(text.contains("\r\n0:15;220,8;") && text.contains("\r\n0:00;"));
    assert_eq!(parse(&text), Ok(table(Some(Group::G0))));
}

#[test]
fn an_english_sheet_with_one_header_line_is_taken() {
    let head = "# made up\n\
                until,transition Sunday,transition Saturday,transition weekday,summer Sunday,summer Saturday,\
                summer weekday,winter Sunday,winter Saturday,winter weekday\n";
    let rows = rows([8, 7, 6, 5, 4, 3, 2, 1, 0], |position, values| {
        let values = joined(&values, ",", |value| {
            format!("{}.{}", value / 10, value % 10)
        });
        format!("{},{values}\n", clock::label(position))
    });
    assert_eq!(parse(&format!("{head}{rows}")), Ok(table(None)));
}

#[test]
fn a_sheet_with_tabs_and_quotes_is_taken() {
    let head = "\"Uhrzeit nach einer 1/4-Stunde\"\t\"Wi-Werktag\"\t\"Wi-Samstag\"\t\"Wi-Sonntag\"\t\"So-Werktag\"\t\
                \"So-Samstag\"\t\"So-Sonntag\"\t\"Üb-Werktag\"\t\"Üb-Samstag\"\t\"Üb-\nSonntag\"\n\
                \t\"in W\"\t\"in W\"\n\n";
    let rows = rows([0, 1, 2, 3, 4, 5, 6, 7, 8], |position, values| {
        let values = joined(&values, "\t", |value| {
            format!("\" {},{}0\u{a0}\"", value / 10, value % 10)
        });
        format!("\"{}:00\"\t{values}\n", clock::label(position))
    });
    assert_eq!(parse(&format!("{head}{rows}")), Ok(table(None)));
}

#[test]
fn decimal_commas_in_quotes_are_taken_where_commas_split() {
    let text = format(Group::H0, &values());
    let quoted = text.replace(';', "\",\"").replace('\n', "\"\n\"");
    let text = format!("\"{}", quoted.strip_suffix('"').expect("quote"));
    assert!(text.contains("\n\"00:15\",\"0,0\",\"220,8\","));
    assert_eq!(parse(&text), Ok(table(Some(Group::H0))));
}

#[test]
fn rows_that_are_missing_are_named() {
    assert_eq!(
        fault_of(&with_line(39, None)),
        "line 39: the row of 09:30 is missing: 09:45 stands here"
    );
    let text = format(Group::L0, &values());
    let lines: Vec<&str> = text.lines().collect();
    assert_eq!(
        fault_of(&[&lines[..38], &lines[41..]].concat().join("\n")),
        "line 39: the rows of 09:30 to 10:00 are missing: 10:15 stands here"
    );
    assert_eq!(
        fault_of(&lines[..96].join("\n\n")),
        "line 192: the row of 24:00 is missing"
    );
    assert_eq!(
        fault_of(&lines[..94].join("\n")),
        "line 95: the rows of 23:30 to 24:00 are missing"
    );
    assert_eq!(
        fault_of(lines[0]),
        "line 2: the rows of 00:15 to 24:00 are missing"
    );
    assert_eq!(
        fault_of(&with_line(2, None)),
        "line 2: the row of 00:15 is missing: 00:30 stands here"
    );
    assert_eq!(
        fault_of(&with_line(96, None).replace("24:00", "0:00")),
        "line 96: the row of 23:45 is missing: 0:00 stands here"
    );
}

#[test]
fn rows_that_come_again_or_out_of_order_are_named() {
    assert_eq!(
        fault_of(&with_row(40, "9:30")),
        "line 40: the row of 9:30 comes again: 09:45 should stand here"
    );
    let text = format(Group::L0, &values());
    let swapped = text
        .replace("09:30", "x")
        .replace("09:45", "09:30")
        .replace('x', "09:45");
    assert_eq!(
        fault_of(&swapped),
        "line 39: the row of 09:45 is out of order: that of 09:30 comes after it"
    );
    let mut lines: Vec<&str> = text.lines().collect();
    lines[1..].reverse();
    assert_eq!(
        fault_of(&lines.join("\n")),
        "line 2: the row of 24:00 is out of order: that of 00:15 comes after it"
    );
    assert_eq!(
        fault_of(&with_row(50, "0:00")),
        "line 50: the rows of 12:15 to 23:45 are missing: 0:00 stands here"
    );
}

#[test]
fn times_that_end_no_quarter_hour_are_named() {
    assert_eq!(
        fault_of(&with_row(10, "02:20")),
        "line 10, column 1: 02:20 is no end of a quarter hour: 02:15 should stand here"
    );
    assert_eq!(
        fault_of(&with_row(10, "Summe")),
        "line 10, column 1: \"Summe\" is no time: 02:15 should stand here"
    );
    assert_eq!(
        fault_of(&with_row(10, "")),
        "line 10, column 1: the time is missing: 02:15 should stand here"
    );
    assert_eq!(
        fault_of(&with_row(97, "24:15")),
        "line 97, column 1: \"24:15\" is no time: 24:00 should stand here"
    );
}

#[test]
fn times_of_beginnings_are_refused() {
    for first in ["0:00", "00:00", "00:00:00"] {
        let days = [0, 1, 2, 3, 4, 5, 6, 7, 8];
        let rows = rows(days, |position, _| match position {
            0 => format!("{first};{ROW}\n"),
            _ => format!("{};{ROW}\n", clock::label(position - 1)),
        });
        assert_eq!(
            fault_of(&format!("G0;{}\n{rows}", DAYS.join(";"))),
            format!(
                "line 2: {first} stands first, so the times seem to name quarter hours by their beginning: a time here \
                 must be a quarter hour's end, 00:15 to 24:00"
            )
        );
    }
}

#[test]
fn what_follows_the_last_row_is_a_fault() {
    let text = format(Group::L0, &values());
    for (more, first) in [
        ("24:15;1", "24:15"),
        ("00:15;1;1;1;1;1;1;1;1;1", "00:15"),
        ("Summe;100", "Summe"),
        (";;x", "x"),
    ] {
        assert_eq!(
            fault_of(&format!("{text}{more}\n")),
            format!("line 98: {first:?} stands behind the row of 24:00, the last of 96")
        );
    }
    let text = format!("{text};;;\n\n# 1;2\n\n");
    assert_eq!(parse(&text), Ok(table(Some(Group::L0))));
}

#[test]
fn values_that_are_wrong_are_named_with_their_place() {
    for (value, what) in [
        ("", "the cell is empty"),
        ("one", "\"one\" is no number"),
        ("63,25", "\"63,25\" has more than one decimal"),
        (
            "0,0632",
            "\"0,0632\" has more than one decimal: it looks like kW, and the values must be watts",
        ),
        ("1.234,5", "\"1.234,5\" has a thousands separator"),
        ("2000,1", "\"2000,1\" is above 2000.0 W, the largest value"),
    ] {
        let row = format!("00:30;{}", ROW.replace("5,0", value));
        assert_eq!(
            fault_of(&with_line(3, Some(&row))),
            format!("line 3, column 6: {what}; {ALLOWED}")
        );
        let row = format!("00:30;{}", ROW.replace("9,0", value));
        assert_eq!(
            fault_of(&with_line(3, Some(&row))),
            format!("line 3, column 10: {what}; {ALLOWED}")
        );
    }
}

#[test]
fn rows_with_too_few_or_too_many_fields_are_named() {
    for (row, fields) in [
        ("00:30".into(), "1 field"),
        ("00:30;1,0;2,0".into(), "3 fields"),
        (format!("00:30;{ROW};1,0"), "11 fields"),
        (format!("00:30;{ROW};;1,0;;"), "12 fields"),
    ] {
        assert_eq!(
            fault_of(&with_line(3, Some(&row))),
            format!("line 3: {fields}, and the header has 10")
        );
    }
}

#[test]
fn decimal_commas_where_commas_split_are_told_so() {
    let commas = format(Group::L0, &values()).replace(';', ",");
    assert_eq!(
        fault_of(&commas),
        "line 2: 19 fields, and the header has 10: commas split the fields, so a value with a decimal comma must stand in \
         quotes"
    );
    let points = format(Group::L0, &values())
        .replace(',', ".")
        .replace(';', ",");
    assert_eq!(
        fault_of(&points.replacen("\n00:30,", "\n00:30,1,", 1)),
        "line 3: 11 fields, and the header has 10"
    );
}

#[test]
fn faults_of_quotes_and_header_come_through() {
    assert!(fault_of("").starts_with("line 1: the header is missing: "));
    assert_eq!(
        fault_of(&with_row(5, "\"01:00")),
        "line 5, column 1: the field begins with a quote that none at its end closes"
    );
    assert_eq!(
        fault_of(&with_line(1, Some("L0;winter weekday;winter weekday"))),
        "line 1, column 3: winter weekday stands twice, first in column 2"
    );
}
