//! `day`: the calendar, as source document 000's Abb. 3 has it, and over the whole span.
use reference::calendar::Day;

use crate::draw;
use crate::expected::{dashed, expect_text, federal_list, DAY_TYPES, SEASONS, WEEKDAYS};
use crate::tool::{file, folder, run, stopped, warned, written};

pub const HEADER: &str = "t;date;weekday;season;day type;why;values\n";

/// The days of 2000 that source document 000 lists for all of Germany.
const EVERYWHERE: &str = "Datum;Feiertag
01.01.2000;Neujahr
21.04.2000;Karfreitag
23.04.2000;Ostersonntag
24.04.2000;Ostermontag
01.05.2000;Maifeiertag
01.06.2000;Himmelfahrt
11.06.2000;Pfingstsonntag
12.06.2000;Pfingstmontag
03.10.2000;Tag der deutschen Einheit
25.12.2000;1. Weihnachtsfeiertag
26.12.2000;2. Weihnachtsfeiertag
";

/// Those of Bavaria beside them, as far as Abb. 3 shows them.
const BAVARIA: &str = "2000-01-01 Neujahr
2000-01-06 Heilige Drei Könige
2000-06-12 Pfingstmontag
2000-06-22 Fronleichnam
";

const JANUARY: &str = "1;2000-01-01;Saturday;winter;Sunday;listed: Neujahr;96
2;2000-01-02;Sunday;winter;Sunday;Sunday;96
3;2000-01-03;Monday;winter;weekday;Monday to Friday;96
4;2000-01-04;Tuesday;winter;weekday;Monday to Friday;96
5;2000-01-05;Wednesday;winter;weekday;Monday to Friday;96
6;2000-01-06;Thursday;winter;weekday;Monday to Friday;96
7;2000-01-07;Friday;winter;weekday;Monday to Friday;96
";

const JUNE: &str = "164;2000-06-12;Monday;summer;Sunday;listed: Pfingstmontag;96
165;2000-06-13;Tuesday;summer;weekday;Monday to Friday;96
166;2000-06-14;Wednesday;summer;weekday;Monday to Friday;96
167;2000-06-15;Thursday;summer;weekday;Monday to Friday;96
168;2000-06-16;Friday;summer;weekday;Monday to Friday;96
169;2000-06-17;Saturday;summer;Saturday;Saturday;96
170;2000-06-18;Sunday;summer;Sunday;Sunday;96
171;2000-06-19;Monday;summer;weekday;Monday to Friday;96
172;2000-06-20;Tuesday;summer;weekday;Monday to Friday;96
173;2000-06-21;Wednesday;summer;weekday;Monday to Friday;96
174;2000-06-22;Thursday;summer;weekday;Monday to Friday;96
";

/// The rows of a period with a list.
fn rows(period: &str, list: &str) -> String {
    let text = written(&["day", period, "--holidays", list]);
    let rows = text.strip_prefix(HEADER).expect("the header");
    rows.to_owned()
}

#[test]
fn the_rows_of_the_papers_calendar() {
    let folder = folder("calendar_paper");
    let everywhere = file(&folder, "everywhere.csv", EVERYWHERE);
    assert_eq!(rows("2000-01-01..2000-01-07", &everywhere), JANUARY);
    assert_eq!(rows("12.6.2000..22.6.2000", &everywhere), JUNE);
    let bavaria = file(&folder, "bavaria.txt", BAVARIA);
    let kings = JANUARY.replace(
        "6;2000-01-06;Thursday;winter;weekday;Monday to Friday;",
        "6;2000-01-06;Thursday;winter;Sunday;listed: Heilige Drei Könige;",
    );
    assert_eq!(rows("2000-01-01..2000-01-07", &bavaria), kings);
    let corpus_christi = JUNE.replace(
        "174;2000-06-22;Thursday;summer;weekday;Monday to Friday;",
        "174;2000-06-22;Thursday;summer;Sunday;listed: Fronleichnam;",
    );
    assert_eq!(rows("2000-06-12..2000-06-22", &bavaria), corpus_christi);
}

#[test]
fn without_a_list_no_day_counts_as_a_holiday() {
    let new_year = "1;2000-01-01;Saturday;winter;Saturday;Saturday;96\n";
    assert_eq!(
        written(&["day", "2000-01-01"]),
        HEADER.to_owned() + new_year
    );
    assert_eq!(rows("2000-01-01", "none"), new_year);
    let whit_monday = "164;2000-06-12;Monday;summer;weekday;Monday to Friday;96\n";
    assert_eq!(rows("2000-06-12", "none"), whit_monday);
}

/// 24 and 31 December are Sundays where they are listed, as every listed date; unlisted they are Saturdays where they are no Sundays.
#[test]
fn the_list_comes_before_the_years_end() {
    let folder = folder("calendar_year_end");
    let dates = "1999-12-24 works agreement\n1999-12-25\n1999-12-31\n2000-12-24\n2000-12-31 y\n";
    let list = file(&folder, "list.txt", dates);
    for (period, listed, unlisted) in [
        (
            "1999-12-24..1999-12-25",
            "358;1999-12-24;Friday;winter;Sunday;listed: works agreement;96
359;1999-12-25;Saturday;winter;Sunday;listed;96
",
            "358;1999-12-24;Friday;winter;Saturday;24 December, not listed;96
359;1999-12-25;Saturday;winter;Saturday;Saturday;96
",
        ),
        (
            "1999-12-31",
            "365;1999-12-31;Friday;winter;Sunday;listed;96\n",
            "365;1999-12-31;Friday;winter;Saturday;31 December, not listed;96\n",
        ),
        (
            "2000-12-24",
            "359;2000-12-24;Sunday;winter;Sunday;Sunday;96\n",
            "359;2000-12-24;Sunday;winter;Sunday;Sunday;96\n",
        ),
        (
            "2000-12-31",
            "366;2000-12-31;Sunday;winter;Sunday;Sunday;96\n",
            "366;2000-12-31;Sunday;winter;Sunday;Sunday;96\n",
        ),
    ] {
        assert_eq!(rows(period, &list), listed);
        assert_eq!(rows(period, "none"), unlisted);
    }
}

#[test]
fn clock_changes_have_92_and_100_values() {
    assert_eq!(
        rows("2000-03-25..2000-03-27", "none"),
        "85;2000-03-25;Saturday;transition;Saturday;Saturday;96
86;2000-03-26;Sunday;transition;Sunday;Sunday;92
87;2000-03-27;Monday;transition;weekday;Monday to Friday;96
"
    );
    assert_eq!(
        rows("2000-10-28..2000-10-30", "none"),
        "302;2000-10-28;Saturday;transition;Saturday;Saturday;96
303;2000-10-29;Sunday;transition;Sunday;Sunday;100
304;2000-10-30;Monday;transition;weekday;Monday to Friday;96
"
    );
}

/// A row without its why, by the independent implementation.
pub fn expected_row(day: &Day, holidays: &[u32]) -> String {
    let answer = reference::day(day.date(), holidays).expect("a day of the span");
    let weekday = WEEKDAYS[answer.weekday as usize - 1];
    let season = SEASONS[answer.season as usize];
    let day_type = DAY_TYPES[answer.day_type as usize];
    let (t, date, values) = (answer.t, dashed(day.date()), answer.values);
    format!("{t};{date};{weekday};{season};{day_type};{values}\n")
}

/// Rows without the sixth field, the why.
pub fn without_why(text: &str) -> String {
    let row = |row: &str| {
        let fields: Vec<&str> = row.split(';').collect();
        assert_eq!(fields.len(), 7, "{row}");
        [&fields[..5], &fields[6..]].concat().join(";") + "\n"
    };
    text.lines().map(row).collect()
}

#[test]
fn the_whole_span_in_one_call() {
    let days = draw::span();
    assert_eq!(days.len(), 37_986);
    let lists = [
        vec![],
        days.iter().step_by(95).map(|day| day.date()).collect(),
    ];
    let folder = folder("calendar_span");
    for holidays in lists {
        let lines: Vec<String> = holidays.iter().map(|date| dashed(*date) + "\n").collect();
        let list = file(&folder, "list.txt", lines.concat());
        let text = warned(&["day", "1996..2099", "--holidays", &list], &[]);
        let rows = text.strip_prefix(HEADER).expect("the header");
        assert_eq!(rows.lines().count(), 37_986);
        let expected: String = days
            .iter()
            .map(|day| expected_row(day, &holidays))
            .collect();
        expect_text(&without_why(rows), &expected, holidays.len());
    }
}

#[test]
fn a_year_without_a_listed_date_is_warned_of() {
    let folder = folder("calendar_years");
    let list = file(&folder, "list.txt", federal_list(&[2000, 2002]));
    let said = run(&["day", "2000..2004", "--holidays", &list]).said;
    assert_eq!(
        said,
        format!("dusterteal: warning: {list} lists no date of 2001, 2003 to 2004: no day counts as a holiday there\n")
    );
}

/// A name that has the separator or a quote stands in quotes.
#[test]
fn names_are_fields() {
    let folder = folder("calendar_names");
    let list = file(&folder, "list.txt", "2000-06-13 a;b \"c\" d\n2000-06-14\n");
    assert_eq!(
        rows("2000-06-13..2000-06-14", &list),
        "165;2000-06-13;Tuesday;summer;Sunday;\"listed: a;b \"\"c\"\" d\";96
166;2000-06-14;Wednesday;summer;Sunday;listed;96
"
    );
}

#[test]
fn what_is_no_period_is_refused() {
    let folder = folder("calendar_refused");
    let reversed = "2000-02-02..2000-02-01";
    stopped(
        &["day", reversed],
        1,
        &[reversed, "ends before it begins (question 8, place 0)"],
    );
    let february = "2000-02-30 does not exist: February 2000 has 29 days";
    stopped(
        &["day", "30.2.2000"],
        1,
        &[february, "(question 7, place 0)"],
    );
    stopped(
        &["day", "2000-01-01..2000-02-30"],
        1,
        &[february, "(question 7, place 1)"],
    );
    stopped(
        &["day", "1995..1996"],
        1,
        &[
            "1995-01-01 lies outside 1996-01-01 to 2099-12-31",
            "(question 7, place 0)",
        ],
    );
    stopped(
        &["day", "2100"],
        1,
        &["2100-01-01 lies outside", "(question 7, place 0)"],
    );
    stopped(&["day", "today"], 2, &["day: \"today\" is no period"]);
    stopped(&["day"], 2, &["day: PERIOD is missing"]);
    let twice = file(&folder, "twice.txt", "2000-01-01\n2000-01-01\n");
    stopped(
        &["day", "2000", "--holidays", &twice],
        1,
        &["twice.txt, line 2: 2000-01-01 stands in line 1 already (question 9, place 1)"],
    );
}
