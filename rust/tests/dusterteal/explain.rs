//! `explain`: each number on the way to a figure, held to the independent implementation, and the figure to the line of `series`.
use std::collections::HashMap;
use std::path::Path;

use reference::calendar::Day;
use reference::dynamisation::{factor, power, unrounded_factor};
use reference::series::carry_step;

use crate::draw::{self, Draw};
use crate::drawn::{self, on_two_threads};
use crate::expected::{
    borrowed, dashed, day_of, expect_text, quarter_hours, QuarterHour, Run, Source, DAY_TYPES,
    GROUPS, QUARTERS, SEASONS,
};
use crate::profile_file;
use crate::tool::{file, folder, run_with, stopped, warned, written};

const SOURCES: usize = 16;
const DAYS: usize = 400;
/// That are explained of each day.
const QUARTER_HOURS: usize = 5;
/// One day in this many is a clock change in March, and one in October.
const CLOCK_CHANGES: usize = 5;

/// The lines' values by their names. Each line ends with a place of the papers.
fn lines(text: &str) -> HashMap<&str, &str> {
    let (_, lines) = text.split_once("\n\n").expect("a title");
    let mut found = HashMap::new();
    for line in lines.lines() {
        let columns: Vec<&str> = line
            .split("  ")
            .map(str::trim)
            .filter(|column| !column.is_empty())
            .collect();
        let source = columns[columns.len() - 1];
        assert!(
            source.starts_with("000 step ") || source.starts_with("01 "),
            "{line}"
        );
        found.insert(columns[0], columns[1]);
    }
    found
}

/// A number of 10^-`places` as a decimal text.
fn decimal(number: u32, places: usize) -> String {
    let digits = format!("{number:0width$}", width = places + 1);
    let (whole, rest) = digits.split_at(digits.len() - places);
    format!("{whole},{rest}")
}

/// A group's value P, in tenths of a watt.
fn value(run: &Run, day: Day, position: usize) -> u16 {
    let Source { file, holidays, .. } = run.source;
    let mut table = [0; reference::file::VALUES];
    reference::read(file, run.group, &mut table).expect("the group is there");
    let day_table = 3 * day.season() as usize + day.day_type(holidays) as usize;
    table[QUARTERS * day_table + position]
}

/// What the lines should say of a day's quarter hour that begins with a carry, and its figure and the next carry.
fn expected(
    run: &Run,
    quarter: &QuarterHour,
    carry: u32,
) -> (Vec<(&'static str, String)>, u32, u32) {
    let day = day_of(run.first);
    let p = value(run, day, quarter.position);
    let f = factor(run.group, day.t);
    let q = power(p.into(), f);
    let (figure, carry_on) = carry_step(q, run.yearly, carry);
    let season = SEASONS[day.season() as usize];
    let day_type = DAY_TYPES[day.day_type(&run.source.holidays) as usize];
    let lines = vec![
        ("date", dashed(run.first)),
        ("t", format!("day {}", day.t)),
        ("season", season.to_owned()),
        ("day type", day_type.to_owned()),
        ("table", format!("{season} {day_type}")),
        (
            "X",
            format!("{} / 10^12", unrounded_factor(run.group, day.t)),
        ),
        ("F", decimal(f, 4)),
        ("until", format!("{} {}", quarter.until, quarter.offset)),
        ("P", format!("{} W", decimal(p.into(), 1))),
        ("Q", format!("{} W", decimal(q, 1))),
        ("A", format!("{} kWh", run.yearly)),
        ("carry in", format!("{carry} / 40000 Wh")),
        ("figure", format!("{figure} Wh")),
        ("carry on", format!("{carry_on} / 40000 Wh")),
    ];
    (lines, figure, carry_on)
}

/// The words that ask for a quarter hour, its time as `label`.
fn words(run: &Run, label: &str) -> Vec<String> {
    let group = GROUPS[usize::from(run.group)].to_owned();
    let mut words = vec![
        "explain".to_owned(),
        group,
        dashed(run.first),
        label.to_owned(),
    ];
    words.push(run.yearly.to_string());
    words.extend(run.options());
    words
}

/// A way to write the label of a quarter hour. October's doubled ones need the offset.
fn label(draw: &mut Draw, run: &Run, quarter: &QuarterHour) -> String {
    let QuarterHour { until, offset, .. } = quarter;
    let same = |other: &&QuarterHour| other.until == *until;
    let is_doubled = quarter_hours(day_of(run.first)).iter().filter(same).count() == 2;
    match draw.below(4) {
        0 if !is_doubled => until.clone(),
        1 => format!("{until} {offset}"),
        2 => format!("{until};{offset}"),
        _ => format!("{until}{offset}"),
    }
}

/// The indices of some of a day's quarter hours; of October's doubled hours one quarter of both.
fn chosen(draw: &mut Draw, count: usize) -> Vec<usize> {
    let mut chosen = Vec::new();
    if count == 100 {
        let first = draw.between(8, 11);
        chosen.extend([first, first + 4]);
    }
    while chosen.len() < QUARTER_HOURS {
        let index = draw.below(count);
        if !chosen.contains(&index) {
            chosen.push(index);
        }
    }
    chosen
}

/// A day to explain: a clock change, a listed day, or any.
fn day_index(draw: &mut Draw, number: usize, source: &Source) -> usize {
    let year = 10_000 * draw.between(1996, 2099) as u32;
    let last_sunday = |month: u32| {
        let end = draw::index_of(year + 100 * month + 31).expect("a date");
        end - draw::span()[end].weekday as usize % 7
    };
    match number % CLOCK_CHANGES {
        0 => last_sunday(3),
        1 => last_sunday(10),
        2 if !source.holidays.is_empty() => {
            draw::index_of(draw.pick(&source.holidays)).expect("a date")
        }
        _ => draw::day_index(draw),
    }
}

fn sources(folder: &Path) -> Vec<Source> {
    let draw = &mut Draw::new(77);
    let source = |number: usize| {
        let near = draw::day_index(draw);
        drawn::source(draw, folder, &number.to_string(), near)
    };
    (0..SOURCES).map(source).collect()
}

/// Explains some of a day's quarter hours.
fn expect_explained(draw: &mut Draw, run: &Run) {
    let quarter_hours = quarter_hours(day_of(run.first));
    let series = warned(&borrowed(&run.words("series")), &[]);
    let chosen = chosen(draw, quarter_hours.len());
    let mut carry = run.carry_before();
    for (index, quarter) in quarter_hours.iter().enumerate() {
        let (expected, figure, carry_on) = expected(run, quarter, carry);
        if chosen.contains(&index) {
            let words = words(run, &label(draw, run, quarter));
            let text = warned(&borrowed(&words), &[]);
            let found = lines(&text);
            assert_eq!(
                found.len(),
                expected.len() + 1,
                "{words:?}: and the division"
            );
            for (name, value) in expected {
                assert_eq!(found[name], value, "{words:?}: {name}");
            }
            let QuarterHour { until, offset, .. } = quarter;
            let line = format!("{};{until};{offset};{figure}", dashed(run.first));
            assert_eq!(series.lines().nth(1 + index), Some(&*line), "{words:?}");
        }
        carry = carry_on;
    }
}

#[test]
fn random_quarter_hours_are_explained_as_the_independent_implementation_has_them() {
    let sources = sources(&folder("explain_random"));
    let numbers: Vec<usize> = (0..DAYS).collect();
    on_two_threads(&numbers, |number| {
        let draw = &mut Draw::new(5_000 + *number as u64);
        let source = &sources[draw.below(SOURCES)];
        let day = day_index(draw, *number, source);
        let run = drawn::handed_on(draw, source, (day, day));
        expect_explained(draw, &run);
    });
}

/// Document 01's half that goes up, and its marked carry step.
#[test]
fn the_marked_figures() {
    let folder = folder("explain_marked");
    let file = profile_file::of(&[0, 1], &[[250; 864], [1001; 864]].concat());
    let source = Source::new(&folder, "marked", file, Vec::new());
    let explained = |words: &[&str]| warned(&source.command(words), &["lists no date of 2000"]);
    let text = explained(&["explain", "H0", "2000-01-01", "00:15", "1000"]);
    let found = lines(&text);
    assert_eq!(found["X"], "1242030119608 / 10^12");
    assert_eq!(
        (found["F"], found["P"], found["Q"]),
        ("1,2420", "25,0 W", "31,1 W")
    );
    let points = [
        &["explain", "H0", "2000-01-01", "00:15", "1000"][..],
        &["--decimal", "point"],
    ];
    let text = explained(&points.concat());
    let found = lines(&text);
    assert_eq!(
        (found["F"], found["P"], found["Q"]),
        ("1.2420", "25.0 W", "31.1 W")
    );
    let text = explained(&[
        "explain", "g0", "1.1.2000", "0:15", "1000", "--carry", "39999",
    ]);
    let title = "G0, 2000-01-01, the quarter hour until 00:15 +01:00, 1000 kWh a year: 26 Wh\n\n";
    assert!(text.starts_with(title), "{text}");
    let found = lines(&text);
    assert_eq!(found["carry in"], "39999 / 40000 Wh");
    assert_eq!(
        (found["figure"], found["carry on"]),
        ("26 Wh", "999 / 40000 Wh")
    );
    assert_eq!(found["division"], "1040999 / 40000 Wh");
}

const HOUSEHOLD: &str = "\
H0, 2000-07-20, the quarter hour until 12:00 +02:00, 3500 kWh a year: 17 Wh

date      2000-07-20            Thursday                                                             000 step 4
season    summer                15 May to 14 September                                               000 step 2
day type  weekday               Monday to Friday                                                     000 step 4; 01 Calendar; 02 (b)
table     summer weekday        of H0 in standard input                                              000 step 2
until     12:00 +02:00          number 48 of the day's 96; position 47, counted from 0               000 step 4; 01 Calendar
P         25,0 W                the table's value, for 1000 kWh a year                               000 step 2; 01 The profile file
t         day 202               counted from 1 January of the year                                   000 step 4; 01 Calendar
X         784662924928 / 10^12  -392 t^4 + 320000 t^3 - 70200000 t^2 + 2100000000 t + 1240000000000  000 step 4b; 01 Dynamisation
F         0,7847                X rounded half up to four decimals                                   000 step 4b; 01 Dynamisation
Q         19,6 W                P × F rounded half up to tenths of a watt                            000 step 4b; 01 Dynamisation
A         3500 kWh              the yearly use                                                       000 step 5; 01 Series and carry
carry in  18005 / 40000 Wh      what is left of the run, which begins on 2000-07-19 with 5           01 Series and carry; 000 step 6
division  704005 / 40000 Wh     196 (Q in tenths of a watt) × 3500 + 18005 = 17 × 40000 + 24005      01 Series and carry
figure    17 Wh                 the quotient, the same as the proved call's                          01 Series and carry
carry on  24005 / 40000 Wh      the remainder, for the next quarter hour                             01 Series and carry
";

const TRADE: &str = "\
G0, 2000-10-29, the quarter hour until 02:15 +01:00, 1000 kWh a year: 25 Wh

date      2000-10-29             Sunday                                                            000 step 4
season    transition             21 March to 14 May, 15 September to 31 October                    000 step 2
day type  Sunday                 Sunday                                                            000 step 4; 01 Calendar; 02 (b)
table     transition Sunday      of G0 in standard input                                           000 step 2
until     02:15 +01:00           number 13 of the day's 100; position 8, counted from 0            000 step 4; 01 Calendar
P         100.1 W                the table's value, for 1000 kWh a year                            000 step 2; 01 The profile file
t         day 303                counted from 1 January of the year                                000 step 4; 01 Calendar
X         1000000000000 / 10^12  1: only households, H0, have a dynamisation                       000 step 4a; 01 Dynamisation
F         1.0000                 X rounded half up to four decimals                                000 step 4a; 01 Dynamisation
Q         100.1 W                P × F rounded half up to tenths of a watt                         000 step 4a; 01 Dynamisation
A         1000 kWh               the yearly use                                                    000 step 5; 01 Series and carry
carry in  12000 / 40000 Wh       what is left of the run, which begins on 2000-10-29 with 0        01 Series and carry; 000 step 6
division  1013000 / 40000 Wh     1001 (Q in tenths of a watt) × 1000 + 12000 = 25 × 40000 + 13000  01 Series and carry
figure    25 Wh                  the quotient, the same as the proved call's                       01 Series and carry
carry on  13000 / 40000 Wh       the remainder, for the next quarter hour                          01 Series and carry
";

/// The whole text for a household on the day of the least factor, and for trade in October's second hour.
#[test]
fn the_text_is_this_to_the_letter() {
    let file = profile_file::of(&[0, 1], &[[250; 864], [1001; 864]].concat());
    let explained = |words: &str| {
        let words: Vec<&str> = words.split(' ').collect();
        let sources = [
            "--profiles",
            "-",
            "--holidays",
            "examples/holidays_2000.txt",
        ];
        let outcome = run_with(&[&["explain"], &words[..], &sources].concat(), &file);
        String::from_utf8(outcome.written).expect("text")
    };
    let household = explained("H0 2000-07-20 12:00 3500 --since 2000-07-19 --carry 5");
    expect_text(&household, HOUSEHOLD, "household");
    let trade = explained("G0 29.10.2000 02:15+01:00 1000 --since 29.10.2000 --decimal point");
    expect_text(&trade, TRADE, "trade");
}

/// The reason that a day has its type.
#[test]
fn the_day_type_is_explained_by_the_rule_that_settles_it() {
    let folder = folder("explain_why");
    let source = Source::usual(&folder);
    let list = file(
        &folder,
        "named.txt",
        "1999-12-24 works agreement\n2000-06-12 Whit Monday\n",
    );
    let why = |date: &str| {
        let words = [
            "explain",
            "G0",
            date,
            "12:00",
            "3500",
            "--profiles",
            &source.profiles,
        ];
        let text = written(&[&words[..], &["--holidays", &list, "--since", date]].concat());
        let line = text
            .lines()
            .find(|line| line.starts_with("day type"))
            .expect("the line");
        let columns: Vec<&str> = line
            .split("  ")
            .filter(|column| !column.is_empty())
            .collect();
        columns[2].trim().to_owned()
    };
    assert_eq!(why("2000-06-11"), "Sunday");
    assert_eq!(why("2000-06-12"), "listed: Whit Monday");
    assert_eq!(why("2000-06-13"), "Monday to Friday");
    assert_eq!(why("2000-06-17"), "Saturday");
    assert_eq!(why("2000-12-24"), "Sunday");
    assert_eq!(why("1999-12-24"), "listed: works agreement");
    assert_eq!(why("1999-12-31"), "31 December, not listed");
}

#[test]
fn labels_that_a_day_does_not_have_are_refused() {
    let source = Source::usual(&folder("explain_refused"));
    let refused = |date: &str, time: &str, status: i32, said: &str| {
        let words = source.command(&["explain", "G0", date, time, "3500"]);
        stopped(&words, status, &[said]);
    };
    let march = |time: &str| {
        format!("{time} does not exist on 2000-03-26: the clocks go from 02:00 to 03:00, and 02:00 is followed by 03:15")
    };
    for time in ["02:15", "02:30", "02:45", "03:00"] {
        refused("2000-03-26", time, 1, &march(time));
        refused("2000-03-26", &format!("{time}+02:00"), 1, &march(time));
        let twice = format!("{time} stands twice on 2000-10-29: say {time}+02:00 for the first or {time}+01:00 for the second");
        refused("2000-10-29", time, 1, &twice);
    }
    refused(
        "2000-10-29",
        "02:00+01:00",
        1,
        "02:00 on 2000-10-29 has the offset +02:00",
    );
    refused(
        "2000-10-29",
        "03:15+02:00",
        1,
        "03:15 on 2000-10-29 has the offset +01:00",
    );
    refused(
        "2000-03-26",
        "03:15+01:00",
        1,
        "03:15 on 2000-03-26 has the offset +02:00",
    );
    refused(
        "2000-07-01",
        "12:00+01:00",
        1,
        "12:00 on 2000-07-01 has the offset +02:00",
    );
    refused(
        "2000-07-01",
        "12:00+03:00",
        2,
        "the offset is +01:00 or +02:00",
    );
    refused("2000-07-01", "00:00", 2, "explain: TIME: \"00:00\": a label is a quarter hour's end; the day's last is 24:00, its first 00:15");
    refused(
        "2000-07-01",
        "02:20",
        2,
        "explain: TIME: \"02:20\" is no end of a quarter hour",
    );
    refused(
        "2000-07-01",
        "25:00",
        2,
        "explain: TIME: \"25:00\" is no time: 00:15 to 24:00",
    );
    refused(
        "2000-02-30",
        "12:00",
        1,
        "2000-02-30 does not exist: February 2000 has 29 days (question 7, place 0)",
    );
    refused(
        "2000-Q1",
        "12:00",
        2,
        "explain: DATE: \"2000-Q1\" is no date",
    );
}
