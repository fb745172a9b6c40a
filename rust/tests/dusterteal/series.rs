//! `series`: every label and every figure, in each form that it can be asked for and written in.
use crate::draw::Draw;
use crate::drawn::{self, on_two_threads};
use crate::expected::{
    borrowed, dashed, day_of, expect_text, quarter_hours, until, Run, Source, DAY_TYPES, GROUPS,
    QUARTERS, SEASONS, WEEKDAYS,
};
use crate::profile_file;
use crate::tool::{self, folder, run_with, warned, written};

const REQUESTS: usize = 240;

/// The lines of a day without its date and the figure: until and offset.
fn labels(source: &Source, day: &str) -> Vec<String> {
    let text = written(&source.command(&["series", "G0", day, "3500"]));
    let (header, lines) = text.split_once('\n').expect("a header");
    assert_eq!(header, "date;until;offset;Wh");
    assert!(text.ends_with('\n') && !text.contains('\r'));
    let label = |line: &str| {
        let fields: Vec<&str> = line.split(';').collect();
        assert_eq!((fields.len(), fields[0]), (4, day), "{line}");
        format!("{} {}", fields[1], fields[2])
    };
    lines.lines().map(label).collect()
}

/// The labels from one position to another, both included, with an offset.
fn with_offset(first: usize, last: usize, offset: &str) -> Vec<String> {
    let label = |position| format!("{} {offset}", until(position));
    (first..=last).map(label).collect()
}

#[test]
fn an_ordinary_day_has_96_labels_with_its_seasons_offset() {
    let source = Source::usual(&folder("series_ordinary"));
    let winter = labels(&source, "2000-03-25");
    assert_eq!(winter.len(), 96);
    assert_eq!(winter[..2], ["00:15 +01:00", "00:30 +01:00"]);
    assert_eq!(winter[94..], ["23:45 +01:00", "24:00 +01:00"]);
    assert_eq!(winter, with_offset(0, 95, "+01:00"));
    assert_eq!(labels(&source, "2000-10-30"), with_offset(0, 95, "+01:00"));
    for day in ["2000-03-27", "2000-07-01", "2000-10-28"] {
        assert_eq!(labels(&source, day), with_offset(0, 95, "+02:00"), "{day}");
    }
}

#[test]
fn the_last_sunday_of_march_goes_from_two_to_a_quarter_past_three() {
    let found = labels(&Source::usual(&folder("series_march")), "2000-03-26");
    assert_eq!(found.len(), 92);
    assert_eq!(found[7..9], ["02:00 +01:00", "03:15 +02:00"]);
    let before = with_offset(0, 7, "+01:00");
    assert_eq!(found, [before, with_offset(12, 95, "+02:00")].concat());
}

#[test]
fn the_last_sunday_of_october_has_two_hours_from_two_to_three() {
    let found = labels(&Source::usual(&folder("series_october")), "2000-10-29");
    assert_eq!(found.len(), 100);
    assert_eq!(
        found[7..17],
        [
            "02:00 +02:00",
            "02:15 +02:00",
            "02:30 +02:00",
            "02:45 +02:00",
            "03:00 +02:00",
            "02:15 +01:00",
            "02:30 +01:00",
            "02:45 +01:00",
            "03:00 +01:00",
            "03:15 +01:00",
        ]
    );
    let before = with_offset(0, 11, "+02:00");
    assert_eq!(found, [before, with_offset(8, 95, "+01:00")].concat());
}

/// The minutes from the span's beginning to the end of a line's quarter hour, in UTC.
fn instant(line: &str) -> i64 {
    let fields: Vec<&str> = line.split(';').collect();
    let number = |text: &str| text.parse::<i64>().expect("a number");
    let minutes = |text: &str| number(&text[..2]) * 60 + number(&text[3..5]);
    let date: u32 = fields[0].replace('-', "").parse().expect("a date");
    let midnight = i64::from(day_of(date).number) * 24 * 60;
    midnight + minutes(fields[1]) - minutes(fields[2].strip_prefix('+').expect("east of UTC"))
}

/// A label has one instant, so labels whose instants rise are distinct.
#[test]
fn each_line_lies_a_quarter_hour_after_the_one_before() {
    let source = Source::usual(&folder("series_instants"));
    for (first, last) in [("1996", "1999"), ("2000", "2000"), ("2096", "2099")] {
        let years = format!("{first}..{last}");
        let text = warned(&source.command(&["series", "G0", &years, "3500"]), &[]);
        let lines: Vec<&str> = text.lines().skip(1).collect();
        assert!(lines[0].starts_with(&format!("{first}-01-01;00:15;+01:00;")));
        assert!(lines[lines.len() - 1].starts_with(&format!("{last}-12-31;24:00;+01:00;")));
        let instants: Vec<i64> = lines.iter().map(|line| instant(line)).collect();
        let jumps = |pair: &[i64]| pair[1] - pair[0] != 15;
        let jump = instants.windows(2).position(jumps).map(|at| lines[at + 1]);
        assert_eq!(jump, None);
    }
}

#[test]
fn the_figures_of_a_year_are_those_of_the_independent_implementation() {
    let source = Source::usual(&folder("series_years"));
    for (group, name) in [(0, "H0"), (1, "G0"), (10, "L2")] {
        let text = written(&source.command(&["series", name, "2000", "3500"]));
        assert_eq!(text.lines().count(), 1 + 35_136);
        expect_text(
            &text,
            &source.run(group, 20_000_101, 20_001_231).csv(),
            name,
        );
    }
}

#[test]
fn the_figures_of_random_runs_are_those_of_the_independent_implementation() {
    let folder = folder("series_random");
    let seeds: Vec<usize> = (0..REQUESTS).collect();
    on_two_threads(&seeds, |seed| {
        let draw = &mut Draw::new(*seed as u64);
        let period = drawn::period(draw);
        let source = drawn::source(draw, &folder, &seed.to_string(), period.0);
        let run = drawn::handed_on(draw, &source, period);
        let text = warned(&borrowed(&run.words("series")), &[]);
        expect_text(&text, &run.csv(), (seed, run.words("series")));
    });
}

#[test]
fn every_group_has_its_own_figures() {
    let folder = folder("series_groups");
    let codes: Vec<u8> = (0..=10).collect();
    let values: Vec<u16> = (0..864 * 11).map(|i| (i % 20_001) as u16).collect();
    let file = profile_file::of(&codes, &values);
    let source = Source::new(&folder, "all", file, vec![20_000_612]);
    for (code, name) in codes.into_iter().zip(GROUPS) {
        let run = source.run(code, 20_000_609, 20_000_613);
        let period = "2000-06-09..2000-06-13";
        for name in [name.to_owned(), name.to_lowercase()] {
            let text = warned(&source.command(&["series", &name, period, "3500"]), &[]);
            expect_text(&text, &run.csv(), &name);
        }
    }
}

/// The last field of each line.
fn amounts(text: &str) -> Vec<&str> {
    let last = |line| str::rsplit(line, ';').next().expect("a field");
    text.lines().map(last).collect()
}

/// Thousandths as a decimal text.
fn thousandths(number: u64, mark: char) -> String {
    format!("{}{mark}{:03}", number / 1_000, number % 1_000)
}

#[test]
fn units_and_decimals_change_the_last_field_alone() {
    let source = Source::usual(&folder("series_units"));
    let series = |options: &[&str]| {
        let words = source.command(&["series", "H0", "2000-10", "123456789"]);
        written(&[&words, options].concat())
    };
    let watt_hours = series(&[]);
    assert_eq!(series(&["--unit", "Wh", "--decimal", "point"]), watt_hours);
    let figures: Vec<u64> = amounts(&watt_hours)[1..]
        .iter()
        .map(|figure| figure.parse().expect("a whole number"))
        .collect();
    for (unit, name, times) in [("kWh", "kWh", 1), ("kwh", "kWh", 1), ("kW", "kW", 4)] {
        for (options, mark) in [
            (&["--unit", unit][..], ','),
            (&["--unit", unit, "--decimal", "comma"], ','),
            (&["--unit", unit, "--decimal", "point"], '.'),
        ] {
            let mut expected = format!("date;until;offset;{name}\n");
            for (line, figure) in watt_hours.lines().skip(1).zip(&figures) {
                let label = line.rsplit_once(';').expect("fields").0;
                expected += &format!("{label};{}\n", thousandths(times * figure, mark));
            }
            expect_text(&series(options), &expected, options);
        }
    }
}

/// The columns of quarter hours in the wide form: the position, and whether it is October's second.
fn columns() -> Vec<(usize, bool)> {
    let all = (0..12).map(|i| (i, false));
    let again = (8..12).map(|i| (i, true));
    all.chain(again)
        .chain((12..QUARTERS).map(|i| (i, false)))
        .collect()
}

#[test]
fn wide_has_a_line_for_each_day_and_a_column_for_each_quarter_hour() {
    let source = Source::usual(&folder("series_wide"));
    let words = source.command(&["series", "H0", "2000", "3500", "--wide"]);
    let (text, run) = (written(&words), source.run(0, 20_000_101, 20_001_231));
    let mut expected = String::from("t;date;weekday;profile day;unit");
    for (position, again) in columns() {
        expected += &format!(";{}{}", until(position), if again { " again" } else { "" });
    }
    expected.push('\n');
    assert_eq!(expected.split(';').count(), 5 + 100);
    let (figures, _) = run.figures();
    let mut figures = figures.iter();
    for day in run.days() {
        let weekday = WEEKDAYS[day.weekday as usize - 1];
        let season = SEASONS[day.season() as usize];
        let kind = DAY_TYPES[day.day_type(&source.holidays) as usize];
        let date = dashed(day.date());
        expected += &format!("{};{date};{weekday};{season} {kind};Wh", day.t);
        let mut count = [0; QUARTERS];
        quarter_hours(day)
            .iter()
            .for_each(|quarter| count[quarter.position] += 1);
        for (position, again) in columns() {
            let has = count[position] > usize::from(again);
            let figure = has.then(|| figures.next().expect("a figure").to_string());
            expected += &format!(";{}", figure.unwrap_or_default());
        }
        expected.push('\n');
    }
    expect_text(&text, &expected, "wide");
}

/// Rows of source document 000's Abb. 4, and of both clock changes.
#[test]
fn wide_names_days_as_the_paper_does() {
    let source = Source::usual(&folder("series_paper"));
    let row = |day: &str, beginning: &str, empty: usize| {
        let words = source.command(&["series", "G0", day, "3500", "--wide", "--unit", "kW"]);
        let text = written(&words);
        let line = text.lines().nth(1).expect("a day");
        assert!(line.starts_with(beginning), "{line}");
        assert_eq!(line.split(';').count(), 105);
        assert_eq!(
            line.split(';').filter(|field| field.is_empty()).count(),
            empty
        );
    };
    row("2000-01-01", "1;2000-01-01;Saturday;winter Sunday;kW;", 4);
    row("2000-01-07", "7;2000-01-07;Friday;winter weekday;kW;", 4);
    row("2000-06-12", "164;2000-06-12;Monday;summer Sunday;kW;", 4);
    row(
        "2000-06-17",
        "169;2000-06-17;Saturday;summer Saturday;kW;",
        4,
    );
    row(
        "2000-03-26",
        "86;2000-03-26;Sunday;transition Sunday;kW;",
        8,
    );
    row(
        "2000-10-29",
        "303;2000-10-29;Sunday;transition Sunday;kW;",
        0,
    );
}

#[test]
fn a_period_has_many_forms() {
    let source = Source::usual(&folder("series_periods"));
    let series = |period: &str| written(&source.command(&["series", "G0", period, "3500"]));
    for (forms, first, last) in [
        (
            &["2000", "2000-01..2000-12", "2000-Q1..2000-Q4"][..],
            101,
            1231,
        ),
        (&["2000-Q1", "2000-q1", "2000-01-01..31.3.2000"], 101, 331),
        (&["2000-Q2", "2000-04..2000-06"], 401, 630),
        (&["2000-Q3"], 701, 930),
        (&["2000-Q4", "1.10.2000..31.12.2000"], 1001, 1231),
        (&["2000-02"], 201, 229),
        (&["2000-03-26", "26.03.2000", "26.3.2000"], 326, 326),
        (
            &["2000-01-15..2000-02-14", "15.01.2000..14.02.2000"],
            115,
            214,
        ),
        (&["2000-11..2000-12-24"], 1101, 1224),
    ] {
        let expected = source.run(1, 20_000_000 + first, 20_000_000 + last).csv();
        for form in forms {
            expect_text(&series(form), &expected, form);
        }
    }
}

#[test]
fn profiles_are_a_profile_file_or_tables_by_path_or_from_standard_input() {
    let folder = folder("series_profiles");
    let source = Source::usual(&folder);
    let expected = source.run(1, 20_000_301, 20_000_331).csv();
    let table = |group: &str| {
        let path = tool::text(&folder.join(format!("{group}.csv")));
        assert_eq!(
            written(&["unpack", &source.profiles, group, "-o", &path]),
            ""
        );
        path
    };
    let (h0, g0, l2) = (table("H0"), table("G0"), table("L2"));
    let series = |profiles: &[&str], input: &[u8]| {
        let words = [
            "series",
            "G0",
            "2000-03",
            "3500",
            "--holidays",
            &source.list,
        ];
        let outcome = run_with(&[&words, profiles].concat(), input);
        assert_eq!((outcome.status, outcome.said.as_str()), (0, ""));
        let text = String::from_utf8(outcome.written).expect("text");
        expect_text(&text, &expected, profiles);
    };
    let content = std::fs::read(&g0).expect("the table");
    series(&["--profiles", &source.profiles], b"");
    series(&["--profiles", &g0], b"");
    series(&["--profiles", &l2, &g0, &h0], b"");
    series(&["--profiles", &g0, "--profiles", &l2], b"");
    series(&["--profiles", "-"], &source.file);
    series(&["--profiles", "-"], &content);
    series(&["--profiles", &h0, "-"], &content);
}

#[test]
fn words_and_options_stand_in_any_order() {
    let folder = folder("series_order");
    let source = Source::usual(&folder);
    let run = source.run(0, 20_000_401, 20_000_630);
    let expected = Run {
        since: Some(20_000_101),
        carry: 7,
        ..run
    }
    .csv();
    for line in [
        "series H0 2000-Q2 3500 --profiles FILE --holidays LIST --since 2000-01-01 --carry 7",
        "series --profiles FILE H0 2000-Q2 3500 --carry 7 --holidays LIST --since 1.1.2000",
        "series --since=2000-01-01 --carry=7 --profiles=FILE H0 --holidays=LIST 2000-Q2 3500 --unit=Wh",
        "series H0 --carry 07 2000-Q2 --holidays LIST 3500 --since 2000-01-01 --profiles FILE",
        "series --profiles=FILE --holidays=LIST --carry=7 --since=01.01.2000 --output=- -- H0 2000-Q2 3500",
    ] {
        let paths = |word: &str| word.replace("FILE", &source.profiles).replace("LIST", &source.list);
        let words: Vec<String> = line.split(' ').map(paths).collect();
        expect_text(&written(&borrowed(&words)), &expected, line);
    }
    let path = tool::text(&folder.join("series.csv"));
    let words = source.command(&["series", "-o", &path, "H0", "2000-Q2", "3500"]);
    assert_eq!(written(&words), "");
    let text = std::fs::read_to_string(&path).expect("the output");
    expect_text(&text, &run.csv(), "-o");
}
