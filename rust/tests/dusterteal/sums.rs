//! `sums`: each row against the lines of `series`, which are held to the independent implementation elsewhere.
use crate::expected::{expect_text, Source};
use crate::tool::{folder, stopped, written};

/// A row: its name, and what its lines add up to.
struct Sum {
    name: String,
    days: usize,
    values: usize,
    energy: u64,
}

/// The name of a date's row.
type NameOf = fn(&str) -> String;

/// The rows of a series, by the name that each date has in them, and the total.
fn sums(series: &str, name_of: NameOf) -> Vec<Sum> {
    let mut sums: Vec<Sum> = Vec::new();
    let mut total = Sum::new("total");
    let mut latest = "";
    for line in series.lines().skip(1) {
        let fields: Vec<&str> = line.split(';').collect();
        let date = fields[0];
        let energy: u64 = fields[3].parse().expect("a figure");
        let name = name_of(date);
        if sums.last().is_none_or(|sum| sum.name != name) {
            sums.push(Sum::new(&name));
        }
        let last = sums.len() - 1;
        for sum in [&mut sums[last], &mut total] {
            sum.days += usize::from(date != latest);
            sum.values += 1;
            sum.energy += energy;
        }
        latest = date;
    }
    sums.push(total);
    sums
}

impl Sum {
    fn new(name: &str) -> Sum {
        Sum {
            name: name.to_owned(),
            days: 0,
            values: 0,
            energy: 0,
        }
    }
}

/// The CSV of rows, the energy written by `put`.
fn csv(sums: &[Sum], unit: &str, put: fn(u64) -> String) -> String {
    let mut text = format!("period;days;values;{unit}\n");
    for sum in sums {
        text += &format!(
            "{};{};{};{}\n",
            sum.name,
            sum.days,
            sum.values,
            put(sum.energy)
        );
    }
    text
}

fn month(date: &str) -> String {
    date[..7].to_owned()
}

fn quarter(date: &str) -> String {
    let month: u32 = date[5..7].parse().expect("a month");
    format!("{}-Q{}", &date[..4], month.div_ceil(3))
}

fn year(date: &str) -> String {
    date[..4].to_owned()
}

/// What `series` and `sums` write for the same arguments, the latter with some more.
fn both(source: &Source, words: &[&str], more: &[&str]) -> [String; 2] {
    let [mut series, mut sums] = [vec!["series"], vec!["sums"]];
    series.extend(words);
    sums.extend([words, more].concat());
    [series, sums].map(|words| {
        let options = ["--profiles", &source.profiles, "--holidays", "none"];
        written(&[words, options.into()].concat())
    })
}

#[test]
fn rows_add_up_the_lines_of_the_series() {
    let source = Source::usual(&folder("sums_rows"));
    let rows: [(&[&str], NameOf); 5] = [
        (&["--by", "day"], str::to_owned),
        (&["--by", "month"], month),
        (&[], month),
        (&["--by", "quarter"], quarter),
        (&["--by", "year"], year),
    ];
    for (by, name_of) in rows {
        for words in [
            &["H0", "2000", "3500"][..],
            &["G0", "2000-01-15..2002-02-14", "3500"],
            &["L2", "2000-10-29", "1000000000", "--carry", "39999"],
            &[
                "H0",
                "2000-Q2",
                "3500",
                "--since",
                "1999-12-01",
                "--carry",
                "1",
            ],
        ] {
            let [series, found] = both(&source, words, by);
            let expected = csv(&sums(&series, name_of), "Wh", |energy| energy.to_string());
            expect_text(&found, &expected, (by, words));
        }
    }
}

#[test]
fn the_rows_of_a_year_in_parts() {
    let source = Source::usual(&folder("sums_names"));
    let names = |period, by| {
        let words = [
            "sums",
            "G0",
            period,
            "3500",
            "--by",
            by,
            "--holidays",
            "none",
        ];
        let text = written(&[&words[..], &["--profiles", &source.profiles]].concat());
        let name = |line: &str| line.rsplit_once(';').expect("fields").0.to_owned();
        text.lines().map(name).collect::<Vec<_>>()
    };
    assert_eq!(
        names("2000-03-20..2000-04-02", "month"),
        [
            "period;days;values",
            "2000-03;12;1148",
            "2000-04;2;192",
            "total;14;1340"
        ]
    );
    assert_eq!(
        names("2000-10-29..2001-01-01", "quarter"),
        [
            "period;days;values",
            "2000-Q4;64;6148",
            "2001-Q1;1;96",
            "total;65;6244"
        ]
    );
    assert_eq!(
        names("1999..2000", "year"),
        [
            "period;days;values",
            "1999;365;35040",
            "2000;366;35136",
            "total;731;70176"
        ]
    );
}

#[test]
fn energy_is_written_in_watt_hours_or_exactly_in_kilowatt_hours() {
    let source = Source::usual(&folder("sums_units"));
    let words = ["H0", "2000", "3500"];
    let expect = |options: &[&str], unit: &str, put: fn(u64) -> String| {
        let [series, found] = both(&source, &words, options);
        expect_text(&found, &csv(&sums(&series, month), unit, put), options);
    };
    expect(&["--unit", "Wh"], "Wh", |energy| energy.to_string());
    expect(&["--unit", "Wh", "--decimal", "point"], "Wh", |energy| {
        energy.to_string()
    });
    expect(&["--unit", "kWh"], "kWh", with_comma);
    expect(&["--unit=KWH", "--decimal=comma"], "kWh", with_comma);
    expect(&["--unit", "kWh", "--decimal", "point"], "kWh", with_point);
}

fn with_comma(energy: u64) -> String {
    format!("{},{:03}", energy / 1_000, energy % 1_000)
}

fn with_point(energy: u64) -> String {
    with_comma(energy).replace(',', ".")
}

/// Power does not add up to a month's.
#[test]
fn kilowatts_and_weeks_are_not_understood() {
    let source = Source::usual(&folder("sums_refused"));
    let words = source.command(&["sums", "H0", "2000", "3500"]);
    let expect = |options: &[&str], said: &str| {
        stopped(
            &[&words, options].concat(),
            2,
            &[said, "See `dusterteal sums --help`."],
        );
    };
    expect(&["--unit", "kW"], "sums: --unit: \"kW\" is none of Wh, kWh");
    expect(
        &["--by", "week"],
        "sums: --by: \"week\" is none of day, month, quarter, year",
    );
    expect(
        &["--decimal", ";"],
        "sums: --decimal: \";\" is neither \"comma\" nor \"point\"",
    );
    expect(&["--wide"], "sums: \"--wide\" is no option");
}
