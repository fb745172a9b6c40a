//! `explain`: how one figure comes about. The figure is worked out here step by step, and held to the proved call's.
use std::ffi::OsString;

use slp::{Day, Group};

use crate::amounts::{Decimal, DECIMAL};
use crate::arguments::{self, Grammar};
use crate::clock::{self, Time};
use crate::date::{Date, Period};
use crate::failure::{warn, Failure};
use crate::files::{Made, Output};
use crate::names;
use crate::quarter_hours::{self, Offset};
use crate::run::{
    self, Run, SaidPeriod, Series, Words, Yearly, CARRY, HOLIDAYS, OUTPUT, PROFILES, SINCE,
};
use crate::text::quoted;

/// What it takes.
pub const GRAMMAR: Grammar = Grammar {
    name: "explain",
    words: &["GROUP", "DATE", "TIME", "KWH"],
    least: 4,
    many: false,
    choices: &[PROFILES, HOLIDAYS, SINCE, CARRY, DECIMAL, OUTPUT],
};

/// The carry's units in a Wh.
const CARRY_UNITS: u64 = 40_000;

/// The section of document 01 that most lines of the figure cite.
const SERIES: &str = "01 Series and carry";

/// X of households, as document 01 writes it.
const POLYNOMIAL: &str = "-392 t^4 + 320000 t^3 - 70200000 t^2 + 2100000000 t + 1240000000000";

/// Makes the explanation.
pub fn make(given: &[OsString]) -> Result<Made, Failure> {
    let arguments = arguments::parse(&GRAMMAR, given)?;
    let word = |index| arguments.word(index).unwrap_or_default();
    let group = run::group(&GRAMMAR, &word(0))?;
    let date = run::date(&GRAMMAR, "DATE", &word(1))?;
    let label = Label::parse(&word(2))?;
    let words = Words {
        group,
        period: Period::day(date),
        said: SaidPeriod::word(format!("DATE {}", word(1))),
        yearly: Yearly::parse(&GRAMMAR, word(3))?,
    };
    let decimal = Decimal::of(&GRAMMAR, &arguments)?;
    let run = Run::of(&GRAMMAR, words, &arguments)?;
    if !arguments.has("--since") {
        warn(&format!(
            "the run is taken to begin on {date}; a series that began earlier may have 1 Wh more or less here: say --since with \
             its first day"
        ));
    }
    let day = run.day(date)?;
    let wanted = label.find(date, &day)?;
    let values = run.profiles.values(run.group)?;
    let basis = Basis {
        group: run.group,
        t: day.t,
        table: &values[clock::QUARTERS * names::table_index(&day)..][..clock::QUARTERS],
        yearly: run.yearly,
        labels: quarter_hours::labels(date, &day),
    };
    let explained = Explained {
        steps: Steps::of(&basis, &run.series()?)?,
        run: &run,
        day,
        wanted,
        decimal,
    };
    let text = explained.text()?;
    Ok(Made::of(Output::text(arguments.target(), text), run.read()))
}

/// The label of a quarter hour, as the CSV has it: the time of its end, and perhaps the offset.
#[derive(Debug, PartialEq, Eq)]
struct Label {
    position: usize,
    offset: Option<Offset>,
}

impl Label {
    fn parse(text: &str) -> Result<Label, Failure> {
        let (time, offset) = match text.split_once('+') {
            Some((time, offset)) => (time.trim_end_matches([' ', ';']), Some(offset)),
            None => (text, None),
        };
        let fault = |what: String| GRAMMAR.fault(&format!("TIME: {what}"));
        let offset = match offset {
            None => None,
            Some("01:00") => Some(Offset::Winter),
            Some("02:00") => Some(Offset::Summer),
            Some(_) => {
                return Err(fault(format!(
                    "{}: the offset is +01:00 or +02:00",
                    quoted(text)
                )))
            }
        };
        match clock::parse(time) {
            Some(Time::Ends(position)) => Ok(Label { position, offset }),
            Some(Time::Midnight) => Err(fault(format!(
                "{}: a label is a quarter hour's end; the day's last is 24:00, its first 00:15",
                quoted(text)
            ))),
            Some(Time::NoQuarter) => Err(fault(format!(
                "{} is no end of a quarter hour, which are 00:15, 00:30 and so on to 24:00",
                quoted(text)
            ))),
            None => Err(fault(format!(
                "{} is no time: 00:15 to 24:00",
                quoted(text)
            ))),
        }
    }

    /// Which of the day's quarter hours has this label.
    fn find(&self, date: Date, day: &Day) -> Result<usize, Failure> {
        let time = clock::label(self.position);
        let labels = quarter_hours::labels(date, day);
        let named = labels
            .iter()
            .enumerate()
            .filter(|(_, label)| label.0 == self.position);
        let named: Vec<(usize, Offset)> = named.map(|(index, label)| (index, label.1)).collect();
        let refused = |what: String| Err(Failure::Refused(what));
        match (&named[..], self.offset) {
            ([], _) => refused(format!(
                "{time} does not exist on {date}: the clocks go from 02:00 to 03:00, and 02:00 is followed by 03:15"
            )),
            ([(index, _)], None) => Ok(*index),
            ([_, _, ..], None) => refused(format!(
                "{time} stands twice on {date}: say {time}+02:00 for the first or {time}+01:00 for the second"
            )),
            (named, Some(offset)) => match named.iter().find(|(_, known)| *known == offset) {
                Some((index, _)) => Ok(*index),
                None => refused(format!("{time} on {date} has the offset {}", named[0].1.text())),
            },
        }
    }
}

/// A quarter hour's way from the profile to the figure.
#[derive(Debug, Clone, Copy, PartialEq, Eq)]
struct Step {
    position: usize,
    offset: Offset,
    /// P, in tenths of a watt.
    value: u16,
    /// Q, in tenths of a watt.
    power: u64,
    carry: u64,
    figure: u64,
    carry_on: u64,
}

/// What a day's steps are worked out from.
struct Basis<'a> {
    group: Group,
    t: u32,
    /// The day's 96 values.
    table: &'a [u16],
    yearly: u32,
    /// The position and the offset of each of the day's quarter hours.
    labels: Vec<(usize, Offset)>,
}

/// A day's quarter hours, and what they have in common.
#[derive(Debug, PartialEq, Eq)]
struct Steps {
    /// X, in units of 10^-12.
    unrounded: i64,
    /// F, in units of 10^-4.
    factor: i64,
    steps: Vec<Step>,
}

impl Steps {
    /// The steps of a day that begins with the carry of the proved call. Figures and last carry must be the proved call's too: a
    /// difference is a fault.
    fn of(basis: &Basis, series: &Series) -> Result<Steps, Failure> {
        let unrounded = unrounded_factor(basis.group, basis.t);
        let factor = (unrounded + 50_000_000) / 100_000_000;
        let mut carry = u64::from(series.carry_before);
        let mut steps = Vec::new();
        for &(position, offset) in &basis.labels {
            let value = basis.table[position];
            let power = (u64::from(value) * factor as u64 + 5_000) / 10_000;
            let sum = power * u64::from(basis.yearly) + carry;
            steps.push(Step {
                position,
                offset,
                value,
                power,
                carry,
                figure: sum / CARRY_UNITS,
                carry_on: sum % CARRY_UNITS,
            });
            carry = sum % CARRY_UNITS;
        }
        let figures = steps.iter().map(|step| step.figure);
        let same = figures.eq(series.figures.iter().map(|&figure| u64::from(figure)));
        if !same || carry != u64::from(series.made.carry) {
            let what =
                "fault of this tool: its own figures of the day are not those of the proved call; do not use them";
            return Err(Failure::Refused(what.to_owned()));
        }
        Ok(Steps {
            unrounded,
            factor,
            steps,
        })
    }
}

/// A quarter hour of a run that is explained.
struct Explained<'a> {
    run: &'a Run,
    day: Day,
    steps: Steps,
    /// Which of the day's quarter hours it is.
    wanted: usize,
    decimal: Decimal,
}

impl Explained<'_> {
    fn step(&self) -> &Step {
        &self.steps.steps[self.wanted]
    }

    fn label(&self) -> String {
        let step = self.step();
        format!("{} {}", clock::label(step.position), step.offset.text())
    }

    fn text(&self) -> Result<String, Failure> {
        let Run {
            group,
            yearly,
            period,
            ..
        } = self.run;
        let mut lines = self.value_lines()?;
        lines.extend(self.power_lines());
        lines.extend(self.figure_lines());
        let title = format!(
            "{group}, {}, the quarter hour until {}, {yearly} kWh a year: {} Wh\n\n",
            period.first,
            self.label(),
            self.step().figure
        );
        Ok(title + &aligned(&lines))
    }

    /// Tenths of a watt as text.
    fn watts(&self, number: u64) -> String {
        format!("{} W", self.decimal.text(number, 1))
    }

    /// From the date to the profile's value.
    fn value_lines(&self) -> Result<Vec<Line>, Failure> {
        let (run, day, step) = (self.run, &self.day, self.step());
        let date = run.period.first;
        let why = names::why(date, day, &run.holidays)?;
        let source = format!("of {} in {}", run.group, run.profiles.source_of(run.group));
        let (number, count, position) = (self.wanted + 1, day.value_count, step.position);
        let place =
            format!("number {number} of the day's {count}; position {position}, counted from 0");
        let how = "the table's value, for 1000 kWh a year";
        let season = names::season(day.season);
        Ok(vec![
            line("date", date.to_string(), names::weekday(day), "000 step 4"),
            line(
                "season",
                season,
                names::season_days(day.season),
                "000 step 2",
            ),
            line(
                "day type",
                names::day_type(day.day_type),
                &why,
                "000 step 4; 01 Calendar; 02 (b)",
            ),
            line("table", names::profile_day(day), &source, "000 step 2"),
            line("until", self.label(), &place, "000 step 4; 01 Calendar"),
            line(
                "P",
                self.watts(step.value.into()),
                how,
                "000 step 2; 01 The profile file",
            ),
        ])
    }

    /// From the day of the year to the power.
    fn power_lines(&self) -> Vec<Line> {
        let (x, step) = match self.run.group {
            Group::H0 => (POLYNOMIAL, "000 step 4b; 01 Dynamisation"),
            _ => (
                "1: only households, H0, have a dynamisation",
                "000 step 4a; 01 Dynamisation",
            ),
        };
        let (t, power) = (format!("day {}", self.day.t), self.watts(self.step().power));
        let Steps {
            unrounded, factor, ..
        } = self.steps;
        let factor = self.decimal.text(factor as u64, 4);
        vec![
            line(
                "t",
                t,
                "counted from 1 January of the year",
                "000 step 4; 01 Calendar",
            ),
            line("X", format!("{unrounded} / 10^12"), x, step),
            line("F", factor, "X rounded half up to four decimals", step),
            line(
                "Q",
                power,
                "P × F rounded half up to tenths of a watt",
                step,
            ),
        ]
    }

    /// From the power to the figure.
    fn figure_lines(&self) -> Vec<Line> {
        let Step {
            power,
            carry,
            figure,
            carry_on,
            ..
        } = *self.step();
        let Run {
            yearly,
            since,
            carry: begin,
            ..
        } = self.run;
        let sum = power * u64::from(*yearly) + carry;
        let run = format!("what is left of the run, which begins on {since} with {begin}");
        let division = format!(
            "{power} (Q in tenths of a watt) × {yearly} + {carry} = {figure} × 40000 + {carry_on}"
        );
        let quotient = "the quotient, the same as the proved call's";
        let parts = |carry| format!("{carry} / 40000 Wh");
        vec![
            line(
                "A",
                format!("{yearly} kWh"),
                "the yearly use",
                "000 step 5; 01 Series and carry",
            ),
            line(
                "carry in",
                parts(carry),
                &run,
                "01 Series and carry; 000 step 6",
            ),
            line("division", parts(sum), &division, SERIES),
            line("figure", format!("{figure} Wh"), quotient, SERIES),
            line(
                "carry on",
                parts(carry_on),
                "the remainder, for the next quarter hour",
                SERIES,
            ),
        ]
    }
}

/// X of a group on day t, document 01, "Dynamisation".
fn unrounded_factor(group: Group, t: u32) -> i64 {
    if group != Group::H0 {
        return 1_000_000_000_000;
    }
    let t = i64::from(t);
    -392 * t.pow(4) + 320_000 * t.pow(3) - 70_200_000 * t.pow(2)
        + 2_100_000_000 * t
        + 1_240_000_000_000
}

/// Name, value with unit, how it comes about, and the paper's place.
type Line = [String; 4];

fn line(name: &str, value: impl Into<String>, how: &str, source: &str) -> Line {
    [
        name.to_owned(),
        value.into(),
        how.to_owned(),
        source.to_owned(),
    ]
}

/// Lines in columns, two spaces apart.
fn aligned(lines: &[Line]) -> String {
    let width = |column: usize| {
        lines
            .iter()
            .map(|line| line[column].chars().count())
            .max()
            .unwrap_or(0)
    };
    let (names, values, hows) = (width(0), width(1), width(2));
    let text = |[name, value, how, source]: &Line| {
        format!("{name:<names$}  {value:<values$}  {how:<hows$}  {source}\n")
    };
    lines.iter().map(text).collect()
}

#[cfg(test)]
mod tests {
    use super::*;

    fn label(text: &str) -> Result<Label, Failure> {
        Label::parse(text)
    }

    #[test]
    fn a_label_is_a_time_and_perhaps_an_offset() {
        let of = |position, offset| Ok(Label { position, offset });
        assert_eq!(label("00:15"), of(0, None));
        assert_eq!(label("24:00"), of(95, None));
        assert_eq!(label("2:15+02:00"), of(8, Some(Offset::Summer)));
        assert_eq!(label("02:15 +01:00"), of(8, Some(Offset::Winter)));
        assert_eq!(label("02:15;+01:00"), of(8, Some(Offset::Winter)));
        for (text, what) in [
            ("00:00", "the day's last is 24:00"),
            ("02:20", "is no end of a quarter hour"),
            ("25:00", "is no time"),
            ("", "is no time"),
            ("02:15+03:00", "the offset is +01:00 or +02:00"),
        ] {
            let fault = label(text).unwrap_err().to_string();
            assert!(fault.contains(what), "{text:?}: {fault}");
        }
    }

    fn found(text: &str, date: u32) -> Result<usize, String> {
        let day = slp::day(date, &[]).unwrap();
        let label = label(text).unwrap();
        label
            .find(Date(date), &day)
            .map_err(|failure| failure.to_string())
    }

    #[test]
    fn clock_changes_leave_out_and_repeat_labels() {
        assert_eq!(found("02:00", 20_000_326), Ok(7));
        assert_eq!(found("03:15", 20_000_326), Ok(8));
        assert!(found("02:15", 20_000_326)
            .unwrap_err()
            .starts_with("02:15 does not exist on 2000-03-26"));
        assert!(found("03:00+02:00", 20_000_326)
            .unwrap_err()
            .starts_with("03:00 does not exist"));
        assert_eq!(found("02:15+02:00", 20_001_029), Ok(8));
        assert_eq!(found("02:15+01:00", 20_001_029), Ok(12));
        assert!(found("02:15", 20_001_029)
            .unwrap_err()
            .starts_with("02:15 stands twice on 2000-10-29"));
        assert_eq!(found("03:15", 20_001_029), Ok(16));
        assert_eq!(found("02:15+01:00", 20_000_325), Ok(8));
        assert_eq!(
            found("02:15+02:00", 20_000_325),
            Err("02:15 on 2000-03-25 has the offset +01:00".into())
        );
    }

    /// An ordinary day of G0 with 100.1 W throughout and 1,000 kWh, and what the proved call gives for it.
    fn day() -> (Basis<'static>, Series) {
        let mut file = [0; slp::file_length(1)];
        slp::write(&[Group::G0], &[1001; slp::GROUP_VALUES], &mut file).unwrap();
        let request = slp::Request {
            file: &file,
            group: Group::G0,
            first: 20_000_103,
            last: 20_000_103,
            holidays: &[],
            yearly: 1000,
            carry: 39_999,
        };
        let mut figures = vec![0; 96];
        let made = slp::expand(&request, &mut figures).unwrap();
        let basis = Basis {
            group: Group::G0,
            t: 3,
            table: &[1001; clock::QUARTERS],
            yearly: 1000,
            labels: (0..clock::QUARTERS)
                .map(|position| (position, Offset::Winter))
                .collect(),
        };
        (
            basis,
            Series {
                figures,
                made,
                carry_before: 39_999,
            },
        )
    }

    /// The first step is document 01's marked one.
    #[test]
    fn a_figure_that_differs_from_the_proved_call_is_a_fault() {
        let (basis, series) = day();
        let first = Steps::of(&basis, &series).unwrap().steps[0];
        assert_eq!((first.figure, first.carry_on), (26, 999));

        let (mut figure, mut carry, mut count) = (day().1, day().1, day().1);
        figure.figures[95] += 1;
        carry.made.carry += 1;
        count.figures.pop();
        for wrong in [figure, carry, count] {
            let fault = Steps::of(&basis, &wrong).unwrap_err();
            assert!(fault.to_string().starts_with("fault of this tool"));
        }
    }

    #[test]
    fn the_marked_factors() {
        assert_eq!(unrounded_factor(Group::H0, 1), 1_242_030_119_608);
        assert_eq!(unrounded_factor(Group::H0, 202), 784_662_924_928);
        assert_eq!(unrounded_factor(Group::L2, 202), 1_000_000_000_000);
    }
}
