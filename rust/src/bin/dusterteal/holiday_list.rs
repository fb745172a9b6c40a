//! `holidays`: the German holidays of a period, as the list that `--holidays` reads.
use std::ffi::OsString;

use slp::{Refusal, RefusalKind, RegionalDay};

use crate::arguments::{self, Arguments, Choice, Grammar};
use crate::date::{Date, Period};
use crate::failure::{warn, Failure};
use crate::files::{Made, Output};
use crate::german::{self, Holiday};
use crate::heading;
use crate::regional;
use crate::run::{self, OUTPUT};
use crate::states::{State, FOOTNOTES_YEAR};

/// Which regional days are listed.
const REGIONAL: Choice = Choice::with_value("--regional");
/// Whose regional days are listed.
const STATE: Choice = Choice::with_value("--state");

/// What it takes.
pub const GRAMMAR: Grammar = Grammar {
    name: "holidays",
    words: &["PERIOD"],
    least: 1,
    many: false,
    choices: &[REGIONAL, STATE, OUTPUT],
};

/// The most dates that a list may have: question 9.
const MOST_LISTED: usize = 400;

/// Makes the list.
pub fn make(given: &[OsString]) -> Result<Made, Failure> {
    let arguments = arguments::parse(&GRAMMAR, given)?;
    let word = arguments.word(0).unwrap_or_default();
    let period = run::period(&GRAMMAR, &word)?;
    let chosen = Chosen::of(&arguments)?;
    expect_years(&word, period)?;
    run::expect_period(&word, period)?;
    chosen.warn(period);
    let days = chosen.days();
    let holidays = holidays(&word, period, &days)?;
    let mut text = heading::line(period, &days) + &chosen.remarks() + &about_days(period);
    for Holiday { date, name } in &holidays {
        text += &format!("{date} {name}\n");
    }
    match holidays.len() {
        0 => warn(&format!("no holiday lies in {word}: the list has no date")),
        count if count > MOST_LISTED => warn(&format!(
            "the list has {count} dates, and a file with more than {MOST_LISTED} is refused; for so long a run say --holidays {}",
            regional::german(&days)
        )),
        _ => {}
    }
    let output = Output::text(arguments.target(), text);
    Ok(Made::of(output, Vec::new()))
}

/// What a list says of days that it does not have.
fn about_days(period: Period) -> String {
    let eves = |year| [Date::new(year, 12, 24), Date::new(year, 12, 31)];
    let mut text = String::new();
    if period
        .years()
        .flat_map(eves)
        .any(|eve| period.contains(eve))
    {
        text += "# 24 and 31 December are no public holidays: with a line here they count as Sunday, without one as Saturday (on a Sunday as Sunday).\n";
    }
    if !period.is_whole_years() {
        text += "# A run that begins earlier (--since) or ends later needs the days before or behind too.\n";
    }
    text
}

/// The holidays that lie in a period.
fn holidays(word: &str, period: Period, days: &[RegionalDay]) -> Result<Vec<Holiday>, Failure> {
    let mut holidays = Vec::new();
    for year in period.years() {
        let of_year =
            german::of_year(year, days).map_err(|refusal| refused(word, year, refusal))?;
        holidays.extend(of_year);
    }
    holidays.retain(|holiday| period.contains(holiday.date));
    Ok(holidays)
}

/// Question 14 of a period's first and last year.
fn expect_years(word: &str, period: Period) -> Result<(), Failure> {
    for year in [period.first.year(), period.last.year()] {
        german::dates(year, &[]).map_err(|refusal| refused(word, year, refusal))?;
    }
    Ok(())
}

fn refused(word: &str, year: u32, refusal: Refusal) -> Failure {
    let Refusal { kind, place } = refusal;
    if kind != RefusalKind::BadYear {
        return german::fault(refusal);
    }
    let number = kind.number();
    Failure::Refused(format!(
        "PERIOD {word}: {year} lies outside the years 1996 to 2099 (question {number}, place {place})"
    ))
}

/// What may be meant by a text that is no regional day.
fn hint(text: &str) -> String {
    match State::parse(text) {
        Ok(state) => format!("; the days of a state are --state {}", state.name),
        Err(_) => regional::hint(text),
    }
}

/// Which regional days are asked for.
struct Chosen {
    state: Option<&'static State>,
    /// Those of the option `--regional`.
    named: Vec<RegionalDay>,
}

impl Chosen {
    fn of(arguments: &Arguments) -> Result<Chosen, Failure> {
        let fault = |name: &str, what: String| GRAMMAR.fault(&format!("{name}: {what}"));
        let named = match arguments.text("--regional") {
            Some(text) => {
                regional::parse(&text).map_err(|what| fault("--regional", what + &hint(&text)))?
            }
            None => Vec::new(),
        };
        let state = match arguments.text("--state") {
            Some(text) => Some(State::parse(&text).map_err(|what| fault("--state", what))?),
            None => None,
        };
        Ok(Chosen { state, named })
    }

    fn of_state(&self) -> Vec<RegionalDay> {
        self.state.map(State::days).unwrap_or_default()
    }

    /// All of them, in source document 000's order, each once.
    fn days(&self) -> Vec<RegionalDay> {
        let mut days = [self.of_state(), self.named.clone()].concat();
        days.sort();
        days.dedup();
        days
    }

    /// Warns that a state's days are those of another year.
    fn warn(&self, period: Period) {
        let Some(state) = self.state else { return };
        if period.years().any(|year| year != FOOTNOTES_YEAR) {
            warn(&format!(
                "the regional days of {} are those of the year {FOOTNOTES_YEAR}: compare them with today's law",
                state.name
            ));
        }
    }

    /// What a list for a state says of itself.
    fn remarks(&self) -> String {
        let Some(state) = self.state else {
            return String::new();
        };
        let of_state = self.of_state();
        let mut added = self.named.clone();
        added.retain(|day| !of_state.contains(day));
        let days = match &of_state[..] {
            [] => "no regional day".to_owned(),
            days => regional::names(days),
        };
        let mut text = format!(
            "# {} in the year {FOOTNOTES_YEAR}: {days}, by the footnotes of VDEW's step-by-step paper of 31.01.2000 (source document 000, step 4)
# States have changed their holidays since: compare the list with today's law.
",
            state.name
        );
        if !added.is_empty() {
            let names = regional::names(&added);
            text += &format!("# Added by --regional: {names}\n");
        }
        for (day, words) in state.days_in_part() {
            let fate = match added.contains(&day) {
                true => "added".to_owned(),
                false => format!("left out, --regional {} adds it", regional::word(day)),
            };
            text += &format!("# {day} \"{words}\": {fate}\n");
        }
        text
    }
}
