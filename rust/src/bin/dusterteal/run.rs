//! A run: what a series is made from, and the series.
use std::ffi::OsString;

use slp::{Expansion, Group, Refusal, RefusalKind, Request};

use crate::arguments::{Arguments, Choice, Grammar};
use crate::date::{self, Date, Period, PERIOD_FORMS};
use crate::failure::Failure;
use crate::help;
use crate::holidays::{Holidays, Wanted};
use crate::plausibility;
use crate::profiles::Profiles;
use crate::text::{is_digits, quoted};

/// The options that say what a run is made from.
pub const PROFILES: Choice = Choice::with_values("--profiles");
/// Which dates are holidays.
pub const HOLIDAYS: Choice = Choice::with_value("--holidays");
/// Where the run begins.
pub const SINCE: Choice = Choice::with_value("--since");
/// The carry that it begins with.
pub const CARRY: Choice = Choice::with_value("--carry");
/// Where the output goes.
pub const OUTPUT: Choice = Choice::with_value("-o");

/// What a series is made from.
#[derive(Debug)]
pub struct Run {
    /// The group.
    pub group: Group,
    /// The days that are asked for.
    pub period: Period,
    /// The day on which the run begins.
    pub since: Date,
    /// The yearly use in kWh.
    pub yearly: u32,
    /// The carry that the run begins with.
    pub carry: u32,
    /// The holidays.
    pub holidays: Holidays,
    /// The profiles.
    pub profiles: Profiles,
    said: Said,
}

/// The arguments that refusals speak of, as they were given.
#[derive(Debug)]
struct Said {
    period: SaidPeriod,
    yearly: String,
    carry: String,
}

/// The figures of a run's period.
#[derive(Debug)]
pub struct Series {
    /// The figures, in Wh.
    pub figures: Vec<u32>,
    /// What they add up to.
    pub made: Expansion,
    /// The carry that the period begins with.
    pub carry_before: u32,
}

/// What a subcommand is asked for, beside its options.
pub struct Words {
    /// The group.
    pub group: Group,
    /// The period.
    pub period: Period,
    /// What refusals call it.
    pub said: SaidPeriod,
    /// The yearly use.
    pub yearly: Yearly,
}

/// What refusals call a period, and its first and last date.
#[derive(Debug)]
pub struct SaidPeriod {
    /// The period.
    pub whole: String,
    /// Its dates.
    pub dates: [String; 2],
}

impl SaidPeriod {
    /// That of a period which is one word.
    pub fn word(text: String) -> SaidPeriod {
        SaidPeriod {
            dates: [text.clone(), text.clone()],
            whole: text,
        }
    }
}

/// A yearly use.
pub struct Yearly {
    kwh: u32,
    said: String,
}

impl Yearly {
    /// The yearly use of the word KWH.
    pub fn parse(grammar: &Grammar, said: String) -> Result<Yearly, Failure> {
        let kwh = number(grammar, "KWH", &said, "0 to 1000000000")?;
        Ok(Yearly { kwh, said })
    }
}

/// Where a run begins: on this day or else the period's first, with this carry.
#[derive(Default)]
pub struct Beginning {
    since: Option<Date>,
    carry: u32,
    said_carry: String,
}

impl Beginning {
    /// What the options `--since` and `--carry` ask for.
    fn of(grammar: &Grammar, arguments: &Arguments) -> Result<Beginning, Failure> {
        let said_carry = arguments.text("--carry").unwrap_or_else(|| "0".to_owned());
        let carry = number(grammar, "--carry", &said_carry, "0 to 39999")?;
        let since = arguments.text("--since");
        let since = since.map(|text| date(grammar, "--since", &text));
        Ok(Beginning {
            since: since.transpose()?,
            carry,
            said_carry,
        })
    }
}

/// What a run is read from: the paths of the profiles, and the list of holidays that is wanted.
pub struct Sources<'a> {
    profiles: &'a [OsString],
    holidays: Wanted,
}

impl<'a> Sources<'a> {
    /// What the options `--profiles` and `--holidays` ask for.
    pub fn of(grammar: &Grammar, arguments: &'a Arguments) -> Result<Sources<'a>, Failure> {
        let profiles = arguments.values("--profiles");
        if profiles.is_empty() {
            return Err(grammar.fault("--profiles is missing: name a profile file or CSV tables"));
        }
        let Some(holidays) = arguments.value("--holidays") else {
            let what = format!("--holidays is missing: it takes {}", help::HOLIDAYS);
            return Err(grammar.fault(&what));
        };
        let options = ["--profiles", "--holidays", "--readings"].into_iter();
        let paths = options.flat_map(|name| arguments.values(name));
        if paths.filter(|path| *path == "-").count() > 1 {
            return Err(grammar.fault("standard input can be read only once"));
        }
        Ok(Sources {
            profiles,
            holidays: Wanted::parse(grammar, holidays)?,
        })
    }
}

impl Run {
    /// The run that the words GROUP PERIOD KWH and the options ask for.
    pub fn of_words(grammar: &Grammar, arguments: &Arguments) -> Result<Run, Failure> {
        let word = |index| arguments.word(index).unwrap_or_default();
        let words = Words {
            group: group(grammar, &word(0))?,
            period: period(grammar, &word(1))?,
            said: SaidPeriod::word(format!("PERIOD {}", word(1))),
            yearly: Yearly::parse(grammar, word(2))?,
        };
        Run::of(grammar, words, arguments)
    }

    /// The run that words and options ask for, accepted by expanding's questions.
    pub fn of(grammar: &Grammar, words: Words, arguments: &Arguments) -> Result<Run, Failure> {
        let beginning = Beginning::of(grammar, arguments)?;
        let run = Run::load(words, beginning, Sources::of(grammar, arguments)?)?;
        run.expect_accepted()?;
        run.warn();
        Ok(run)
    }

    /// A run of which no question has been asked yet.
    pub fn load(words: Words, beginning: Beginning, sources: Sources) -> Result<Run, Failure> {
        let period = words.period;
        let since = beginning.since.unwrap_or(period.first);
        let whole = Period {
            first: since,
            ..period
        };
        Ok(Run {
            group: words.group,
            period,
            since,
            yearly: words.yearly.kwh,
            carry: beginning.carry,
            holidays: Holidays::load(&sources.holidays, whole)?,
            profiles: Profiles::load(sources.profiles)?,
            said: Said {
                period: words.said,
                yearly: words.yearly.said,
                carry: beginning.said_carry,
            },
        })
    }

    /// All of its days: those before the period too.
    pub fn whole(&self) -> Period {
        Period {
            first: self.since,
            ..self.period
        }
    }

    /// Warns of what is likely to be wrong with what it was read from.
    pub fn warn(&self) {
        self.holidays.warn_of_gaps(self.whole());
        plausibility::warn_of_energy(&self.profiles, self.group);
    }

    /// Expanding's request for some days of the run.
    pub fn request(&self, days: Period, carry: u32) -> Request<'_> {
        Request {
            file: &self.profiles.file,
            group: self.group,
            first: days.first.0,
            last: days.last.0,
            holidays: self.holidays.dates(days),
            yearly: self.yearly,
            carry,
        }
    }

    /// Asks expanding's questions 1 to 11 of the period, then where the run begins.
    fn expect_accepted(&self) -> Result<(), Failure> {
        match slp::expand(&self.request(self.period, self.carry), &mut []) {
            Err(refusal) if refusal.kind != RefusalKind::ShortOutput => {
                return Err(self.refused(refusal))
            }
            _ => {}
        }
        if !self.since.is_real() {
            let why = self.since.why_not_real();
            return Err(Failure::Refused(format!(
                "--since: {why} (question 7, place 0)"
            )));
        }
        if self.since > self.period.first {
            let (since, first) = (self.since, self.period.first);
            return Err(Failure::Refused(format!(
                "--since {since} lies after the first day that is asked for, {first}"
            )));
        }
        Ok(())
    }

    /// The failure that a refusal by expanding's questions makes, in the terms of the arguments.
    pub fn refused(&self, refusal: Refusal) -> Failure {
        let SaidPeriod { whole, dates } = &self.said.period;
        let what = match refusal.kind {
            RefusalKind::BadDate => {
                let date = [self.period.first, self.period.last][refusal.place];
                format!("{}: {}", dates[refusal.place], date.why_not_real())
            }
            RefusalKind::BadPeriod => format!("{whole}: {}", period_fault(self.period)),
            RefusalKind::BadHoliday => self.holidays.fault_at(refusal.place),
            RefusalKind::BadUse => format!(
                "KWH {}: a yearly use is 0 to 1000000000 kWh",
                self.said.yearly
            ),
            RefusalKind::BadCarry => format!("--carry {}: a carry is 0 to 39999", self.said.carry),
            _ => return self.profiles.refused(refusal, self.group),
        };
        Failure::by_question(&what, refusal)
    }

    /// The figures of some days, given a carry.
    fn expand(&self, days: Period, carry: u32, out: &mut [u32]) -> Result<Expansion, Failure> {
        slp::expand(&self.request(days, carry), out).map_err(|refusal| self.refused(refusal))
    }

    /// The carry with which a day begins, when the run has gone through the days before it, year by year.
    pub fn carry_before(&self, day: Date) -> Result<u32, Failure> {
        let mut out = vec![0; 366 * 100];
        let mut carry = self.carry;
        let mut first = self.since;
        while first < day {
            let end = Date::new(first.year(), 12, 31);
            let last = if day.year() == first.year() {
                day.previous()
            } else {
                end
            };
            carry = self.expand(Period { first, last }, carry, &mut out)?.carry;
            first = last.next();
        }
        Ok(carry)
    }

    /// The figures of the period.
    pub fn series(&self) -> Result<Series, Failure> {
        let carry_before = self.carry_before(self.period.first)?;
        let days = self.period.first.days_to(self.period.last) as usize;
        let mut figures = vec![0; 100 * days];
        let made = self.expand(self.period, carry_before, &mut figures)?;
        figures.truncate(made.count);
        Ok(Series {
            figures,
            made,
            carry_before,
        })
    }

    /// The paths of the files that it was read from.
    pub fn read(&self) -> Vec<OsString> {
        let sources = self.profiles.sources.iter().chain(self.holidays.file());
        sources.map(|source| source.path.clone()).collect()
    }

    /// What the day enquiry says of a day of the run.
    pub fn day(&self, date: Date) -> Result<slp::Day, Failure> {
        let holidays = self.holidays.dates(Period::day(date));
        slp::day(date.0, holidays).map_err(|refusal| self.refused(refusal))
    }
}

/// Question 7 of both dates of a period, and their order, where a period may have any length.
pub fn expect_period(word: &str, period: Period) -> Result<(), Failure> {
    for (place, date) in [period.first, period.last].into_iter().enumerate() {
        if !date.is_real() {
            let why = date.why_not_real();
            return Err(Failure::Refused(format!(
                "PERIOD {word}: {why} (question 7, place {place})"
            )));
        }
    }
    match period.first > period.last {
        true => Err(Failure::Refused(format!(
            "PERIOD {word}: {} (question 8, place 0)",
            period_fault(period)
        ))),
        false => Ok(()),
    }
}

/// Why question 8 refuses a period of two real dates.
pub fn period_fault(period: Period) -> String {
    let Period { first, last } = period;
    if first > last {
        return format!("{first} to {last} ends before it begins");
    }
    format!(
        "{first} to {last} has {} days; a period has at most 1461",
        first.days_to(last)
    )
}

/// The group of a word.
pub fn group(grammar: &Grammar, text: &str) -> Result<Group, Failure> {
    let later = match text.strip_suffix("25") {
        Some(letter) if letter.len() == 1 => {
            "; the profiles of 2025 have tables by month, which do not fit yet"
        }
        _ => "",
    };
    text.parse().map_err(|unknown| {
        grammar.fault(&format!("{} is no group: {unknown}{later}", quoted(text)))
    })
}

/// The period of a word.
pub fn period(grammar: &Grammar, text: &str) -> Result<Period, Failure> {
    Period::parse(text)
        .ok_or_else(|| grammar.fault(&format!("{} is no period: {PERIOD_FORMS}", quoted(text))))
}

/// The date of a word or an option.
pub fn date(grammar: &Grammar, name: &str, text: &str) -> Result<Date, Failure> {
    Date::parse(text).ok_or_else(|| {
        grammar.fault(&format!(
            "{name}: {} is no date: write it as {}",
            quoted(text),
            date::FORMS
        ))
    })
}

/// The number of a word or an option. One too large for 32 bits becomes the largest, which the questions refuse.
fn number(grammar: &Grammar, name: &str, text: &str, range: &str) -> Result<u32, Failure> {
    if !is_digits(text) {
        let what = format!(
            "{name}: {} is no whole number, {range}, without separators",
            quoted(text)
        );
        return Err(grammar.fault(&what));
    }
    Ok(text.parse().unwrap_or(u32::MAX))
}
