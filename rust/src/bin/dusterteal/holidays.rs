//! The list of holidays: of a file, or worked out.
use std::ffi::{OsStr, OsString};
use std::path::Path;

use slp::{RefusalKind, RegionalDay};

use crate::arguments::Grammar;
use crate::date::{self, Date, Period};
use crate::failure::{warn, Failure};
use crate::files::Input;
use crate::german::{self, Holiday};
use crate::states::State;
use crate::text::{self, is_digits, quoted};
use crate::{heading, help, regional};

/// What the option `--holidays` asks for.
#[derive(Debug, Clone, PartialEq, Eq)]
pub enum Wanted {
    /// No list.
    Nothing,
    /// The German days, with these regional ones.
    German(Vec<RegionalDay>),
    /// The list in a file.
    File(OsString),
}

impl Wanted {
    /// What a value of the option asks for: `none`, `german`, `german:NAME,..`, or else a file.
    pub fn parse(grammar: &Grammar, value: &OsStr) -> Result<Wanted, Failure> {
        let text = value.to_string_lossy();
        let (word, names) = match text.split_once(':') {
            Some((word, names)) => (word, Some(names)),
            None => (&*text, None),
        };
        match (word.to_ascii_lowercase().as_str(), names) {
            ("none", None) => Ok(Wanted::Nothing),
            ("german", None) => Ok(Wanted::German(Vec::new())),
            ("german", Some(names)) => regional::parse(names).map(Wanted::German).map_err(|what| {
                let hint = hint(&text, names);
                grammar.fault(&format!("--holidays: {what}{hint}"))
            }),
            _ => Ok(Wanted::File(value.to_owned())),
        }
    }
}

/// What may be meant by a value whose names are no regional days.
fn hint(value: &str, names: &str) -> String {
    match State::parse(names) {
        Ok(state) => of_state(state),
        Err(_) if Path::new(value).exists() => format!("; the file of this name is ./{value}"),
        Err(_) => regional::hint(names),
    }
}

fn of_state(state: &State) -> String {
    format!(
        "; the list of a state is made by `dusterteal holidays YEAR --state {} -o FILE` and read by --holidays FILE",
        state.name
    )
}

/// Where a list comes from.
#[derive(Debug, Clone, Default, PartialEq, Eq)]
pub enum Source {
    /// There is none.
    #[default]
    Nowhere,
    /// It is worked out by the proved call: the German days with these regional ones.
    German(Vec<RegionalDay>),
    /// It was read from a file.
    File(Input),
}

/// A date of the list.
#[derive(Debug, Clone, PartialEq, Eq)]
struct Listed {
    date: Date,
    /// The line of the file, from 1; 0 where the list is worked out.
    line: usize,
    name: String,
}

/// The dates of a list, in rising order as far as it goes.
#[derive(Debug, Clone, Default, PartialEq, Eq)]
pub struct Holidays {
    /// Where the list comes from.
    pub source: Source,
    listed: Vec<Listed>,
    dates: Vec<u32>,
    /// The periods whose days a file says that it has.
    said: Vec<Period>,
}

impl Holidays {
    /// The list that is wanted for a run.
    pub fn load(wanted: &Wanted, run: Period) -> Result<Holidays, Failure> {
        match wanted {
            Wanted::Nothing => Ok(Holidays::default()),
            Wanted::German(regional) => Holidays::worked_out(regional, run),
            Wanted::File(path) => Holidays::read(path),
        }
    }

    /// The German days of all years of a run. A year outside the span has none: question 7 refuses its dates.
    fn worked_out(regional: &[RegionalDay], run: Period) -> Result<Holidays, Failure> {
        let mut listed = Vec::new();
        for year in run.years() {
            let holidays = match german::of_year(year, regional) {
                Err(refusal) if refusal.kind == RefusalKind::BadYear => Vec::new(),
                answer => answer.map_err(german::fault)?,
            };
            listed.extend(holidays.into_iter().map(|Holiday { date, name }| Listed {
                date,
                line: 0,
                name,
            }));
        }
        Ok(Holidays::of(Source::German(regional.to_vec()), listed))
    }

    /// The list of a file.
    fn read(path: &OsStr) -> Result<Holidays, Failure> {
        let source = Input::read(path).map_err(|failure| or_else(failure, path))?;
        let refused = |what: String| Failure::Refused(format!("{}{what}", source.name));
        let text = text::decode(&source.bytes).map_err(|what| {
            refused(format!(
                " is {what}; a list of holidays has one date a line"
            ))
        })?;
        let mut listed = parse(&text).map_err(|what| refused(format!(", {what}")))?;
        if let Some(disorder) = disorder(&listed) {
            warn(&format!(
                "{}, {disorder}; the dates are sorted",
                source.name
            ));
            listed.sort_by_key(|listed| listed.date);
        }
        let said = heading::periods(&text);
        Ok(Holidays {
            said,
            ..Holidays::of(Source::File(source), listed)
        })
    }

    fn of(source: Source, listed: Vec<Listed>) -> Holidays {
        Holidays {
            dates: listed.iter().map(|listed| listed.date.0).collect(),
            listed,
            source,
            said: Vec::new(),
        }
    }

    /// The dates, as a proved call for some days takes them: the whole list of a file, which question 9 is asked of; of the days
    /// that are worked out those of the call's own years, since those of a long run may be more than 400.
    pub fn dates(&self, days: Period) -> &[u32] {
        if !matches!(self.source, Source::German(_)) {
            return &self.dates;
        }
        let before = |year: u32| self.dates.partition_point(|date| date / 10_000 < year);
        let end = before(days.last.year() + 1);
        &self.dates[before(days.first.year()).min(end)..end]
    }

    /// The file that the list was read from, where there is one.
    pub fn file(&self) -> Option<&Input> {
        match &self.source {
            Source::File(input) => Some(input),
            Source::Nowhere | Source::German(_) => None,
        }
    }

    /// The name behind a listed date, which may be empty.
    pub fn name_of(&self, date: Date) -> Option<&str> {
        let found = self
            .listed
            .binary_search_by_key(&date, |listed| listed.date);
        found.ok().map(|at| self.listed[at].name.as_str())
    }

    /// Warns of what the list of a file is likely to lack for a run: days outside the periods that it says it has, or, where it says
    /// nothing, the days of years without a listed date; days that all of Germany keeps; dates that stand outside those periods.
    pub fn warn_of_gaps(&self, run: Period) {
        let Some(source) = self.file() else { return };
        let gap = match self.said.is_empty() {
            true => self.years_without_a_date(run),
            false => self.day_outside(run),
        };
        let found = [gap, self.days_missing(run), self.date_outside()];
        for what in found.into_iter().flatten() {
            warn(&format!("{}{what}", source.name));
        }
    }

    /// What is said of a day of a run that lies outside the periods.
    fn day_outside(&self, run: Period) -> Option<String> {
        let date = run.days().find(|date| !self.is_said(*date))?;
        Some(format!(
            " has the holidays {}, as it says itself, and the run has {date}: outside that only the dates that it lists count as holidays",
            self.said_in_words()
        ))
    }

    /// What is said of a listed date that lies outside the periods.
    fn date_outside(&self) -> Option<String> {
        let Listed { date, line, .. } = self
            .listed
            .iter()
            .find(|listed| !self.is_said(listed.date))?;
        Some(format!(
            ", line {line}: {date} lies outside the days that the list says it has, {}",
            self.said_in_words()
        ))
    }

    /// Whether a day lies in one of the periods, or the list says nothing of itself.
    fn is_said(&self, date: Date) -> bool {
        let mut periods = self.said.iter();
        self.said.is_empty() || periods.any(|period| period.contains(date))
    }

    /// The periods in words, those that follow each other in one.
    fn said_in_words(&self) -> String {
        let runs = self
            .said
            .chunk_by(|period, next| period.last.next() == next.first);
        let words =
            |run: &[Period]| format!("from {} to {}", run[0].first, run[run.len() - 1].last);
        runs.map(words).collect::<Vec<_>>().join(" and ")
    }

    fn years_without_a_date(&self, run: Period) -> Option<String> {
        let years: Vec<u32> = run
            .years()
            .filter(|year| !self.has_date_of(*year))
            .collect();
        let words = in_words(&years);
        (!years.is_empty())
            .then(|| format!(" lists no date of {words}: no day counts as a holiday there"))
    }

    /// What is said of days of a run that all of Germany keeps and that the list lacks, though it says that it has their period or has a
    /// date of their year. A Sunday need not be listed. A year outside the span, which question 7 refuses, has no such days.
    fn days_missing(&self, run: Period) -> Option<String> {
        let is_known = |year: &u32| !self.said.is_empty() || self.has_date_of(*year);
        let years = run.years().filter(is_known);
        let days = years.flat_map(|year| german::of_year(year, &[]).unwrap_or_default());
        let is_missing = |Holiday { date, .. }: &Holiday| {
            let is_sunday = slp::day(date.0, &[]).is_ok_and(|day| day.weekday == 7);
            run.contains(*date)
                && self.is_said(*date)
                && self.name_of(*date).is_none()
                && !is_sunday
        };
        let missing: Vec<Holiday> = days.filter(is_missing).collect();
        let Holiday { date, name } = missing.first()?;
        let more = match missing.len() {
            1 => String::new(),
            2 => ", nor one more such day of the run".to_owned(),
            count => format!(", nor {} more such days of the run", count - 1),
        };
        Some(format!(
            " does not list {date} ({name}), which all of Germany keeps{more}: a list stands in place of german and needs the public holidays too"
        ))
    }

    fn has_date_of(&self, year: u32) -> bool {
        self.listed.iter().any(|listed| listed.date.year() == year)
    }

    /// What is wrong with the entry that question 9 names.
    pub fn fault_at(&self, index: usize) -> String {
        let (Some(source), Some(listed)) = (self.file(), self.listed.get(index)) else {
            return "fault of this tool: a list of its own is refused".to_owned();
        };
        let before = index.checked_sub(1).map(|before| &self.listed[before]);
        let what = match before {
            _ if index >= 400 => format!(
                "the list has {} dates; at most 400 are allowed",
                self.listed.len()
            ),
            _ if !listed.date.is_real() => listed.date.why_not_real(),
            Some(before) => format!("{} stands in line {} already", listed.date, before.line),
            None => format!("{} is not allowed", listed.date),
        };
        format!("{}, line {}: {what}", source.name, listed.line)
    }
}

/// Where the list can't be read: something else may be meant.
fn or_else(failure: Failure, path: &OsStr) -> Failure {
    match failure {
        Failure::Unusable(what) => {
            let text = path.to_string_lossy();
            let hint = match State::parse(&text) {
                Ok(state) => of_state(state),
                Err(_) => regional::hint(&text),
            };
            Failure::Unusable(format!("{what}; --holidays takes {}{hint}", help::HOLIDAYS))
        }
        other => other,
    }
}

/// The dates of a text, one a line with or without a name behind it. A first line that says `date` or `Datum` is passed over.
fn parse(text: &str) -> Result<Vec<Listed>, String> {
    let mut listed = Vec::new();
    for (line, content) in text::content(text) {
        let (date, name) = split(content);
        let is_heading = ["date", "datum"].contains(&date.to_lowercase().as_str());
        if is_heading && listed.is_empty() {
            continue;
        }
        let Some(date) = Date::parse(date) else {
            let found = quoted(content);
            return Err(format!(
                "line {line}: {found} does not begin with a date, {}",
                date::FORMS
            ));
        };
        if let Some(second) = second_date(name) {
            return Err(format!(
                "line {line}: a second date, {second}: a line has one, and its name none"
            ));
        }
        let name = name.to_owned();
        listed.push(Listed { date, line, name });
    }
    Ok(listed)
}

/// The first entry that is earlier than the one before it, in words.
fn disorder(listed: &[Listed]) -> Option<String> {
    let mut pairs = listed.windows(2);
    let pair = pairs.find(|pair| pair[0].date > pair[1].date)?;
    let (line, date, before) = (pair[1].line, pair[1].date, pair[0].date);
    Some(format!("line {line}: {date} stands behind {before}"))
}

/// The word of a name that looks like a date, which one would expect to count too: 26.12.2026, 26.12., 20261226.
fn second_date(name: &str) -> Option<&str> {
    let is_part = |c: char| c.is_ascii_alphanumeric() || c == '-' || c == '.';
    let mut words = name
        .split(|c: char| !is_part(c))
        .map(|word| word.trim_matches(['-', '.']));
    words
        .find(|word| Date::parse(word).is_some() || is_day_and_month(word) || is_eight_digits(word))
}

fn is_day_and_month(word: &str) -> bool {
    let is_number = |part: &str| part.len() <= 2 && is_digits(part);
    word.split_once('.')
        .is_some_and(|(day, month)| is_number(day) && is_number(month))
}

fn is_eight_digits(word: &str) -> bool {
    word.len() == 8 && is_digits(word)
}

/// Rising years as text, those that follow each other in one: 1996 to 1999, 2001.
fn in_words(years: &[u32]) -> String {
    let runs = years.chunk_by(|year, next| year + 1 == *next);
    let words = |run: &[u32]| match run {
        [first, .., last] => format!("{first} to {last}"),
        _ => run[0].to_string(),
    };
    runs.map(words).collect::<Vec<_>>().join(", ")
}

/// The date of a line, and the name behind it.
fn split(line: &str) -> (&str, &str) {
    let is_between = |c: char| c.is_whitespace() || [';', ','].contains(&c);
    let (date, name) = line.split_once(is_between).unwrap_or((line, ""));
    (unquoted(date), unquoted(name.trim_matches(is_between)))
}

/// A text without the quotes round it.
fn unquoted(text: &str) -> &str {
    let inner = text
        .strip_prefix('"')
        .and_then(|text| text.strip_suffix('"'));
    inner.unwrap_or(text)
}

#[cfg(test)]
mod tests {
    use super::*;

    fn parsed(text: &str) -> Vec<(u32, String)> {
        let listed = parse(text).unwrap().into_iter();
        listed.map(|listed| (listed.date.0, listed.name)).collect()
    }

    #[test]
    fn a_line_has_a_date_and_perhaps_a_name() {
        let text = "Datum;Name\n# remark\n2000-01-01\n\n21.04.2000 Karfreitag\n2000-04-24;\"Ostermontag\"\n\"2000-05-01\",1. Mai\n2000-06-01\tAscension Day\n12.06.2000;\n";
        let names = [
            "",
            "Karfreitag",
            "Ostermontag",
            "1. Mai",
            "Ascension Day",
            "",
        ];
        let dates = [
            20_000_101, 20_000_421, 20_000_424, 20_000_501, 20_000_601, 20_000_612,
        ];
        assert!(parsed(text)
            .into_iter()
            .eq(dates.into_iter().zip(names.map(str::to_owned))));
        assert_eq!(parsed(""), []);
    }

    #[test]
    fn a_line_without_a_date_is_named() {
        let fault = parse("# a\n2000-01-01\n\n1 May 2000\n").unwrap_err();
        assert_eq!(
            fault,
            "line 4: \"1 May 2000\" does not begin with a date, 2026-03-26 or 26.03.2026"
        );
        assert!(parse("2000-01-01\nDatum\n").is_err());
    }

    /// A second date is no name: one would expect it to count.
    #[test]
    fn a_second_date_on_a_line_is_refused() {
        for (line, second) in [
            ("2026-12-25 26.12.2026", "26.12.2026"),
            ("2026-12-25,2026-12-26", "2026-12-26"),
            ("25.12.2026 - 26.12.2026 Weihnachten", "26.12.2026"),
            ("01.01.2026 Neujahr, 6.1. Dreikönig", "6.1"),
            ("25.12.2026 und 26.12.", "26.12"),
            ("2026-12-25 20261226", "20261226"),
        ] {
            let fault = parse(&format!("2026-01-01\n{line}\n")).unwrap_err();
            let what =
                format!("line 2: a second date, {second}: a line has one, and its name none");
            assert_eq!(fault, what, "{line}");
        }
        assert_eq!(
            parsed("26.12.2026 2. Weihnachtstag; \"frei\"")[0].1,
            "2. Weihnachtstag; \"frei\""
        );
    }

    #[test]
    fn the_first_entry_out_of_order_is_named() {
        let disorder = |text| disorder(&parse(text).unwrap());
        assert_eq!(disorder("2000-01-01\n2000-01-01\n2000-04-21\n"), None);
        let line = "line 3: 2000-04-24 stands behind 2062-04-21";
        assert_eq!(
            disorder("2000-01-01\n2062-04-21\n2000-04-24\n2000-01-02\n").as_deref(),
            Some(line)
        );
    }

    fn holidays(text: &str) -> Holidays {
        let source = Input {
            path: "list.txt".into(),
            name: "list.txt".into(),
            bytes: Vec::new(),
        };
        Holidays::of(Source::File(source), parse(text).unwrap())
    }

    /// The place of question 9, found by the proved call, and the words for it.
    fn fault_of(text: &str) -> String {
        let holidays = holidays(text);
        let day = Period::day(Date(20_000_101));
        let refusal = slp::day(20_000_101, holidays.dates(day)).unwrap_err();
        assert_eq!(refusal.kind, slp::RefusalKind::BadHoliday);
        holidays.fault_at(refusal.place)
    }

    #[test]
    fn a_refused_entry_is_named_by_its_line() {
        assert_eq!(
            fault_of("# a\n\n2000-01-01\n2000-02-30\n"),
            "list.txt, line 4: 2000-02-30 does not exist: February 2000 has 29 days"
        );
        assert_eq!(
            fault_of("2000-01-01\n\n2000-01-01\n"),
            "list.txt, line 3: 2000-01-01 stands in line 1 already"
        );
        let many = Period::parse("2000..2001-02-04").unwrap();
        let many: Vec<String> = many.days().map(|date| date.to_string()).collect();
        assert_eq!(many.len(), 401);
        assert_eq!(
            fault_of(&many.join("\n")),
            "list.txt, line 401: the list has 401 dates; at most 400 are allowed"
        );
    }

    #[test]
    fn a_year_without_a_date_is_found() {
        let list = holidays("2000-01-01\n2002-01-01\n");
        let gap = |text| list.years_without_a_date(Period::parse(text).unwrap());
        assert_eq!(gap("2000"), None);
        let missing = " lists no date of 1999, 2001, 2003: no day counts as a holiday there";
        assert_eq!(gap("1999-12-31..2003-01-01").as_deref(), Some(missing));
        assert_eq!(
            in_words(&[1999, 2001, 2002, 2003, 2005, 2006]),
            "1999, 2001 to 2003, 2005 to 2006"
        );
    }

    const GRAMMAR: Grammar = Grammar::of_run("series", &[]);

    fn wanted(text: &str) -> Result<Wanted, String> {
        Wanted::parse(&GRAMMAR, OsStr::new(text)).map_err(|failure| failure.to_string())
    }

    #[test]
    fn the_option_asks_for_nothing_for_german_days_or_for_a_file() {
        use RegionalDay::{AllSaints, Epiphany};
        assert_eq!(wanted("none"), Ok(Wanted::Nothing));
        for text in ["german", "German", "german:none"] {
            assert_eq!(wanted(text), Ok(Wanted::German(vec![])), "{text}");
        }
        assert_eq!(
            wanted("german:Allerheiligen,epiphany"),
            Ok(Wanted::German(vec![Epiphany, AllSaints]))
        );
        assert_eq!(
            wanted("GERMAN:ALL"),
            Ok(Wanted::German(RegionalDay::ALL.into()))
        );
        for path in ["./german", "none:1", "german.txt", "./german:x", "-", ""] {
            assert_eq!(wanted(path), Ok(Wanted::File(path.into())), "{path}");
        }
    }

    #[test]
    fn other_german_days_are_not_understood() {
        let fault = wanted("german:easter").unwrap_err();
        assert!(
            fault.starts_with(
                "series: --holidays: \"easter\" is no regional day: the regional days are epiphany ("
            ) && fault.contains("; or say all or none\n"),
            "{fault}"
        );
        let fault = wanted("german:bavaria").unwrap_err();
        let hint = "; the list of a state is made by `dusterteal holidays YEAR --state Bayern -o FILE` and read by --holidays FILE\n";
        assert!(fault.contains(hint), "{fault}");
    }

    /// The periods of lists put together are one where they follow each other.
    #[test]
    fn periods_that_follow_each_other_are_one() {
        let said = ["2026", "2027-Q1", "2027-Q3", "2027-Q4", "2029"];
        let list = Holidays {
            said: said.map(|text| Period::parse(text).unwrap()).into(),
            ..holidays("")
        };
        assert_eq!(
            list.said_in_words(),
            "from 2026-01-01 to 2027-03-31 and from 2027-07-01 to 2027-12-31 and from 2029-01-01 to 2029-12-31"
        );
    }

    /// Of the days that all of Germany keeps, those of the run count, in years with a listed date; Sundays need not be listed.
    #[test]
    fn a_day_that_all_of_germany_keeps_is_missed() {
        let missed = |list: &Holidays, run| list.days_missing(Period::parse(run).unwrap());
        let message = |what: &str| {
            Some(format!(
                " does not list {what}: a list stands in place of german and needs the public holidays too"
            ))
        };
        let eve = holidays("2026-12-24\n");
        let first = "2026-01-01 (New Year's Day), which all of Germany keeps, nor 8 more such days of the run";
        assert_eq!(missed(&eve, "2026"), message(first));
        let christmas = "2026-12-25 (Christmas Day), which all of Germany keeps";
        let two = format!("{christmas}, nor one more such day of the run");
        assert_eq!(missed(&eve, "2026-12-24..2026-12-31"), message(&two));
        assert_eq!(missed(&eve, "2026-12-25"), message(christmas));
        assert_eq!(missed(&eve, "2026-12-24"), None);
        assert_eq!(missed(&eve, "2025"), None);
        let weekdays = holidays("1999-12-25\n");
        assert_eq!(missed(&weekdays, "1999-12-24..1999-12-31"), None);
    }

    fn german(run: &str, regional: &[RegionalDay]) -> Holidays {
        Holidays::worked_out(regional, Period::parse(run).unwrap()).unwrap()
    }

    /// Every call has the days of its own years, however long the run is.
    #[test]
    fn a_call_is_handed_the_days_of_its_own_years() {
        let list = german("1996..2099", &RegionalDay::ALL);
        assert_eq!(list.dates.len(), 17 * 104 - 1);
        for (days, count) in [
            ("2000", 17),
            ("2000-06-22", 17),
            ("1996-01-01", 17),
            ("2099-12-31", 17),
            ("2007-12-31..2009-01-01", 50),
            ("2000..2003", 68),
            ("2003-12-31..2001-01-01", 0),
        ] {
            let days = Period::parse(days).unwrap();
            let dates = list.dates(days);
            assert_eq!(dates.len(), count, "{days:?}");
            let own = |date: &u32| days.years().any(|year| date / 10_000 == year);
            assert!(dates.iter().all(own), "{days:?}");
            assert!(slp::day(20_000_101, dates).is_ok());
        }
    }

    #[test]
    fn a_year_outside_the_span_lists_nothing() {
        assert_eq!(german("1990..1995", &[]).dates, []);
        assert_eq!(german("2098..2105", &[]).dates.len(), 22);
        assert_eq!(german("2005..2000", &[]).dates, []);
    }

    #[test]
    fn a_worked_out_day_has_its_name() {
        let list = german("2007..2009", &[RegionalDay::CorpusChristi]);
        let name = |date| list.name_of(Date(date));
        assert_eq!(name(20_080_501), Some("May Day and Ascension Day"));
        assert_eq!(name(20_080_522), Some("Corpus Christi"));
        assert_eq!(name(20_080_815), None);
    }

    /// It never is, which is proved: the words are for a fault of the tool.
    #[test]
    fn a_refused_list_of_its_own_is_a_fault() {
        let fault = "fault of this tool: a list of its own is refused";
        assert_eq!(german("2000", &[]).fault_at(0), fault);
        assert_eq!(Holidays::default().fault_at(0), fault);
    }
}
