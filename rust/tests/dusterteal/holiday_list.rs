//! `holidays`: the German holidays of a period, with their names, regional days and states.
use std::fs;

use reference::calendar::Day;
use reference::holidays::{federal, regional};

use crate::draw;
use crate::expected::{dashed, expect_text, federal_list, Source};
use crate::german::OTHER_DAYS;
use crate::tool::{folder, says, stopped, text, warned, warnings, written};

/// The names of the days of all of Germany, in the order of source document 000, step 4.
const FEDERAL: [&str; 11] = [
    "New Year's Day",
    "Good Friday",
    "Easter Sunday",
    "Easter Monday",
    "May Day",
    "Ascension Day",
    "Whit Sunday",
    "Whit Monday",
    "Day of German Unity",
    "Christmas Day",
    "Second Day of Christmas",
];

/// The names of the regional days, in that order.
const REGIONAL: [&str; 6] = [
    "Epiphany",
    "Corpus Christi",
    "Assumption Day",
    "Reformation Day",
    "All Saints' Day",
    "Day of Repentance",
];

/// The words for them, as messages have them.
const WORDS: [&str; 6] = [
    "epiphany",
    "corpus-christi",
    "assumption",
    "reformation-day",
    "all-saints",
    "repentance-day",
];

/// What is said of a word that names no regional day.
const THEY_ARE: &str = "the regional days are epiphany (Heilige Drei Könige), corpus-christi (Fronleichnam), assumption (Mariä Himmelfahrt), reformation-day (Reformationstag), all-saints (Allerheiligen), repentance-day (Buß- und Bettag), split by commas; or say all or none";

/// What a list of December says of two days that it does not have, and what one says that has not all days of its years.
const DECEMBER: &str = "# 24 and 31 December are no public holidays: with a line here they count as Sunday, without one as Saturday (on a Sunday as Sunday).\n";
const PART: &str =
    "# A run that begins earlier (--since) or ends later needs the days before or behind too.\n";

/// What `--holidays` takes for these regional days.
fn german(chosen: &[usize]) -> String {
    let words: Vec<&str> = chosen.iter().map(|&bit| WORDS[bit]).collect();
    match chosen.len() {
        0 => "german".to_owned(),
        6 => "german:all".to_owned(),
        _ => format!("german:{}", words.join(",")),
    }
}

/// The list of some days of the span with these regional days, and with what is said of a state.
fn list_of_state(first: u32, last: u32, chosen: &[usize], remarks: &str) -> String {
    let is_part = first % 10_000 != 101 || last % 10_000 != 1231;
    let days = &draw::span()[draw::index_of(first).unwrap()..=draw::index_of(last).unwrap()];
    let is_eve = |day: &Day| [1224, 1231].contains(&(day.date() % 10_000));
    format!(
        "# German holidays from {} to {}, as --holidays {} works them out\n{remarks}{}{}{}",
        dashed(first),
        dashed(last),
        german(chosen),
        if days.iter().any(is_eve) {
            DECEMBER
        } else {
            ""
        },
        if is_part { PART } else { "" },
        lines(first, last, chosen)
    )
}

/// The list of some days of the span with these regional days.
fn list(first: u32, last: u32, chosen: &[usize]) -> String {
    list_of_state(first, last, chosen, "")
}

/// Its dates and names, by the independent implementation. Two days of one date are in the order of the paper.
fn lines(first: u32, last: u32, chosen: &[usize]) -> String {
    let mut days = Vec::new();
    for year in first / 10_000..=last / 10_000 {
        days.extend(federal(year).into_iter().zip(FEDERAL));
        let regional = regional(year);
        days.extend(chosen.iter().map(|&bit| (regional[bit], REGIONAL[bit])));
    }
    days.retain(|(date, _)| (first..=last).contains(date));
    days.sort_by_key(|(date, _)| *date);
    let dates = days.chunk_by(|day, next| day.0 == next.0);
    let line = |same: &[(u32, &str)]| {
        let names: Vec<&str> = same.iter().map(|(_, name)| *name).collect();
        format!("{} {}\n", dashed(same[0].0), names.join(" and "))
    };
    dates.map(line).collect()
}

/// The list of a year.
fn year(year: u32, chosen: &[usize]) -> String {
    year_of_state(year, chosen, "")
}

/// The list of a year, with what is said of a state.
fn year_of_state(year: u32, chosen: &[usize], remarks: &str) -> String {
    list_of_state(10_000 * year + 101, 10_000 * year + 1231, chosen, remarks)
}

#[test]
fn every_year_of_the_span_has_its_days_and_names() {
    for (option, chosen) in [("none", &[][..]), ("all", &[0, 1, 2, 3, 4, 5])] {
        let whole = list(19_960_101, 20_991_231, chosen);
        let count = (11 + chosen.len()) * 104 - 1;
        assert_eq!(whole.lines().count(), count + 2);
        let line = ["holidays", "1996..2099", "--regional", option];
        let word = german(chosen);
        let warning = format!(
            "the list has {count} dates, and a file with more than 400 is refused; for so long a run say --holidays {word}\n"
        );
        expect_text(&warned(&line, &[&warning]), &whole, option);
    }
    assert_eq!(written(&["holidays", "2008"]), year(2008, &[]));
    assert!(year(2008, &[]).contains("\n2008-05-01 May Day and Ascension Day\n"));
}

/// Source document 000, step 4, word for word but for the language.
#[test]
fn the_papers_list_of_2000() {
    let federal = "2000-01-01 New Year's Day
2000-04-21 Good Friday
2000-04-23 Easter Sunday
2000-04-24 Easter Monday
2000-05-01 May Day
2000-06-01 Ascension Day
2000-06-11 Whit Sunday
2000-06-12 Whit Monday
2000-10-03 Day of German Unity
2000-12-25 Christmas Day
2000-12-26 Second Day of Christmas
";
    let heading = "# German holidays from 2000-01-01 to 2000-12-31, as --holidays german";
    let expected = format!("{heading} works them out\n{DECEMBER}{federal}");
    assert_eq!(written(&["holidays", "2000"]), expected);
    let regional = "2000-01-06 Epiphany
2000-06-22 Corpus Christi
2000-08-15 Assumption Day
2000-10-31 Reformation Day
2000-11-01 All Saints' Day
2000-11-22 Day of Repentance
";
    let mut all: Vec<&str> = federal.lines().chain(regional.lines()).collect();
    all.sort();
    let expected = format!(
        "{heading}:all works them out\n{DECEMBER}{}\n",
        all.join("\n")
    );
    assert_eq!(
        written(&["holidays", "2000", "--regional", "all"]),
        expected
    );
}

#[test]
fn a_period_has_its_own_days_alone() {
    for (period, first, last) in [
        ("2026-Q2", 20_260_401, 20_260_630),
        ("2026-12", 20_261_201, 20_261_231),
        ("2026-01..2026-10", 20_260_101, 20_261_031),
        ("2026-04-05", 20_260_405, 20_260_405),
        ("05.04.2026..06.04.2026", 20_260_405, 20_260_406),
        ("2025-12-26..2027-01-06", 20_251_226, 20_270_106),
        ("2007..2009", 20_070_101, 20_091_231),
        ("1996-01-01..1996-01-06", 19_960_101, 19_960_106),
        ("2099-12-26..2099-12-31", 20_991_226, 20_991_231),
    ] {
        let expected = list(first, last, &[0, 1, 2, 3, 4, 5]);
        let line = ["holidays", period, "--regional", "all"];
        assert_eq!(written(&line), expected, "{period}");
    }
}

#[test]
fn a_period_without_a_day_is_warned_of() {
    let line = ["holidays", "2000-02", "--regional", "all"];
    assert_eq!(
        warnings(&line),
        ["no holiday lies in 2000-02: the list has no date"]
    );
    let all = [0, 1, 2, 3, 4, 5];
    assert_eq!(warned(&line, &[]), list(20_000_201, 20_000_229, &all));
}

/// What each regional day may be called: in English or German, in capitals or not, with blanks or hyphens.
const CALLED: [&str; 6] = [
    "epiphany/Heilige-Drei-Könige/HEILIGE DREI KÖNIGE/dreikönigstag",
    "corpus-christi/Corpus Christi/Fronleichnam",
    "assumption/Assumption-Day/Mariä-Himmelfahrt/mariae himmelfahrt",
    "reformation-day/reformationstag",
    "all-saints/All Saints' Day/allerheiligen",
    "repentance-day/Buß-und-Bettag/buss- und bettag",
];

#[test]
fn regional_days_are_chosen_by_name() {
    for (bit, names) in CALLED.iter().enumerate() {
        for name in names.split('/') {
            let line = ["holidays", "2026", "--regional", name];
            assert_eq!(written(&line), year(2026, &[bit]), "{name}");
        }
    }
    let names = "--regional=allerheiligen, Epiphany,all-saints";
    assert_eq!(written(&["holidays", "2026", names]), year(2026, &[0, 4]));
}

#[test]
fn every_choice_of_regional_days_is_listed() {
    for chosen in 1..64_usize {
        let bits: Vec<usize> = (0..6).filter(|bit| chosen >> bit & 1 == 1).collect();
        let words: Vec<&str> = bits.iter().map(|&bit| WORDS[bit]).collect();
        let line = ["holidays", "2000", "--regional", &words.join(",")];
        assert_eq!(written(&line), year(2000, &bits), "{words:?}");
    }
}

/// A state: its names and code, the regional days of the whole state, and those of some communities.
type State = (
    &'static [&'static str],
    &'static [usize],
    &'static [(usize, &'static str)],
);

/// The footnotes 1 to 6 of source document 000, step 4, state by state.
const STATES: [State; 16] = [
    (
        &["Baden-Württemberg", "BW", "baden-wuerttemberg"],
        &[0, 1, 4],
        &[],
    ),
    (
        &["Bayern", "BY", "Bavaria"],
        &[0, 1, 4],
        &[(
            2,
            "in Bayern in Gemeinden mit überwiegend katholischer Bevölkerung",
        )],
    ),
    (&["Berlin", "BE"], &[], &[]),
    (&["Brandenburg", "BB"], &[3], &[]),
    (&["Bremen", "HB"], &[], &[]),
    (&["Hamburg", "HH"], &[], &[]),
    (&["Hessen", "HE", "Hesse"], &[1], &[]),
    (
        &[
            "Mecklenburg-Vorpommern",
            "MV",
            "Mecklenburg-Western Pomerania",
        ],
        &[3],
        &[],
    ),
    (&["Niedersachsen", "NI", "Lower Saxony"], &[], &[]),
    (
        &["Nordrhein-Westfalen", "NW", "NRW", "North Rhine-Westphalia"],
        &[1, 4],
        &[],
    ),
    (
        &["Rheinland-Pfalz", "RP", "Rhineland-Palatinate"],
        &[1, 4],
        &[],
    ),
    (&["Saarland", "SL"], &[1, 2, 4], &[]),
    (
        &["Sachsen", "SN", "Saxony"],
        &[3, 5],
        &[(1, "in Sachsen in einzelnen Gemeinden")],
    ),
    (&["Sachsen-Anhalt", "ST", "Saxony-Anhalt"], &[0, 3], &[]),
    (&["Schleswig-Holstein", "SH"], &[], &[]),
    (
        &["Thüringen", "TH", "Thuringia"],
        &[3],
        &[(
            1,
            "in Thüringen in Gemeinden mit überwiegend katholischer Bevölkerung",
        )],
    ),
];

/// What the tool says beside the list of a state for other years.
fn compare(state: &str) -> String {
    format!(
        "the regional days of {state} are those of the year 2000: compare them with today's law\n"
    )
}

/// What the list of a state says of it, by the regional days of the state.
fn of_2000(name: &str, days: &str) -> String {
    format!(
        "# {name} in the year 2000: {days}, by the footnotes of VDEW's step-by-step paper of 31.01.2000 (source document 000, step 4)
# States have changed their holidays since: compare the list with today's law.
"
    )
}

/// The same where `--regional` adds nothing, with the days of some communities.
fn remarks(name: &str, days: &[usize], parts: &[(usize, &str)]) -> String {
    let days: Vec<&str> = days.iter().map(|&bit| REGIONAL[bit]).collect();
    let days = if days.is_empty() {
        "no regional day".to_owned()
    } else {
        days.join(", ")
    };
    let part = |(bit, words): &(usize, &str)| {
        let (day, word) = (REGIONAL[*bit], WORDS[*bit]);
        format!("# {day} \"{words}\": left out, --regional {word} adds it\n")
    };
    let parts: String = parts.iter().map(part).collect();
    of_2000(name, &days) + &parts
}

#[test]
fn every_state_has_the_days_of_the_papers_footnotes() {
    for (names, days, parts) in STATES {
        let expected = year_of_state(2026, days, &remarks(names[0], days, parts));
        for name in names {
            for name in [name.to_string(), name.to_uppercase(), name.to_lowercase()] {
                let line = ["holidays", "2026", "--state", &name];
                let list = warned(&line, &[&compare(names[0])]);
                assert_eq!(list, expected, "{name}");
            }
        }
    }
}

/// The days of some communities, which the state's list leaves out, are added by name.
#[test]
fn regional_days_are_added_to_those_of_a_state() {
    let line = "holidays 2026 --state BY --regional assumption,epiphany";
    let words: Vec<&str> = line.split(' ').collect();
    let bavaria = warned(&words, &[&compare("Bayern")]);
    let remarks = of_2000("Bayern", "Epiphany, Corpus Christi, All Saints' Day")
        + "# Added by --regional: Assumption Day
# Assumption Day \"in Bayern in Gemeinden mit überwiegend katholischer Bevölkerung\": added
";
    assert_eq!(bavaria, year_of_state(2026, &[0, 1, 2, 4], &remarks));
    let saxony = [
        "holidays",
        "2026",
        "--regional=repentance-day,corpus-christi",
        "--state=Sachsen",
    ];
    let remarks = of_2000("Sachsen", "Reformation Day, Day of Repentance")
        + "# Added by --regional: Corpus Christi
# Corpus Christi \"in Sachsen in einzelnen Gemeinden\": added
";
    assert_eq!(
        warned(&saxony, &[&compare("Sachsen")]),
        year_of_state(2026, &[1, 3, 5], &remarks)
    );
    let berlin = ["holidays", "2026", "--regional", "all", "--state", "berlin"];
    let all = REGIONAL.join(", ");
    let remarks = of_2000("Berlin", "no regional day") + &format!("# Added by --regional: {all}\n");
    assert_eq!(
        warned(&berlin, &[&compare("Berlin")]),
        year_of_state(2026, &[0, 1, 2, 3, 4, 5], &remarks)
    );
}

/// In the year of the footnotes nothing has changed since; where one year is another, it is said.
#[test]
fn the_law_of_other_years_is_warned_of() {
    let line = ["holidays", "2000", "--state", "Hamburg"];
    let hamburg = remarks("Hamburg", &[], &[]);
    assert_eq!(written(&line), year_of_state(2000, &[], &hamburg));
    for (period, first, last) in [
        ("1999..2000", 19_990_101, 20_001_231),
        ("2000..2001", 20_000_101, 20_011_231),
    ] {
        let line = ["holidays", period, "--state", "Hamburg"];
        assert_eq!(
            warned(&line, &[&compare("Hamburg")]),
            list_of_state(first, last, &[], &hamburg)
        );
    }
}

/// A file may have 400 dates: 395 of 36 years, and five of the next. Ascension Day 2032 is one too many.
#[test]
fn the_longest_list_that_a_file_may_have() {
    let path = text(&folder("holiday_list_longest").join("holidays.txt"));
    let line = ["holidays", "1996..2032-05-01", "-o", &path];
    assert_eq!(written(&line), "");
    let content = fs::read_to_string(&path).expect("the list");
    assert_eq!(content, list(19_960_101, 20_320_501, &[]));
    assert_eq!(content.lines().count(), 400 + 3);
    written(&["day", "2032-05-01", "--holidays", &path]);
    let longer = ["holidays", "1996..2032-05-06"];
    let warning = "the list has 401 dates, and a file with more than 400 is refused; for so long a run say --holidays german\n";
    warned(&longer, &[warning]);
}

/// The warnings of `day` with the list of a file.
fn warned_of(period: &str, path: &str) -> Vec<String> {
    warnings(&["day", period, "--holidays", path])
}

/// The list of a quarter is not taken for that of a year without a word.
#[test]
fn a_run_beyond_the_list_is_warned_of() {
    let path = text(&folder("holiday_list_beyond").join("quarter.txt"));
    written(&["holidays", "2026-Q2", "-o", &path]);
    for within in ["2026-Q2", "2026-05-01", "2026-04-30..2026-06-30"] {
        assert_eq!(warned_of(within, &path), [""; 0], "{within}");
    }
    for (beyond, date) in [
        ("2026", "2026-01-01"),
        ("2026-03-31..2026-04-05", "2026-03-31"),
        ("2026-06-30..2026-07-01", "2026-07-01"),
        ("2026-05..2027", "2026-07-01"),
    ] {
        let warning = format!("{path} has the holidays from 2026-04-01 to 2026-06-30, as it says itself, and the run has {date}: outside that only the dates that it lists count as holidays");
        assert_eq!(warned_of(beyond, &path), [warning]);
    }
    let source = Source::usual(&folder("holiday_list_beyond_run"));
    let run = ["sums", "G0", "2026-Q2", "3500", "--since", "2026-03-31"];
    let options = ["--profiles", &source.profiles, "--holidays", &path];
    let found = warnings(&[&run[..], &options].concat());
    assert!(
        found.len() == 1 && found[0].contains(" the run has 2026-03-31: "),
        "{found:?}"
    );
}

/// Lists put together have all their days, and what is missing between them is seen.
#[test]
fn lists_that_are_put_together_have_all_their_days() {
    let folder = folder("holiday_list_together");
    let path = text(&folder.join("holidays.txt"));
    let put_together = |periods: &[&str]| {
        let lists = periods.iter().map(|period| written(&["holidays", period]));
        fs::write(&path, lists.collect::<String>()).expect("the lists together");
    };
    put_together(&["2026-Q2", "2026-07..2027"]);
    assert_eq!(warned_of("2026-04-01..2027-12-31", &path), [""; 0]);
    put_together(&["2026-Q1", "2026-Q4"]);
    let warning = format!("{path} has the holidays from 2026-01-01 to 2026-03-31 and from 2026-10-01 to 2026-12-31, as it says itself, and the run has 2026-04-01: outside that only the dates that it lists count as holidays");
    assert_eq!(warned_of("2026", &path), [warning]);
}

/// A month without a holiday has its list; a list that says nothing of its days is asked for a date of each year.
#[test]
fn a_list_without_a_date_is_one_all_the_same() {
    let path = text(&folder("holiday_list_empty").join("february.txt"));
    warned(&["holidays", "2026-02", "-o", &path], &[]);
    assert_eq!(warned_of("2026-02", &path), [""; 0]);
    fs::write(&path, federal_list(&[2026])).expect("a list without a first line");
    assert_eq!(warned_of("2026", &path), [""; 0]);
    let warning = format!("{path} lists no date of 2027: no day counts as a holiday there");
    assert_eq!(warned_of("2026..2027", &path), [warning]);
}

/// What is written is read by `--holidays`, remarks and names and all.
#[test]
fn a_run_reads_the_list() {
    let path = text(&folder("holiday_list_read").join("holidays.txt"));
    let line = ["holidays", "2007..2009", "--state", "BY", "-o", &path];
    assert_eq!(warned(&line, &[&compare("Bayern")]), "");
    let content = fs::read_to_string(&path).expect("the list");
    assert!(content.contains("\n# Bayern in ") && content.contains("überwiegend katholischer"));
    let calendar = written(&["day", "2007..2009", "--holidays", &path]);
    for row in calendar.lines().skip(1) {
        let fields: Vec<&str> = row.split(';').collect();
        let (date, weekday, why) = (fields[1], fields[2], fields[5]);
        let name = content.lines().find_map(|line| line.strip_prefix(date));
        let expected = match weekday {
            "Sunday" => None,
            _ => name.map(|name| format!("listed:{name}")),
        };
        let found = why.starts_with("listed").then(|| why.to_owned());
        assert_eq!(found, expected, "{row}");
    }
}

#[test]
fn years_and_dates_outside_the_span_are_refused() {
    for (period, year) in [
        ("1995", 1995),
        ("2100", 2100),
        ("0000", 0),
        ("9999", 9999),
        ("1995-12-31", 1995),
        ("1995..1996", 1995),
        ("2099..2100", 2100),
        ("2099-12..2100-01", 2100),
        ("2100..1995", 2100),
    ] {
        let message = format!(
            "PERIOD {period}: {year} lies outside the years 1996 to 2099 (question 14, place 0)"
        );
        says(&["holidays", period], 1, &message);
    }
    for (period, what) in [
        (
            "2000-02-30",
            "2000-02-30 does not exist: February 2000 has 29 days (question 7, place 0)",
        ),
        (
            "2000..2001-13",
            "2001-13-31 does not exist: the months are 01 to 12 (question 7, place 1)",
        ),
        (
            "2001..2000",
            "2001-01-01 to 2000-12-31 ends before it begins (question 8, place 0)",
        ),
    ] {
        says(
            &["holidays", period],
            1,
            &format!("PERIOD {period}: {what}"),
        );
    }
}

#[test]
fn words_that_are_no_day_or_state_are_named() {
    let see = "See `dusterteal holidays --help`.";
    for (names, fault, hint) in [
        ("easter", "\"easter\" is no regional day", ""),
        ("", "a name is missing", ""),
        ("epiphany,,all-saints", "a name is missing", ""),
        ("epiphany, Ostern", "\"Ostern\" is no regional day", ""),
        ("all,epiphany", "\"all\" stands alone", ""),
        (
            "by",
            "\"by\" is no regional day",
            "; the days of a state are --state Bayern",
        ),
        (
            "epiphany,Silvester",
            "\"Silvester\" is no regional day",
            OTHER_DAYS,
        ),
    ] {
        let message = format!("holidays: --regional: {fault}: {THEY_ARE}{hint}\n{see}");
        says(&["holidays", "2000", "--regional", names], 2, &message);
    }
    for state in ["Preußen", "", "XX", "Bayern,Sachsen", "all"] {
        let message = format!("holidays: --state: {state:?} is no state: they are Baden-Württemberg (BW), Bayern (BY), ");
        stopped(
            &["holidays", "2000", "--state", state],
            2,
            &[&message, "Thüringen (TH)\n", see],
        );
    }
    for (line, what) in [
        ("holidays 2000 --state", "--state needs a value"),
        ("holidays 2000 --regional", "--regional needs a value"),
        (
            "holidays 2000 --state BY --state SN",
            "--state is given twice",
        ),
        (
            "holidays 2000 --regional all --regional all",
            "--regional is given twice",
        ),
    ] {
        let words: Vec<&str> = line.split(' ').collect();
        says(&words, 2, &format!("holidays: {what}\n{see}"));
    }
}

/// The help names every regional day in both languages, and says why two days are missing.
#[test]
fn the_help_names_the_regional_days() {
    let help = written(&["holidays", "--help"]);
    for (word, german) in WORDS.into_iter().zip([
        "Heilige Drei Könige",
        "Fronleichnam",
        "Mariä Himmelfahrt",
        "Reformationstag",
        "Allerheiligen",
        "Buß- und Bettag",
    ]) {
        let is_its_line = |line: &str| {
            let line = line.trim();
            line.starts_with(word) && line.ends_with(german)
        };
        assert!(help.lines().any(is_its_line), "{word}: {help}");
    }
    assert!(
        help.contains("24 and 31 December are no public holidays and\nnot listed"),
        "{help}"
    );
}
