//! The seasons of the whole span, by the exported day enquiry, and the words of their definition and code, held to the sentence of
//! source document 000, step 2: "Winter: 1.11.-20.03., Sommer: 15.05.-14.09. und Übergang: 21.03.-14.05. bzw. 15.09.-31.10."
mod repository;

use std::fs;
use std::ops::RangeInclusive;

use slp::Season::{self, Summer, Transition, Winter};

/// Month and day.
type MonthDay = (u32, u32);

/// The sentence's stretches of a year in its order, the one over New Year in two parts.
const STRETCHES: [(Season, RangeInclusive<MonthDay>); 5] = [
    (Winter, (11, 1)..=(12, 31)),
    (Winter, (1, 1)..=(3, 20)),
    (Summer, (5, 15)..=(9, 14)),
    (Transition, (3, 21)..=(5, 14)),
    (Transition, (9, 15)..=(10, 31)),
];

/// The dates of a year, those that are not refused, with their seasons.
fn dates(year: u32) -> impl Iterator<Item = (MonthDay, Season)> {
    let numbers = (1..=12).flat_map(|month| (1..=31).map(move |day| (month, day)));
    numbers.filter_map(move |(month, day)| {
        let found = slp::day(10_000 * year + 100 * month + day, &[]).ok()?;
        Some(((month, day), found.season))
    })
}

#[test]
fn every_date_lies_in_one_stretch_of_the_papers_sentence_and_has_its_season() {
    for year in 1996..=2099 {
        for (date, season) in dates(year) {
            let its_stretches = STRETCHES.iter().filter(|(_, days)| days.contains(&date));
            let by_the_paper: Vec<Season> = its_stretches.map(|(season, _)| *season).collect();
            assert_eq!(by_the_paper, [season], "{year} {date:?}");
        }
    }
}

#[test]
fn a_year_has_140_or_141_days_of_winter_123_of_summer_and_102_of_transition() {
    for year in 1996..=2099 {
        let days_of = |season| dates(year).filter(|(_, found)| *found == season).count();
        let winter = if year % 4 == 0 { 141 } else { 140 };
        assert_eq!(
            [Winter, Summer, Transition].map(days_of),
            [winter, 123, 102],
            "{year}"
        );
    }
}

/// What follows a line of a file, up to the next empty line: the comments, and the words of the rest, but for those that only the
/// language wants and the date's name.
fn comments_and_words(
    file: &str,
    line_before: &str,
    comment: &str,
    passed_over: &[&str],
) -> (Vec<String>, String) {
    let text = fs::read_to_string(repository::path(file)).unwrap();
    let behind = text.lines().skip_while(|line| *line != line_before).skip(1);
    let lines: Vec<&str> = behind
        .take_while(|line| !line.is_empty())
        .map(str::trim_start)
        .collect();
    let comments = lines.iter().filter_map(|line| line.strip_prefix(comment));
    let code = lines.iter().filter(|line| !line.starts_with(comment));
    let is_mark = |c: char| c.is_whitespace() || "(),{};:".contains(c);
    let words = code.flat_map(|line| line.split(is_mark));
    let kept: Vec<&str> = words
        .filter(|word| !word.is_empty() && !passed_over.contains(word))
        .collect();
    (comments.map(str::to_owned).collect(), kept.join(" "))
}

#[test]
fn definition_and_code_ask_in_the_same_words() {
    let definition = comments_and_words(
        "crates/calendar_days/specs/Days.antt",
        "season d =",
        "--",
        &["cond", "d"],
    );
    let code = comments_and_words(
        "crates/calendar_days/src/lib.rt",
        "    ensures { result ≡ season day }",
        "//",
        &["if", "return", "Season", "day"],
    );
    assert_eq!(definition, code);
    let (comments, words) = code;
    assert_eq!(
        words,
        "from 1 11 || to 20 3 Winter from 15 5 && to 14 9 Summer Transition"
    );
    let quotations: Vec<&str> = comments
        .iter()
        .filter_map(|comment| comment.split('"').nth(1))
        .collect();
    assert_eq!(
        quotations,
        [
            "Winter: 1.11.-20.03.",
            "Sommer: 15.05.-14.09.",
            "Übergang: 21.03.-14.05. bzw. 15.09.-31.10."
        ]
    );
}
