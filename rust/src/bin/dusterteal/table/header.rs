//! The lines before the rows of a table: titles, one or two header lines, units.
use slp::Group;

use super::words::{day, meanings, unit, Word};
use super::{named_group, DAYS, WIDTH};
use crate::clock;
use crate::sheet::{Fault, Line, Sheet};
use crate::text::quoted;

/// What stands before the rows.
#[derive(Debug, PartialEq, Eq)]
pub struct Header {
    /// The group, where one is named.
    pub group: Option<Group>,
    /// The day of each column but the first, as an index of `DAYS`.
    pub days: [usize; DAYS.len()],
    /// How many lines stand before the rows.
    pub length: usize,
}

/// Reads the lines before the rows.
pub fn parse(sheet: &Sheet) -> Result<Header, Fault> {
    let start = find(sheet)?;
    let first = &sheet.lines[start];
    let (names, end) = if has_seasons(first) && !has_day_types(first) {
        (joined_names(sheet, start)?, start + 2)
    } else {
        (first.fields.clone(), start + 1)
    };
    let has_units = sheet.lines.get(end).is_some_and(is_line_of_units);
    let length = end + usize::from(has_units);
    for line in &sheet.lines[start..length] {
        expect_times_first(line)?;
        expect_watts(line)?;
    }
    Ok(Header {
        group: named_group::find(&sheet.lines[..length])?,
        days: days(&sheet.lines[end - 1], &names)?,
        length,
    })
}

/// The index of the first header line: titles may stand before it, but no rows.
fn find(sheet: &Sheet) -> Result<usize, Fault> {
    for (index, line) in sheet.lines.iter().enumerate() {
        if is_row(line) {
            let time = line.field(0);
            return Err(line.fault(format!("the header is missing: {time} stands here")));
        }
        if is_header(line) {
            return Ok(index);
        }
    }
    let what = "the header is missing: no line names columns as \"winter weekday\"";
    Err(sheet.fault_at_start(what.into()))
}

fn is_row(line: &Line) -> bool {
    clock::parse(line.field(0)).is_some()
}

/// Whether a line has a season or a day type over a column, or so many fields that it is no title.
fn is_header(line: &Line) -> bool {
    let filled = line.fields[1..].iter().filter(|name| !name.is_empty());
    has_seasons(line) || has_day_types(line) || filled.count() >= WIDTH - 1
}

fn has_seasons(line: &Line) -> bool {
    let mut words = line.fields[1..].iter().flat_map(|name| meanings(name));
    words.any(|word| matches!(word, Word::Season(_)))
}

fn has_day_types(line: &Line) -> bool {
    let mut words = line.fields[1..].iter().flat_map(|name| meanings(name));
    words.any(|word| matches!(word, Word::DayType(_)))
}

/// The first column is that of the times: a season or a day over it shows that the columns are shifted.
fn expect_times_first(line: &Line) -> Result<(), Fault> {
    let words = meanings(line.field(0));
    let is_name = |word: &Word| matches!(word, Word::Season(_) | Word::DayType(_));
    if !words.iter().any(is_name) || words.contains(&Word::Unknown) {
        return Ok(());
    }
    let name = quoted(line.field(0));
    Err(line.fault_at(0, format!("{name} stands over the column of the times")))
}

/// The columns' names in two lines, day types below seasons. A season counts for the empty fields to its right too, since it
/// may stand in a merged cell.
fn joined_names(sheet: &Sheet, start: usize) -> Result<Vec<String>, Fault> {
    let above = &sheet.lines[start];
    let Some(below) = sheet.lines.get(start + 1).filter(|line| !is_row(line)) else {
        return Err(above.fault("the columns name no days, and no line below does: a column is named as \"winter weekday\" or \"Winter Werktag\"".into()));
    };
    let mut season = "";
    let width = above.width().max(below.width());
    let mut names = vec![String::new()];
    for column in 1..width {
        if !above.field(column).is_empty() {
            season = above.field(column);
        }
        names.push(match below.field(column) {
            "" => above.field(column).to_string(),
            day_type => format!("{season} {day_type}").trim().to_string(),
        });
    }
    Ok(names)
}

/// The days of the columns, each of which must have its own. The first column, of times, has none.
fn days(line: &Line, names: &[String]) -> Result<[usize; DAYS.len()], Fault> {
    let mut columns = [None; DAYS.len()];
    let mut days = Vec::new();
    for (column, name) in names.iter().enumerate().take(named_width(names)).skip(1) {
        let day = day(name).map_err(|what| line.fault_at(column, what))?;
        if let Some(earlier) = columns[day].replace(column) {
            let name = DAYS[day];
            let earlier = earlier + 1;
            return Err(line.fault_at(
                column,
                format!("{name} stands twice, first in column {earlier}"),
            ));
        }
        days.push(day);
    }
    days.try_into().map_err(|_| line.fault(missing(&columns)))
}

/// How many fields there are without those at the end that name nothing.
fn named_width(names: &[String]) -> usize {
    let is_name = |name: &String| {
        let mut words = meanings(name).into_iter();
        words.any(|word| !matches!(word, Word::Beside | Word::Watts))
    };
    let last = names.iter().rposition(is_name);
    last.map_or(0, |column| column + 1)
}

/// Says which days have no column.
fn missing(columns: &[Option<usize>]) -> String {
    let without = DAYS
        .iter()
        .zip(columns)
        .filter(|(_, column)| column.is_none());
    let names: Vec<&str> = without.map(|(name, _)| *name).collect();
    match names.as_slice() {
        [name] => format!("the column {name} is missing"),
        names => format!("the columns {} are missing", names.join(", ")),
    }
}

/// Whether a line below the header has units only, beside what stands over the times.
fn is_line_of_units(line: &Line) -> bool {
    let has_columns = line.width() > 1;
    let fields = line.fields.iter().skip(usize::from(has_columns));
    let mut filled = fields.filter(|field| !field.is_empty());
    !is_row(line) && filled.all(|field| unit(field).is_some())
}

/// No unit but watts may stand in a header line or below it.
fn expect_watts(line: &Line) -> Result<(), Fault> {
    for (column, field) in line.fields.iter().enumerate() {
        // What stands over the times may also say "1000 kWh".
        let other = match column {
            0 => unit(field) == Some(Word::OtherUnit),
            _ => meanings(field).contains(&Word::OtherUnit),
        };
        if other {
            let field = quoted(field);
            return Err(line.fault_at(
                column,
                format!("the values must be watts, and {field} stands here"),
            ));
        }
    }
    Ok(())
}

#[cfg(test)]
mod tests {
    use super::*;
    use crate::sheet;

    const ENGLISH: &str =
        "G0;winter weekday;winter Saturday;winter Sunday;summer weekday;summer Saturday;\
                           summer Sunday;transition weekday;transition Saturday;transition Sunday";
    const SEASONS: &str = ";Winter;;;Sommer;;;Übergang;;";
    const DAY_TYPES: &str =
        "[W];Samstag;Sonntag;Werktag;Samstag;Sonntag;Werktag;Samstag;Sonntag;Werktag";
    const IN_ORDER: [usize; 9] = [0, 1, 2, 3, 4, 5, 6, 7, 8];
    const WEEKDAYS_LAST: [usize; 9] = [1, 2, 0, 4, 5, 3, 7, 8, 6];

    fn header(text: &str) -> Result<Header, String> {
        let sheet = sheet::read(text, WIDTH).expect("fields");
        parse(&sheet).map_err(|fault| fault.to_string())
    }

    fn days_of(text: &str) -> [usize; 9] {
        header(text).expect(text).days
    }

    fn fault_of(text: &str) -> String {
        header(text).expect_err(text)
    }

    /// A fault of a column's name without the help that follows it.
    fn name_fault_of(text: &str) -> String {
        let fault = fault_of(text);
        let help = ": a column is named as \"winter weekday\" or \"Winter Werktag\"";
        fault.strip_suffix(help).expect(&fault).to_string()
    }

    #[test]
    fn one_line_names_the_columns_in_any_order() {
        let wanted = Header {
            group: Some(Group::G0),
            days: IN_ORDER,
            length: 1,
        };
        assert_eq!(header(ENGLISH), Ok(wanted));
        let german = "Uhrzeit;Üb-Werktag;Üb-Sonnabend;Üb-Sonntag;So-Werktag;So-Sonnabend;So-Sonntag;Wi-Werktag;\
                      Wi-Sonnabend;Wi-Sonntag";
        assert_eq!(days_of(german), [6, 7, 8, 3, 4, 5, 0, 1, 2]);
        assert_eq!(header(german).expect(german).group, None);
        let backward = "time,Sunday Winter,Saturday Winter,Weekday Winter,SUNDAY SUMMER,SATURDAY SUMMER,WEEKDAY SUMMER,\
                        transition-sunday,transition-saturday,transition-weekday,,";
        assert_eq!(days_of(backward), [2, 1, 0, 5, 4, 3, 8, 7, 6]);
    }

    #[test]
    fn seasons_stand_above_day_types() {
        let text = format!("{SEASONS}\n{DAY_TYPES}\n00:15");
        let wanted = Header {
            group: None,
            days: WEEKDAYS_LAST,
            length: 2,
        };
        assert_eq!(header(&text), Ok(wanted));
        let short = text.replace("Übergang;;", "Übergang");
        assert_eq!(days_of(&short), WEEKDAYS_LAST);
        let full = text.replace(
            SEASONS,
            ";Winter (Wi);Winter (Wi);Winter (Wi);Sommer (So);Sommer (So);Sommer (So);Übergang;;",
        );
        assert_eq!(days_of(&full), WEEKDAYS_LAST);
    }

    #[test]
    fn titles_and_units_are_passed_over() {
        let units = ";W;W;W;W;W;W;W;W;W";
        for (text, length) in [
            (format!("Lastprofil H0;;;\n{SEASONS}\n{DAY_TYPES}\n"), 3),
            (
                format!(
                    "Werte für Werktag und Sonntag, 1000 kWh/a\nProfil;H0\n{SEASONS}\n{DAY_TYPES}"
                ),
                4,
            ),
            (format!("h0{SEASONS}\n{DAY_TYPES}\n{units}\n00:15"), 3),
            (format!("H0{SEASONS}\n{DAY_TYPES}\n[W]\n00:15"), 3),
            (format!("{SEASONS}\n{DAY_TYPES}\nProfil H0;in W;;\n"), 3),
            (
                format!("H0{SEASONS};in W\n{}", DAY_TYPES.replace(";S", " ;S")),
                2,
            ),
            (
                format!(
                    "H0 (1000 kWh/a){}\n{DAY_TYPES}",
                    SEASONS.replace("Sommer", "Sommer [W]")
                ),
                2,
            ),
        ] {
            let found = header(&text).expect(&text);
            assert_eq!(
                (found.length, found.days),
                (length, WEEKDAYS_LAST),
                "{text}"
            );
            assert_eq!(found.group, Some(Group::H0), "{text}");
        }
    }

    #[test]
    fn a_column_that_stands_twice_is_named() {
        assert_eq!(
            fault_of(&ENGLISH.replace("summer Sunday", "Winter-Samstag")),
            "line 1, column 7: winter Saturday stands twice, first in column 3"
        );
        assert_eq!(
            fault_of(&format!("{SEASONS}\n{DAY_TYPES};Werktag")),
            "line 2, column 11: transition weekday stands twice, first in column 10"
        );
    }

    #[test]
    fn columns_that_are_missing_are_named() {
        assert_eq!(
            fault_of(&ENGLISH.replace(";transition Sunday", "")),
            "line 1: the column transition Sunday is missing"
        );
        assert_eq!(
            fault_of(&ENGLISH.replace("winter weekday;winter Saturday;", "")),
            "line 1: the columns winter weekday, winter Saturday are missing"
        );
        assert_eq!(
            fault_of(&ENGLISH.replace("winter Sunday", "")),
            "line 1, column 4: the column has no name"
        );
    }

    #[test]
    fn a_name_without_season_and_day_is_named() {
        assert_eq!(
            fault_of("L0;a;b;c;d;e;f;g;h;i\n00:15"),
            "line 1, column 2: \"a\" names no season and day: a column is named as \"winter weekday\" or \"Winter Werktag\""
        );
        assert_eq!(
            name_fault_of(&ENGLISH.replace("winter Sunday", "winter Monday")),
            "line 1, column 4: \"winter Monday\" names no day"
        );
        assert_eq!(
            name_fault_of(&format!("{ENGLISH};Bemerkung")),
            "line 1, column 11: \"Bemerkung\" names no season and day"
        );
        assert_eq!(
            name_fault_of(DAY_TYPES),
            "line 1, column 2: \"Samstag\" names no season"
        );
        assert_eq!(
            name_fault_of(&format!(";;Winter;;;Sommer;;;Übergang\n{DAY_TYPES}")),
            "line 2, column 2: \"Samstag\" names no season"
        );
        assert_eq!(
            name_fault_of(&format!("{SEASONS}\nUhrzeit;Mo-Fr;Sa;So")),
            "line 2, column 2: \"Winter Mo-Fr\" names no day"
        );
    }

    #[test]
    fn seasons_without_day_types_are_a_fault() {
        let fault = "line 1: the columns name no days, and no line below does: a column is named as \"winter weekday\" or \"Winter Werktag\"";
        assert_eq!(fault_of(SEASONS), fault);
        assert_eq!(fault_of(&format!("{SEASONS}\n00:15;1")), fault);
    }

    #[test]
    fn a_header_that_is_missing_is_a_fault() {
        let what = "the header is missing: no line names columns as \"winter weekday\"";
        assert_eq!(fault_of(""), format!("line 1: {what}"));
        assert_eq!(fault_of("G0\nWinter\n"), format!("line 1: {what}"));
        assert_eq!(
            fault_of("G0\n\n0:15;1;2\n"),
            "line 3: the header is missing: 0:15 stands here"
        );
    }

    #[test]
    fn a_name_over_the_times_is_a_fault() {
        assert_eq!(
            fault_of(ENGLISH.strip_prefix("G0;").expect("group")),
            "line 1, column 1: \"winter weekday\" stands over the column of the times"
        );
        assert_eq!(
            fault_of(&format!("{}\n{DAY_TYPES}", &SEASONS[1..])),
            "line 1, column 1: \"Winter\" stands over the column of the times"
        );
        assert_eq!(
            days_of(&ENGLISH.replace("G0", "Uhrzeit, Winter und Sommer")),
            IN_ORDER
        );
    }

    #[test]
    fn other_units_are_a_fault() {
        for (text, place, field) in [
            (ENGLISH.replace("G0", "[kW]"), "line 1, column 1", "[kW]"),
            (
                ENGLISH.replace("G0", "Leistung in kW"),
                "line 1, column 1",
                "Leistung in kW",
            ),
            (
                ENGLISH.replace("winter Sunday", "winter Sunday [kWh]"),
                "line 1, column 4",
                "winter Sunday [kWh]",
            ),
            (format!("{ENGLISH}\n;W;Wh"), "line 2, column 3", "Wh"),
            (format!("{ENGLISH}\nin kWh"), "line 2, column 1", "in kWh"),
            (
                format!("{}\n{DAY_TYPES}", SEASONS.replace("Sommer", "Sommer, kW")),
                "line 1, column 5",
                "Sommer, kW",
            ),
            (
                format!("{SEASONS}\n{}", DAY_TYPES.replace("[W]", "[Wh]")),
                "line 2, column 1",
                "[Wh]",
            ),
        ] {
            assert_eq!(
                fault_of(&text),
                format!("{place}: the values must be watts, and {field:?} stands here")
            );
        }
    }

    #[test]
    fn groups_of_titles_and_header_must_agree() {
        assert_eq!(
            fault_of(&format!("Lastprofil H0\n{ENGLISH}")),
            "line 2, column 1: G0 is named here, and H0 in line 1"
        );
        assert_eq!(
            fault_of(&ENGLISH.replace("G0", "G9")),
            "line 1, column 1: \"G9\" is no group: the groups are H0, G0, G1, G2, G3, G4, G5, G6, L0, L1, L2"
        );
    }
}
