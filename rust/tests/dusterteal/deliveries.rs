//! `deliveries`: its lines by the independent implementation, how the readings may be written, and what is refused at which line.
use std::fs;

use crate::expected::{dashed, day_of, expect_text, Source, GROUPS};
use crate::made::{table, values, FILE};
use crate::tool::{expect_stopped, file, folder, run, run_with, says, stopped, text, warnings};

/// 01's flat profile, for which a day has 2,402 Wh with 1,000 kWh a year.
const FLAT: &str = "examples/constant.csv";

/// Three days of March 2000 with 2 kWh each.
const MARCH: &str = "2000-03-24;2\n2000-03-25;2\n2000-03-26;2\n";

/// What is said of metered energy that is out of proportion to the balanced one.
const DOUBT: &str = ": look at the dates, the unit, and whether this is the energy of the period";

/// What is asked for, as the command line says it.
#[derive(Clone, Copy)]
struct Asked<'a> {
    profiles: &'a str,
    group: &'a str,
    yearly: &'a str,
    holidays: &'a str,
    readings: &'a str,
    until: &'a str,
}

const SOUND: Asked = Asked {
    profiles: FLAT,
    group: "G0",
    yearly: "1000",
    holidays: "none",
    readings: "-",
    until: "2000-03-26",
};

impl<'a> Asked<'a> {
    fn line(self) -> Vec<&'a str> {
        let words = ["deliveries", self.group, self.yearly];
        let sources = ["--profiles", self.profiles, "--holidays", self.holidays];
        let periods = ["--readings", self.readings, "--until", self.until];
        [&words[..], &sources, &periods].concat()
    }

    /// What is written for readings on standard input, and nothing is said.
    fn of(self, readings: impl AsRef<[u8]>, options: &[&str]) -> String {
        let line = [&self.line(), options].concat();
        let outcome = run_with(&line, readings.as_ref());
        assert_eq!((outcome.status, outcome.said.as_str()), (0, ""), "{line:?}");
        String::from_utf8(outcome.written).expect("the output is text")
    }

    /// What is written for readings of a file, whose energy may be out of proportion.
    fn of_any(self) -> String {
        let outcome = run(&self.line());
        let doubts = outcome.said.lines().all(|said| said.contains(DOUBT));
        assert!(outcome.status == 0 && doubts, "{}", outcome.said);
        String::from_utf8(outcome.written).expect("the output is text")
    }

    /// Readings on standard input are refused in these words.
    fn expect_refused(self, readings: impl AsRef<[u8]>, message: &str) {
        let outcome = run_with(&self.line(), readings.as_ref());
        expect_stopped(&outcome, 1, &[]);
        assert_eq!(outcome.said, format!("dusterteal: {message}\n"));
    }
}

// The result.

#[test]
fn the_marked_days_of_march() {
    assert_eq!(
        SOUND.of(MARCH, &[]),
        "period;metered Wh;balanced Wh;difference Wh\n\
         2000-03-24..2000-03-24;2000;2402;-402\n\
         2000-03-25..2000-03-25;2000;2402;-402\n\
         2000-03-26..2000-03-26;2000;2303;-303\n\
         total;6000;7107;-1107\n"
    );
    assert_eq!(
        SOUND.of("25.3.2000;2\n26.3.2000;3", &[]),
        "period;metered Wh;balanced Wh;difference Wh\n\
         2000-03-25..2000-03-25;2000;2402;-402\n\
         2000-03-26..2000-03-26;3000;2302;698\n\
         total;5000;4704;296\n"
    );
}

#[test]
fn energy_is_exact_in_kilowatt_hours() {
    let comma = "period;metered kWh;balanced kWh;difference kWh\n\
                 2000-03-24..2000-03-24;2,000;2,402;-0,402\n\
                 2000-03-25..2000-03-25;2,000;2,402;-0,402\n\
                 2000-03-26..2000-03-26;2,000;2,303;-0,303\n\
                 total;6,000;7,107;-1,107\n";
    assert_eq!(SOUND.of(MARCH, &["--unit", "kWh"]), comma);
    let point = SOUND.of(MARCH, &["--unit=kwh", "--decimal=point"]);
    assert_eq!(point, comma.replace(',', "."));
    assert_eq!(SOUND.of(MARCH, &["--unit", "Wh"]), SOUND.of(MARCH, &[]));
}

/// A first date and metered kWh.
type Reading = (u32, u32);

/// The file of readings.
fn csv(list: &[Reading]) -> String {
    let line = |(first, metered): &Reading| format!("{};{metered}\n", dashed(*first));
    list.iter().map(line).collect()
}

/// What the tool should write, by the independent implementation.
fn expected(source: &Source, group: u8, yearly: u32, list: &[Reading], last: u32) -> String {
    let (starts, metered): (Vec<u32>, Vec<u32>) = list.iter().copied().unzip();
    let given = reference::Deliveries {
        file: &source.file,
        group,
        first: starts[0],
        last,
        starts: &starts,
        metered: &metered,
        holidays: &source.holidays,
        yearly,
    };
    let mut differences = vec![0; list.len()];
    reference::deliveries(&given, &mut differences).expect("the readings are accepted");
    let mut text = "period;metered Wh;balanced Wh;difference Wh\n".to_owned();
    let mut total = [0; 3];
    for (i, difference) in differences.into_iter().enumerate() {
        let metered = 1_000 * i64::from(metered[i]);
        let energies = [metered, metered - difference, difference];
        let end = starts.get(i + 1).map_or(last, |next| day_before(*next));
        let name = format!("{}..{}", dashed(starts[i]), dashed(end));
        text += &line(&name, energies);
        for (sum, energy) in total.iter_mut().zip(energies) {
            *sum += energy;
        }
    }
    text + &line("total", total)
}

fn line(name: &str, [metered, balanced, difference]: [i64; 3]) -> String {
    format!("{name};{metered};{balanced};{difference}\n")
}

fn day_before(date: u32) -> u32 {
    let wanted = day_of(date).number - 1;
    let mut days = reference::calendar::span();
    days.nth(wanted as usize).expect("a day of the span").date()
}

/// First days of months from January 2000 on, with figures that rise and fall.
fn months(count: u32) -> Vec<Reading> {
    let month = |i| 10_000 * (2000 + i / 12) + 100 * (i % 12 + 1) + 1;
    (0..count).map(|i| (month(i), 37 * i % 500)).collect()
}

#[test]
fn the_lines_are_those_of_the_reference() {
    let folder = folder("deliveries_lines");
    let source = Source::usual(&folder);
    let odd = vec![(20_000_115, 20), (20_000_326, 1_234), (20_001_029, 0)];
    for (group, yearly, list, last) in [
        (0, 3_500, months(12), 20_001_231),
        (1, 3_500, odd, 20_001_030),
        (10, 1_000_000_000, months(1), 20_000_131),
        (0, 0, vec![(20_000_229, u32::MAX)], 20_000_229),
    ] {
        let asked = Asked {
            profiles: &source.profiles,
            group: GROUPS[usize::from(group)],
            yearly: &yearly.to_string(),
            holidays: &source.list,
            readings: &file(&folder, "readings.csv", csv(&list)),
            until: &dashed(last),
        };
        let expected = expected(&source, group, yearly, &list, last);
        expect_text(&asked.of_any(), &expected, (group, yearly));
    }
}

/// 48 months are the 1,461 days of four years.
#[test]
fn one_to_48_periods_are_accepted() {
    let folder = folder("deliveries_48");
    let usual = Source::usual(&folder);
    let source = Source::new(&folder, "no_holidays", usual.file, Vec::new());
    for (count, last) in [(1, 20_031_231), (2, 20_000_201), (48, 20_031_231)] {
        let list = months(count);
        let asked = Asked {
            profiles: &source.profiles,
            readings: &file(&folder, "readings.csv", csv(&list)),
            until: &dashed(last),
            ..SOUND
        };
        let expected = expected(&source, 1, 1_000, &list, last);
        expect_text(&asked.of_any(), &expected, count);
        assert_eq!(expected.lines().count(), count as usize + 2);
    }
}

// How readings may be written.

#[test]
fn readings_are_taken_as_spreadsheets_write_them() {
    let sound = SOUND.of(MARCH, &[]);
    let windows_1252 =
        b"# Z\xE4hlpunkt 7\r\nDatum;kWh\r\n24.03.2000;2\r\n25.03.2000;2\r\n26.03.2000;2\r\n";
    assert_eq!(SOUND.of(windows_1252, &[]), sound);
    for readings in [
        MARCH.trim_end().to_owned(),
        MARCH.replace(';', "\t"),
        MARCH.replace(';', ","),
        MARCH.replace('\n', "\r\n"),
        MARCH
            .replace(";2", ";\"2\"")
            .replace("2000-", "\"2000-")
            .replace(";", "\";"),
        format!("date;kWh\n{MARCH}"),
        format!("Datum;Verbrauch [kWh]\n{MARCH}"),
        format!("\u{feff}First date;metered kWh\n{MARCH}"),
        format!("sep=;\nvon;kWh\n{MARCH}"),
        format!("# shop 7\n\n{}\n;;\n", MARCH.replace('\n', "\n# next\n\n")),
        "24.03.2000 ; 2\n25.3.2000;02;\n26.03.2000;2;;".to_owned(),
    ] {
        assert_eq!(SOUND.of(&readings, &[]), sound, "{readings}");
        let path = &file(&folder("deliveries_forms"), "readings.csv", &readings);
        let asked = Asked {
            readings: path,
            ..SOUND
        };
        assert_eq!(asked.of("", &[]), sound, "{readings}");
    }
}

/// The last day is named in both ways too.
#[test]
fn the_last_day_is_included() {
    let sound = SOUND.of(MARCH, &[]);
    let until = "26.03.2000";
    assert_eq!(Asked { until, ..SOUND }.of(MARCH, &[]), sound);
    let until = "2000-03-27";
    let longer = Asked { until, ..SOUND }.of(MARCH, &[]);
    assert!(
        longer.contains("\n2000-03-26..2000-03-27;2000;"),
        "{longer}"
    );
}

#[test]
fn what_can_not_be_read_is_named_by_line_and_column() {
    let allowed = "whole kWh are wanted, 0 to 4294967295, without separators";
    let a_line = "a line has the first date of a period and its metered kWh, split by a semicolon, a tab or a comma";
    for (readings, fault) in [
        (
            "date;kWh\n2000-03-24;2,5\n",
            format!("line 2, column 2: \"2,5\" has decimals or a thousands separator; {allowed}"),
        ),
        (
            "2000-03-24;1.234\n",
            format!("line 1, column 2: \"1.234\" has decimals or a thousands separator; {allowed}"),
        ),
        (
            "# a\n\n2000-03-24;-2\n",
            format!("line 3, column 2: \"-2\" is negative; {allowed}"),
        ),
        (
            "2000-03-24;2\n2000-03-25;4294967296\n",
            format!("line 2, column 2: \"4294967296\" is too large; {allowed}"),
        ),
        (
            "2000-03-24;2 kWh\n",
            format!("line 1, column 2: \"2 kWh\" is no number; {allowed}"),
        ),
        (
            "2000-03-24,2,5\n",
            format!("line 1: 3 fields: {a_line}; {allowed}"),
        ),
        ("2000-03-24 2\n", format!("line 1: 1 field: {a_line}")),
        (
            "2000-03-24;2\n2000-03-25;\n",
            "line 2, column 2: the metered kWh are missing; the end of the last period is said by --until".to_owned(),
        ),
        (
            "2000-03-24;2;read\n",
            format!("line 1: 3 fields: {a_line}; save the first two columns alone"),
        ),
        (
            "von;kWh;Bemerkung\n2000-03-24;2\n",
            "line 1, column 3: \"Bemerkung\" is not taken: save the first two columns alone".to_owned(),
        ),
        (
            "2000-03-24;2\nMarch 25;2\n",
            "line 2, column 1: \"March 25\" is no date: write it as 2026-03-26 or 26.03.2026".to_owned(),
        ),
        (
            "Datum;Zählerstand\n2000-03-24;2\n",
            "line 1: \"Datum\" and \"Zählerstand\" do not name the first date and the metered kWh of a period: a header is as date;kWh or Datum;kWh (the energy of the period in kWh is wanted, not what the meter shows), and a title is a line that begins with #".to_owned(),
        ),
        (
            "2000-03-24;\"2\n",
            "line 1, column 2: the field begins with a quote that none at its end closes".to_owned(),
        ),
    ] {
        SOUND.expect_refused(readings, &format!("standard input, {fault}"));
    }
    SOUND.expect_refused(
        b"PK\x03\x04\x14\0\0\0",
        &format!("standard input is a spreadsheet or zip archive (.xlsx, .ods): save the sheet as CSV; {a_line}"),
    );
}

// What the call refuses.

#[test]
fn the_ends_of_the_span_are_told_by_line_and_option() {
    for (readings, until, message) in [
        (
            "date;kWh\n2000-02-30;2\n",
            "2000-03-26",
            "standard input, line 2: 2000-02-30 does not exist: February 2000 has 29 days (question 7, place 0)",
        ),
        (
            "1995-12-31;2\n",
            "2000-02-30",
            "standard input, line 1: 1995-12-31 lies outside 1996-01-01 to 2099-12-31 (question 7, place 0)",
        ),
        (
            MARCH,
            "2000-02-30",
            "--until: 2000-02-30 does not exist: February 2000 has 29 days (question 7, place 1)",
        ),
        (
            "",
            "01.01.2100",
            "--until: 2100-01-01 lies outside 1996-01-01 to 2099-12-31 (question 7, place 0)",
        ),
        (
            "\n2000-03-24;2\n",
            "2000-03-23",
            "standard input, line 2: --until 2000-03-23 lies before 2000-03-24, the first date (question 8, place 0)",
        ),
        (
            "2000-01-01;2\n",
            "2004-01-01",
            "standard input, line 1: the periods have 1462 days together, from 2000-01-01 to --until 2004-01-01; at most 1461 are allowed (question 8, place 0)",
        ),
    ] {
        Asked { until, ..SOUND }.expect_refused(readings, message);
    }
}

#[test]
fn a_count_of_periods_that_is_not_allowed_is_named() {
    let until = "2003-12-31";
    let asked = Asked { until, ..SOUND };
    let none = "standard input has no period; 1 to 48 are allowed: a line has the first date of a period and its metered kWh, split by a semicolon, a tab or a comma (question 17, place 0)";
    for readings in ["", "\n", "# nothing\n", "Datum;kWh\n"] {
        asked.expect_refused(readings, none);
    }
    let list = format!("date;kWh\n{}", csv(&months(60)));
    asked.expect_refused(
        list,
        "standard input, line 50: this is the 49th of 60 periods; 1 to 48 are allowed (question 17, place 0)",
    );
}

#[test]
fn a_first_date_that_is_refused_is_named_by_its_line() {
    for (second, third, line, what, place) in [
        (
            "2000-02-30",
            "2000-03-26",
            3,
            "2000-02-30 does not exist: February 2000 has 29 days",
            1,
        ),
        (
            "2000-03-24",
            "2000-03-26",
            3,
            "2000-03-24 stands in line 2 already",
            1,
        ),
        (
            "2000-03-26",
            "2000-03-25",
            5,
            "2000-03-25 is earlier than 2000-03-26 in line 3: the lines have to stand in the order of their dates, the oldest first",
            2,
        ),
        (
            "2000-03-25",
            "2000-03-27",
            5,
            "2000-03-27 lies after --until 2000-03-26, the last day of the last period",
            2,
        ),
    ] {
        let readings = format!("date;kWh\n2000-03-24;2\n{second};2\n\n{third};2\n");
        let message = format!("standard input, line {line}: {what} (question 18, place {place})");
        SOUND.expect_refused(readings, &message);
    }
}

#[test]
fn the_other_questions_are_told_as_everywhere() {
    let folder = folder("deliveries_others");
    let damaged = &file(&folder, "a.slp", b"SLP");
    let list = &file(&folder, "list.txt", "# a\n2000-02-30\n");
    for (asked, message) in [
        (
            Asked {
                profiles: damaged,
                ..SOUND
            },
            format!("{damaged}: this is no profile file: it has 3 bytes, fewer than 6 (question 1, place 0)"),
        ),
        (
            Asked {
                profiles: FILE,
                group: "h0",
                ..SOUND
            },
            format!("H0 is not in {FILE}, which has G0 (question 6, place 0)"),
        ),
        (
            Asked {
                holidays: list,
                ..SOUND
            },
            format!("{list}, line 2: 2000-02-30 does not exist: February 2000 has 29 days (question 9, place 0)"),
        ),
        (
            Asked {
                yearly: "1000000001",
                ..SOUND
            },
            "KWH 1000000001: a yearly use is 0 to 1000000000 kWh (question 10, place 0)".to_owned(),
        ),
    ] {
        asked.expect_refused(MARCH, &message);
    }
}

/// What is at fault is put right in the order of the questions: each time the next one is told.
#[test]
fn the_first_question_that_is_answered_no_counts() {
    let folder = folder("deliveries_order");
    let list = &file(&folder, "list.txt", "2000-02-30\n");
    let many = csv(&months(49));
    let unordered = "2000-01-01;2\n2000-01-01;2\n";
    for (question, group, until, readings, holidays) in [
        (6, "G1", "2000-02-30", &many[..], &list[..]),
        (7, "G0", "2000-02-30", &many, list),
        (8, "G0", "1999-12-31", &many, list),
        (8, "G0", "2004-01-01", &many, list),
        (17, "G0", "2000-01-31", &many, list),
        (18, "G0", "2000-01-31", unordered, list),
        (9, "G0", "2000-01-31", "2000-01-01;2", list),
        (10, "G0", "2000-01-31", "2000-01-01;2", "none"),
    ] {
        let asked = Asked {
            group,
            yearly: "1000000001",
            holidays,
            until,
            ..SOUND
        };
        let outcome = run_with(&asked.line(), readings.as_bytes());
        let told = format!(" (question {question}, place ");
        expect_stopped(&outcome, 1, &[&told]);
    }
}

// What is said beside it, and what is written.

#[test]
fn energy_out_of_proportion_is_warned_of() {
    let folder = folder("deliveries_doubts");
    let warned = |readings: &str, until| {
        let readings = &file(&folder, "readings.csv", readings);
        let asked = Asked {
            readings,
            until,
            ..SOUND
        };
        warnings(&asked.line())
            .iter()
            .map(|warning| warning.replace(&readings[..], "FILE"))
            .collect::<Vec<_>>()
    };
    for (readings, until, line, more) in [
        (
            "2000-01-01;41230\n2000-02-01;41530\n",
            "2000-02-29",
            "line 1: 41230 kWh metered and 74 balanced in 2000-01-01..2000-01-31",
            "; 1 more such",
        ),
        (
            "Datum;kWh\n2000-01-01;70\n2000-02-01;370\n",
            "2000-02-01",
            "line 3: 370 kWh metered and 2 balanced in 2000-02-01..2000-02-01",
            "",
        ),
        (
            "2000-01-01;75\n2000-02-01;75\n",
            "2001-02-28",
            "line 2: 75 kWh metered and 946 balanced in 2000-02-01..2001-02-28",
            "",
        ),
    ] {
        let expected = format!("FILE, {line}{DOUBT}{more}");
        assert_eq!(warned(readings, until), [expected]);
    }
    let none: [&str; 0] = [];
    assert_eq!(warned("2000-01-01;75\n2000-02-01;0\n", "2000-02-29"), none);
}

#[test]
fn the_warnings_are_those_of_sums() {
    let folder = folder("deliveries_warnings");
    let tenths: Vec<u16> = values().iter().map(|value| value / 1000).collect();
    let kilowatts = &file(&folder, "G0.csv", table("G0", &tenths));
    let list = &file(&folder, "list.txt", "2000-01-01\n");
    let readings = &file(&folder, "readings.csv", "2000-01-01;0\n2000-12-01;0\n");
    let sources = ["--profiles", kilowatts, "--holidays", list];
    let sums = [
        &["sums", "G0", "2000-01-01..2001-01-31", "1000"][..],
        &sources,
    ]
    .concat();
    let deliveries = Asked {
        profiles: kilowatts,
        holidays: list,
        readings,
        until: "2001-01-31",
        ..SOUND
    };
    let found = warnings(&deliveries.line());
    assert_eq!(found, warnings(&sums));
    assert!(found[0].contains("lists no date of 2001"), "{found:?}");
    assert!(found[1].contains("does not list 2000-04-21"), "{found:?}");
    assert!(found[2].contains("look like kW"), "{found:?}");
    // A refused run is told alone.
    let yearly = "1000000001";
    let refused = Asked {
        yearly,
        ..deliveries
    };
    says(
        &refused.line(),
        1,
        "KWH 1000000001: a yearly use is 0 to 1000000000 kWh (question 10, place 0)",
    );
}

#[test]
fn a_refusal_leaves_an_old_file_as_it_was() {
    let folder = folder("deliveries_old");
    let out = &file(&folder, "out.csv", "old\n");
    let to = ["-o", out];
    for readings in ["", "2000-03-24;2,5\n", "2000-03-24;2\n2000-03-24;2\n"] {
        let line = [&SOUND.line()[..], &to].concat();
        let outcome = run_with(&line, readings.as_bytes());
        expect_stopped(&outcome, 1, &[]);
        assert_eq!(fs::read_to_string(out).expect("the old file"), "old\n");
    }
    assert_eq!(SOUND.of(MARCH, &to), "");
    let made = fs::read_to_string(out).expect("the new file");
    assert_eq!(made, SOUND.of(MARCH, &[]));
    assert_eq!(fs::read_dir(&folder).expect("the folder").count(), 1);
}

#[test]
fn the_readings_are_not_written_over() {
    let folder = folder("deliveries_apart");
    let readings = &file(&folder, "readings.csv", MARCH);
    let line = Asked { readings, ..SOUND }.line();
    let message = format!("{readings} is read or written already: name another file");
    says(&[&line[..], &["-o", readings]].concat(), 1, &message);
    assert_eq!(fs::read_to_string(readings).expect("the readings"), MARCH);
}

#[test]
fn readings_that_are_not_there_can_not_be_read() {
    let readings = &text(&folder("deliveries_nowhere").join("readings.csv"));
    let outcome = run(&Asked { readings, ..SOUND }.line());
    expect_stopped(&outcome, 3, &[&format!("cannot read {readings}: ")]);
}

// The command line.

#[test]
fn arguments_that_are_missing_or_not_understood_are_named() {
    let sources = ["--profiles", FLAT, "--holidays", "none"];
    let expect = |words: &[&str], what: &str| {
        let see = "\nSee `dusterteal deliveries --help`.";
        stopped(
            &[&["deliveries"], words].concat(),
            2,
            &[&format!("dusterteal: deliveries: {what}{see}")],
        );
    };
    expect(&["G0"], "KWH is missing");
    expect(
        &["G0", "x"],
        "KWH: \"x\" is no whole number, 0 to 1000000000, without separators",
    );
    expect(
        &["G0", "1000"],
        "--profiles is missing: name a profile file or CSV tables",
    );
    let words = [&["G0", "1000"][..], &sources].concat();
    expect(
        &words,
        "--readings is missing: name a file with the first date and the metered kWh of each period",
    );
    let words = [&words[..], &["--readings", "-"]].concat();
    expect(
        &words,
        "--until is missing: name the last day of the last period",
    );
    expect(
        &[&words[..], &["--until", "2000"]].concat(),
        "--until: \"2000\" is no date: write it as 2026-03-26 or 26.03.2026",
    );
    expect(
        &["G0", "2000", "1000"],
        "it takes GROUP KWH, and 3 words are given: \"G0\" \"2000\" \"1000\"; the periods are those of --readings and --until",
    );
    expect(
        &[
            "G0",
            "1000",
            "--profiles",
            "-",
            "--holidays",
            "none",
            "--readings",
            "-",
        ],
        "standard input can be read only once",
    );
    expect(
        &["G0", "1000", "--since", "2000-01-01"],
        "\"--since\" is no option: its options are --profiles, --holidays, --readings, --until, --unit, --decimal, -o",
    );
    expect(
        &["G0", "1000", "--unit", "kW"],
        "--unit: \"kW\" is none of Wh, kWh",
    );
}
