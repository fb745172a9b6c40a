//! The questions of document 01, each in the user's terms: what is wrong and where, then the question's number and its place.
use std::path::Path;

use slp::Group;

use crate::made::{packed, stored, values, FILE, TABLE};
use crate::profile_file::values_at;
use crate::tool::{expect_stopped, file, folder, run, says, warned, written};

/// What is asked for, as the command line says it.
#[derive(Clone, Copy)]
struct Asked<'a> {
    profiles: &'a str,
    group: &'a str,
    /// Of one day, for `explain`.
    period: &'a str,
    holidays: &'a str,
    yearly: &'a str,
    carry: &'a str,
}

const SOUND: Asked = Asked {
    profiles: FILE,
    group: "G0",
    period: "2000-03-26",
    holidays: "none",
    yearly: "1000",
    carry: "0",
};

/// The subcommands that make a series, and those of them that are given a carry.
const MAKERS: [&str; 6] = ["series", "sums", "explain", "days", "page", "request"];
const WITH_CARRY: [&str; 4] = ["series", "sums", "explain", "page"];

impl<'a> Asked<'a> {
    fn of(self, subcommand: &'a str) -> Vec<&'a str> {
        let mut line = vec![subcommand, self.group, self.period];
        if subcommand == "explain" {
            line.push("00:15");
        }
        line.extend([self.yearly, "--profiles", self.profiles]);
        line.extend(["--holidays", self.holidays]);
        if WITH_CARRY.contains(&subcommand) {
            line.extend(["--carry", self.carry]);
        }
        line
    }

    /// Each of these subcommands is refused in these words.
    fn expect_refused(self, subcommands: &[&str], message: &str) {
        for subcommand in subcommands {
            says(&self.of(subcommand), 1, message);
        }
    }
}

/// What the tests below put wrong is right to begin with.
#[test]
fn a_sound_request_is_accepted() {
    for subcommand in ["series", "sums", "days", "page"] {
        assert!(!written(&SOUND.of(subcommand)).is_empty(), "{subcommand}");
    }
    assert!(!warned(
        &SOUND.of("explain"),
        &["the run is taken to begin on 2000-03-26"]
    )
    .is_empty());
}

/// A file of H0 and G0 with some bytes put wrong.
fn damaged(bytes: &[(usize, u8)]) -> Vec<u8> {
    let mut file = packed(&[Group::H0, Group::G0], &values());
    for &(at, byte) in bytes {
        file[at] = byte;
    }
    file
}

/// Every subcommand that reads a profile file refuses this one in these words.
fn expect_refused_file(folder: &Path, content: &[u8], message: &str) {
    let profiles = &file(folder, "a.slp", content);
    let message = &format!("{profiles}: {message}");
    Asked { profiles, ..SOUND }.expect_refused(&MAKERS, message);
    for line in [
        &["check", profiles][..],
        &["check", profiles, "L2"],
        &["unpack", profiles, "G0"],
        &["compare", profiles, "H0", "G0"],
        &["compare", profiles, FILE],
        &["compare", FILE, profiles, "G0"],
    ] {
        says(line, 1, message);
    }
}

#[test]
fn a_file_that_is_no_profile_file_is_told_by_what_it_is() {
    let folder = folder("refusals_1");
    for (content, what) in [
        (&b""[..], "it is empty"),
        (b"SLP", "it has 3 bytes, fewer than 6"),
        (b"SLP\0\x01", "it has 5 bytes, fewer than 6"),
        (
            b"PK\x03\x04\x14\0\0\0\x08\0",
            "it is a spreadsheet or zip archive (.xlsx, .ods): save the sheet as CSV",
        ),
        (b"\x7FELF\x02\x01\x01\0\0\0", "it is a binary file"),
        (&stored("examples/year_2000.request"), "it is a binary file"),
    ] {
        let message = format!("this is no profile file: {what} (question 1, place 0)");
        expect_refused_file(&folder, content, &message);
    }
}

#[test]
fn another_version_is_named() {
    for (bytes, version) in [([(3, 0), (4, 7)], 7), ([(3, 1), (4, 0)], 256)] {
        let message = format!(
            "the profile file has version {version}; version 1 is allowed (question 2, place 0)"
        );
        expect_refused_file(&folder("refusals_2"), &damaged(&bytes), &message);
    }
}

#[test]
fn a_count_and_a_length_that_do_not_fit_are_named() {
    let folder = folder("refusals_3");
    for count in [0, 12, 255] {
        let message = format!(
            "the profile file says that it has {count} profiles; 1 to 11 are allowed (question 3, place 0)"
        );
        expect_refused_file(&folder, &damaged(&[(5, count)]), &message);
    }
    let sound = damaged(&[]);
    let longer = [&sound[..], b"\n"].concat();
    for (content, found, profiles, expected) in [
        (&damaged(&[(5, 1)])[..], 3464, "1 profile", 1735),
        (&damaged(&[(5, 3)]), 3464, "3 profiles", 5193),
        (&sound[..3463], 3463, "2 profiles", 3464),
        (&sound[..6], 6, "2 profiles", 3464),
        (&longer, 3465, "2 profiles", 3464),
    ] {
        let message = format!(
            "the profile file has {found} bytes; with {profiles} it should have {expected} (question 3, place 0)"
        );
        expect_refused_file(&folder, content, &message);
    }
}

#[test]
fn group_codes_that_are_not_allowed_are_named() {
    let folder = folder("refusals_4");
    for (bytes, message) in [
        (
            (6, 11),
            "group code 11; 0 (H0) to 10 (L2) are allowed (question 4, place 6)",
        ),
        (
            (1735, 255),
            "group code 255; 0 (H0) to 10 (L2) are allowed (question 4, place 1735)",
        ),
        (
            (6, 4),
            "group code 1 (G0) stands behind 4 (G3); the codes rise (question 4, place 1735)",
        ),
        (
            (1735, 0),
            "group code 0 (H0) stands behind 0 (H0); the codes rise (question 4, place 1735)",
        ),
    ] {
        expect_refused_file(&folder, &damaged(&[bytes]), message);
    }
}

#[test]
fn a_value_that_is_too_large_is_named_by_group_day_and_time() {
    let folder = folder("refusals_5");
    for (before, index, group, day, time) in [
        (0, 0, "H0", "winter weekday", "00:15"),
        (1, 96 * 4 + 24, "G0", "summer Saturday", "06:15"),
        (1, 863, "G0", "transition Sunday", "24:00"),
    ] {
        let place = values_at(before) + 2 * index;
        let [high, low] = 20_001_u16.to_be_bytes();
        let content = damaged(&[(place, high), (place + 1, low)]);
        let message = format!(
            "{group}, {day}, {time}: 2000.1 W; at most 2000.0 W is allowed (question 5, place {place})"
        );
        expect_refused_file(&folder, &content, &message);
    }
}

#[test]
fn a_group_that_is_not_there_is_told_with_those_that_are() {
    let folder = folder("refusals_6");
    let groups = [Group::H0, Group::G6, Group::L2];
    let profiles = &file(&folder, "a.slp", packed(&groups, &values()));
    let several = &format!("G0 is not in {profiles}, which has H0, G6, L2 (question 6, place 0)");
    let one = &format!("L1 is not in {TABLE}, which has G0 (question 6, place 0)");
    Asked { profiles, ..SOUND }.expect_refused(&MAKERS, several);
    let of_table = Asked {
        profiles: TABLE,
        group: "L1",
        ..SOUND
    };
    of_table.expect_refused(&MAKERS, one);
    for subcommand in ["check", "unpack"] {
        says(&[subcommand, profiles, "G0"], 1, several);
        says(&[subcommand, TABLE, "l1"], 1, one);
    }
}

#[test]
fn dates_that_are_not_real_are_named() {
    for (period, place, why) in [
        (
            "2000-02-30",
            0,
            "2000-02-30 does not exist: February 2000 has 29 days",
        ),
        (
            "29.02.2001",
            0,
            "2001-02-29 does not exist: February 2001 has 28 days",
        ),
        (
            "2000-04-31",
            0,
            "2000-04-31 does not exist: April 2000 has 30 days",
        ),
        (
            "2000-01-00",
            0,
            "2000-01-00 does not exist: the days of a month begin with 01",
        ),
        (
            "2000-13",
            0,
            "2000-13-01 does not exist: the months are 01 to 12",
        ),
        (
            "2000-00-01",
            0,
            "2000-00-01 does not exist: the months are 01 to 12",
        ),
        (
            "1995",
            0,
            "1995-01-01 lies outside 1996-01-01 to 2099-12-31",
        ),
        (
            "2100",
            0,
            "2100-01-01 lies outside 1996-01-01 to 2099-12-31",
        ),
        (
            "9999-99-99",
            0,
            "9999-99-99 lies outside 1996-01-01 to 2099-12-31",
        ),
        (
            "2000-01-01..2000-02-30",
            1,
            "2000-02-30 does not exist: February 2000 has 29 days",
        ),
        (
            "2000..2000-13",
            1,
            "2000-13-31 does not exist: the months are 01 to 12",
        ),
        (
            "2099-12..2100-01-01",
            1,
            "2100-01-01 lies outside 1996-01-01 to 2099-12-31",
        ),
        (
            "1995-12-31..2100",
            0,
            "1995-12-31 lies outside 1996-01-01 to 2099-12-31",
        ),
    ] {
        let message = &format!("PERIOD {period}: {why} (question 7, place {place})");
        let asked = Asked { period, ..SOUND };
        asked.expect_refused(&["series", "sums", "days", "page", "request"], message);
        says(&["day", period], 1, message);
    }
}

#[test]
fn a_date_of_one_figure_that_is_not_real_is_named() {
    let period = "30.02.2000";
    Asked { period, ..SOUND }.expect_refused(
        &["explain"],
        "DATE 30.02.2000: 2000-02-30 does not exist: February 2000 has 29 days (question 7, place 0)",
    );
}

#[test]
fn a_reversed_period_and_one_that_is_too_long_are_told_apart() {
    let makers = ["series", "sums", "days", "page", "request"];
    let period = "2000-03-26..2000-03-25";
    let message = "PERIOD 2000-03-26..2000-03-25: 2000-03-26 to 2000-03-25 ends before it begins (question 8, place 0)";
    Asked { period, ..SOUND }.expect_refused(&makers, message);
    says(&["day", period], 1, message);

    let period = "2000..2004-01-01";
    Asked { period, ..SOUND }.expect_refused(
        &makers,
        "PERIOD 2000..2004-01-01: 2000-01-01 to 2004-01-01 has 1462 days; a period has at most 1461 (question 8, place 0)",
    );
    // A calendar has no end but the span's.
    assert_eq!(written(&["day", period]).lines().count(), 1 + 1462);
    let period = "2000..2003";
    let listing = written(&Asked { period, ..SOUND }.of("days"));
    assert_eq!(listing.lines().count(), 1461 + 1);
}

/// 401 dates from 1 January 2000 on, of which each is one of its month's first 28 days.
fn many_dates() -> String {
    let months = (0..15).map(|month| (2000 + month / 12, 1 + month % 12));
    let dates = months
        .flat_map(|(year, month)| (1..=28).map(move |day| format!("{year}-{month:02}-{day:02}\n")));
    dates.take(401).collect()
}

#[test]
fn a_holiday_that_is_refused_is_named_by_its_line() {
    let folder = folder("refusals_9");
    for (list, line, what, place) in [
        (
            "# list\n\n2000-01-01\n2000-02-30 x\n2000-05-01\n",
            4,
            "2000-02-30 does not exist: February 2000 has 29 days",
            1,
        ),
        (
            "01.13.2000\n",
            1,
            "2000-13-01 does not exist: the months are 01 to 12",
            0,
        ),
        (
            "31.12.1995\n01.01.2000\n",
            1,
            "1995-12-31 lies outside 1996-01-01 to 2099-12-31",
            0,
        ),
        (
            "2000-01-01\n\n01.01.2000 again\n",
            3,
            "2000-01-01 stands in line 1 already",
            1,
        ),
        (
            &many_dates(),
            401,
            "the list has 401 dates; at most 400 are allowed",
            400,
        ),
    ] {
        let holidays = &file(&folder, "list.txt", list);
        let message = &format!("{holidays}, line {line}: {what} (question 9, place {place})");
        Asked { holidays, ..SOUND }.expect_refused(&MAKERS, message);
        says(&["day", "2000-03-26", "--holidays", holidays], 1, message);
    }
}

#[test]
fn four_hundred_holidays_are_accepted() {
    let list: Vec<String> = many_dates().lines().take(400).map(str::to_owned).collect();
    let holidays = &file(&folder("refusals_400"), "list.txt", list.join("\n"));
    assert_eq!(
        written(&Asked { holidays, ..SOUND }.of("series"))
            .lines()
            .count(),
        93
    );
}

#[test]
fn a_yearly_use_that_is_too_large_is_named() {
    for yearly in ["1000000001", "4294967295", "4294967296", "99999999999"] {
        let message =
            format!("KWH {yearly}: a yearly use is 0 to 1000000000 kWh (question 10, place 0)");
        Asked { yearly, ..SOUND }.expect_refused(&MAKERS, &message);
    }
    for yearly in ["0", "1000000000"] {
        assert_eq!(
            written(&Asked { yearly, ..SOUND }.of("days"))
                .lines()
                .count(),
            2
        );
    }
}

#[test]
fn a_carry_that_is_too_large_is_named() {
    for carry in ["40000", "99999999999"] {
        let message = format!("--carry {carry}: a carry is 0 to 39999 (question 11, place 0)");
        Asked { carry, ..SOUND }.expect_refused(&WITH_CARRY, &message);
    }
    let carry = "39999";
    assert_eq!(
        written(&Asked { carry, ..SOUND }.of("series"))
            .lines()
            .count(),
        93
    );
}

/// What is put wrong for each question from 1 to 5: bytes of the file.
const FILE_FAULTS: [(usize, u8); 5] = [(0, b'X'), (4, 7), (5, 3), (6, 11), (7, 0xFF)];

/// Of a request that is at fault in each question from one on, that one is told.
#[test]
fn the_first_question_that_is_answered_no_counts() {
    let folder = folder("refusals_order");
    let list = &file(&folder, "list.txt", "2000-02-30\n");
    for first in 1..=11 {
        let file_faults = FILE_FAULTS.get(first - 1..).unwrap_or_default();
        let from = |question: usize, fault, sound| if question >= first { fault } else { sound };
        let profiles = &file(&folder, "a.slp", damaged(file_faults));
        let period = match first {
            ..=7 => "2000-03-27..2000-02-30",
            8 => "2000-03-27..2000-03-26",
            _ => "2000-03-26",
        };
        let asked = Asked {
            profiles,
            group: from(6, "G1", "G0"),
            period,
            holidays: from(9, list, "none"),
            yearly: from(10, "1000000001", "1000"),
            carry: from(11, "40000", "0"),
        };
        for subcommand in ["series", "sums", "page"] {
            let outcome = run(&asked.of(subcommand));
            let told = format!(" (question {first}, place ");
            expect_stopped(&outcome, 1, &[&told]);
        }
    }
}

fn since<'a>(subcommand: &'a str, date: &'a str) -> Vec<&'a str> {
    let mut line = SOUND.of(subcommand);
    line.extend(["--since", date]);
    line
}

#[test]
fn a_run_begins_on_a_real_day() {
    for (date, why) in [
        (
            "2000-02-30",
            "2000-02-30 does not exist: February 2000 has 29 days",
        ),
        (
            "31.12.1995",
            "1995-12-31 lies outside 1996-01-01 to 2099-12-31",
        ),
        (
            "2100-01-01",
            "2100-01-01 lies outside 1996-01-01 to 2099-12-31",
        ),
    ] {
        for subcommand in WITH_CARRY {
            let message = format!("--since: {why} (question 7, place 0)");
            says(&since(subcommand, date), 1, &message);
        }
    }
    assert_eq!(written(&since("series", "1996-01-01")).lines().count(), 93);
}

#[test]
fn a_run_does_not_begin_after_the_period() {
    for subcommand in WITH_CARRY {
        let message = "--since 2000-03-27 lies after the first day that is asked for, 2000-03-26";
        says(&since(subcommand, "27.03.2000"), 1, message);
        assert!(!written(&since(subcommand, "26.03.2000")).is_empty());
    }
}

/// What is asked of the period comes before what is asked of the run's beginning.
#[test]
fn a_refused_period_is_told_before_the_beginning_of_the_run() {
    let yearly = "1000000001";
    let mut line = Asked { yearly, ..SOUND }.of("series");
    line.extend(["--since", "2000-02-30"]);
    says(
        &line,
        1,
        "KWH 1000000001: a yearly use is 0 to 1000000000 kWh (question 10, place 0)",
    );
}

/// The entry's place is that in the ordered list; its line is that of the file.
#[test]
fn a_refused_entry_of_an_unordered_list_is_named_by_its_line() {
    let folder = folder("refusals_unordered");
    let holidays = &file(&folder, "list.txt", "2000-05-01\n2000-02-30\n2000-01-01\n");
    let outcome = run(&Asked { holidays, ..SOUND }.of("series"));
    let told = format!("dusterteal: {holidays}, line 2: 2000-02-30 does not exist: February 2000 has 29 days (question 9, place 1)\n");
    expect_stopped(&outcome, 1, &[&told]);
    let sound = &file(&folder, "sound.txt", "2000-05-01\n2000-01-01\n");
    let line = Asked {
        holidays: sound,
        ..SOUND
    };
    warned(&line.of("series"), &["the dates are sorted"]);
}
