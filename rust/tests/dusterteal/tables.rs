//! Tables as spreadsheets write them: every form gives the same profile file, and what is wrong is named by its place.
use std::path::Path;

use slp::Group;

use crate::made::{self, packed, rows, stored, table, until, values, watts, DAYS, FILE, TABLE};
use crate::tool::{file, folder, run, says, warned, written};

const IN_ORDER: [usize; 9] = [0, 1, 2, 3, 4, 5, 6, 7, 8];
const GERMAN: &str =
    "G0;Winter Werktag;Winter Samstag;Winter Sonntag;Sommer Werktag;Sommer Samstag;Sommer Sonntag;\
                      Übergang Werktag;Übergang Samstag;Übergang Sonntag\n";

/// The table `TABLE` without its remarks.
fn plain() -> String {
    table("G0", &values())
}

/// The same without its header.
fn plain_rows() -> String {
    let plain = plain();
    plain.split_once('\n').expect("a header").1.to_owned()
}

/// A table with each line made another.
fn by_line(table: &str, line: impl Fn(&str) -> String) -> String {
    table.lines().map(line).collect()
}

/// A table with each field made another.
fn by_field(table: &str, separator: &str, field: impl Fn(&str) -> String) -> String {
    by_line(table, |line| {
        let fields: Vec<String> = line.split(';').map(&field).collect();
        fields.join(separator) + "\n"
    })
}

/// A table with the times that `time` makes of the positions.
fn with_times(time: impl Fn(usize) -> String) -> String {
    let rows = rows(&values(), IN_ORDER, |position, values| {
        let values: Vec<String> = values.iter().copied().map(watts).collect();
        format!("{};{}\n", time(position), values.join(";"))
    });
    format!("G0;{}\n{}", DAYS.join(";"), rows.concat())
}

/// A table whose columns have this order, under these header lines.
fn with_columns(header: &str, days: [usize; 9]) -> String {
    let rows = rows(&values(), days, |position, values| {
        let values: Vec<String> = values.iter().copied().map(watts).collect();
        format!("{};{}\n", until(position), values.join(";"))
    });
    header.to_owned() + &rows.concat()
}

/// A text in Windows-1252; of its characters only those of Latin-1 are used.
fn in_windows_1252(text: &str) -> Vec<u8> {
    text.chars()
        .map(|character| u8::try_from(u32::from(character)).expect("a character of Latin-1"))
        .collect()
}

/// The plain table in each form that is taken.
fn forms() -> Vec<(&'static str, Vec<u8>)> {
    let in_quotes = |field: &str| format!("\"{field}\"");
    let more_zeros = |field: &str| match field.contains(',') {
        true => format!("{field}0"),
        false => field.to_owned(),
    };
    let without_zero = |position| {
        let time = until(position);
        time.strip_prefix('0').unwrap_or(&time).to_owned()
    };
    let midnight_as = |midnight: &'static str| {
        move |position| match position {
            95 => midnight.to_owned(),
            _ => until(position),
        }
    };
    let two_lines = with_columns(
        "G0;Winter;;;Sommer;;;Übergang;;\n\
         ;Samstag;Sonntag;Werktag;Samstag;Sonntag;Werktag;Samstag;Sonntag;Werktag\n",
        [1, 2, 0, 4, 5, 3, 7, 8, 6],
    );
    let backward = with_columns(
        "G0;transition Sunday;transition Saturday;transition weekday;summer Sunday;summer Saturday;summer weekday;\
         winter Sunday;winter Saturday;winter weekday\n",
        [8, 7, 6, 5, 4, 3, 2, 1, 0],
    );
    let german = GERMAN.to_owned() + &plain_rows();
    let points = plain().replace(',', ".");
    let texts = [
        ("plain", plain()),
        ("columns in another order", backward),
        ("German", german.clone()),
        ("German, Sonnabend", german.replace("Samstag", "Sonnabend")),
        (
            "German, short",
            german
                .replace("Winter ", "Wi-")
                .replace("Sommer ", "So-")
                .replace("Übergang ", "Üb-"),
        ),
        (
            "German, Uebergang",
            german.replace("Übergang", "Uebergangszeit"),
        ),
        (
            "German, Feiertag",
            german.replace("Sonntag", "Sonntag/Feiertag"),
        ),
        ("capitals", plain().to_uppercase()),
        ("two header lines", two_lines.clone()),
        ("hours of one digit", with_times(without_zero)),
        ("0:00 last", with_times(midnight_as("0:00"))),
        ("00:00 last", with_times(midnight_as("00:00"))),
        ("00:00:00 last", with_times(midnight_as("00:00:00"))),
        ("seconds", with_times(|position| until(position) + ":00")),
        ("quotes", by_field(&plain(), ";", in_quotes)),
        ("declared separator", format!("sep=;\n{}", plain())),
        ("tabs", plain().replace(';', "\t")),
        (
            "declared tabs",
            format!("sep=\t\n{}", plain().replace(';', "\t")),
        ),
        ("decimal points", points.clone()),
        ("commas", points.replace(';', ",")),
        (
            "commas and decimal commas in quotes",
            by_field(&plain(), ",", in_quotes),
        ),
        ("mark of UTF-8", format!("\u{feff}{}", plain())),
        ("lines that end in CR LF", plain().replace('\n', "\r\n")),
        ("no line end at the end", plain().trim_end().to_owned()),
        (
            "empty rows",
            by_line(&plain(), |line| format!("{line}\n\n;;;;;;;;;\n")),
        ),
        (
            "separators at the end",
            by_line(&plain(), |line| format!("{line};;;\n")),
        ),
        (
            "spaces",
            by_field(&plain(), ";", |field| format!(" {field} ")),
        ),
        ("more zeros", by_field(&plain(), ";", more_zeros)),
        ("remarks", format!("# made up\n{}# the end\n", plain())),
        (
            "title and units",
            format!(
                "Lastprofil G0;;;\n\n{};[W];[W]\n{}",
                GERMAN.replace("G0", "Uhrzeit"),
                plain_rows()
            ),
        ),
        (
            "title that begins with the mark",
            format!("SLP G0\n{}", plain().replacen("G0", "Uhrzeit", 1)),
        ),
        (
            "all at once",
            format!(
                "\u{feff}sep=;\r\n{}",
                two_lines
                    .replace('\n', ";\r\n\r\n")
                    .replace("24:00", "0:00")
            ),
        ),
    ];
    let bytes = [
        ("Windows-1252", in_windows_1252(&german)),
        (
            "Windows-1252, two header lines",
            in_windows_1252(&two_lines),
        ),
    ];
    let texts = texts.map(|(name, text)| (name, text.into_bytes()));
    texts.into_iter().chain(bytes).collect()
}

#[test]
fn every_form_gives_the_same_profile_file() {
    let folder = folder("tables_forms");
    let expected = stored(FILE);
    for (name, content) in forms() {
        let outcome = run(&["pack", &file(&folder, "table.csv", content)]);
        assert_eq!((outcome.status, outcome.said.as_str()), (0, ""), "{name}");
        assert!(outcome.written == expected, "{name}");
    }
}

#[test]
fn every_form_is_accepted_by_check_and_gives_the_same_series() {
    let folder = folder("tables_series");
    let series = |profiles: &str| {
        let options = ["--profiles", profiles, "--holidays", "none"];
        written(&[&["series", "G0", "2000-03-26", "1000"][..], &options].concat())
    };
    let (checked, expected) = (written(&["check", TABLE]), series(FILE));
    for (name, content) in forms() {
        let table = &file(&folder, "table.csv", content);
        assert_eq!(
            written(&["check", table]),
            checked.replace(TABLE, table),
            "{name}"
        );
        assert_eq!(series(table), expected, "{name}");
    }
}

/// The tool refuses a table in these words.
fn expect_fault(folder: &Path, content: impl AsRef<[u8]>, what: &str) {
    let path = &file(folder, "table.csv", content);
    let message = format!("{path}, {what}");
    says(&["check", path], 1, &message);
    let options = ["--profiles", path, "--holidays", "none"];
    says(
        &[&["series", "G0", "2000", "1000"][..], &options].concat(),
        1,
        &message,
    );
}

/// The plain table with another row at a time, or without it.
fn with_row(time: &str, row: impl Fn(&str) -> String) -> String {
    by_line(&plain(), |line| match line.starts_with(time) {
        true => row(line),
        false => format!("{line}\n"),
    })
}

#[test]
fn rows_that_are_missing_or_too_many_are_named_by_their_time() {
    let folder = folder("tables_rows");
    let without = |time| with_row(time, |_| String::new());
    let first_rows = |count: usize| {
        let lines: Vec<_> = plain().lines().take(1 + count).map(str::to_owned).collect();
        lines.join("\n")
    };
    for (table, what) in [
        (
            without("09:30"),
            "line 39: the row of 09:30 is missing: 09:45 stands here",
        ),
        (
            without("00:15"),
            "line 2: the row of 00:15 is missing: 00:30 stands here",
        ),
        (without("24:00"), "line 97: the row of 24:00 is missing"),
        (
            first_rows(92),
            "line 94: the rows of 23:15 to 24:00 are missing",
        ),
        (
            first_rows(0),
            "line 2: the rows of 00:15 to 24:00 are missing",
        ),
        (
            with_row("09:30", |row| format!("{row}\n{row}\n")),
            "line 40: the row of 09:30 comes again: 09:45 should stand here",
        ),
        (
            plain() + "00:15;1;1;1;1;1;1;1;1;1\n",
            "line 98: \"00:15\" stands behind the row of 24:00, the last of 96",
        ),
        (
            plain_rows(),
            "line 1: the header is missing: 00:15 stands here",
        ),
        (
            with_row("09:30", |row| row.replace("09:30", "09:31") + "\n"),
            "line 39, column 1: 09:31 is no end of a quarter hour: 09:30 should stand here",
        ),
    ] {
        expect_fault(&folder, table, what);
    }
}

/// Times of the quarter hours' beginnings would shift every value.
#[test]
fn a_table_that_begins_with_midnight_is_refused() {
    let folder = folder("tables_midnight");
    for midnight in ["0:00", "00:00"] {
        let table = with_times(|position| match position {
            0 => midnight.to_owned(),
            _ => until(position - 1),
        });
        let what = format!(
            "line 2: {midnight} stands first, so the times seem to name quarter hours by their beginning: a time here \
             must be a quarter hour's end, 00:15 to 24:00"
        );
        expect_fault(&folder, table, &what);
    }
}

#[test]
fn a_value_that_is_wrong_is_named_by_line_and_column() {
    let folder = folder("tables_values");
    for (value, what) in [
        ("", "the cell is empty"),
        ("63,25", "\"63,25\" has more than one decimal"),
        ("2000,1", "\"2000,1\" is above 2000.0 W, the largest value"),
        ("1.234,5", "\"1.234,5\" has a thousands separator"),
        (
            "1.200",
            "\"1.200\" may be 1200 with a thousands separator: write one decimal",
        ),
        ("-1,0", "\"-1,0\" is negative"),
        ("#WERT!", "\"#WERT!\" is no number"),
        (
            "0,0632",
            "\"0,0632\" has more than one decimal: it looks like kW, and the values must be watts",
        ),
    ] {
        let row = |row: &str| {
            let mut fields: Vec<&str> = row.split(';').collect();
            fields[6] = value;
            fields.join(";") + "\n"
        };
        let allowed = "a value is 0 to 2000 W, with at most one decimal";
        let what = format!("line 39, column 7: {what}; {allowed}");
        expect_fault(&folder, with_row("09:30", row), &what);
    }
}

#[test]
fn headers_that_do_not_fit_are_named() {
    let folder = folder("tables_headers");
    let plain = plain();
    let help = "a column is named as \"winter weekday\" or \"Winter Werktag\"";
    for (table, what) in [
        (
            plain.replace("winter weekday", "winter weekday [kW]"),
            "line 1, column 2: the values must be watts, and \"winter weekday [kW]\" stands here".into(),
        ),
        (
            plain.replace("\n00:15", "\n;kW;kW\n00:15"),
            "line 2, column 2: the values must be watts, and \"kW\" stands here".into(),
        ),
        (
            plain.replace("summer Sunday", "winter Saturday"),
            "line 1, column 7: winter Saturday stands twice, first in column 3".into(),
        ),
        (
            plain.replace("summer Sunday", "Monday"),
            format!("line 1, column 7: \"Monday\" names no season and day: {help}"),
        ),
        (
            plain.replace(";transition Sunday", ""),
            "line 1: the column transition Sunday is missing".into(),
        ),
        (
            plain.replace("G0", "G7"),
            "line 1, column 1: \"G7\" is no group: the groups are H0, G0, G1, G2, G3, G4, G5, G6, L0, L1, L2".into(),
        ),
        (
            plain.replace(';', ","),
            "line 2: 19 fields, and the header has 10: commas split the fields, so a value with a decimal comma must \
             stand in quotes"
                .into(),
        ),
        (
            format!("sep=|\n{}", plain.replace(';', "|")),
            "line 1: the separator must be a semicolon, a tab or a comma".into(),
        ),
        (
            "Guten Tag".into(),
            "line 1: the header is missing: no line names columns as \"winter weekday\"".into(),
        ),
    ] {
        expect_fault(&folder, table, &what);
    }
}

fn in_utf_16(text: &str, bytes: fn(u16) -> [u8; 2]) -> Vec<u8> {
    text.encode_utf16().flat_map(bytes).collect()
}

/// Alone such a file is no profile file, beside others and for `pack` no table.
#[test]
fn files_that_are_no_text_are_told_by_what_they_are() {
    let folder = folder("tables_binary");
    let marked = format!("\u{feff}{}", plain());
    let utf_16 = "UTF-16 text: save it as CSV in UTF-8";
    let archive = "a spreadsheet or zip archive (.xlsx, .ods): save the sheet as CSV";
    for (name, content, kind) in [
        ("marked.csv", in_utf_16(&marked, u16::to_le_bytes), utf_16),
        ("marked.txt", in_utf_16(&marked, u16::to_be_bytes), utf_16),
        ("plain.csv", in_utf_16(&plain(), u16::to_le_bytes), utf_16),
        ("plain.txt", in_utf_16(&plain(), u16::to_be_bytes), utf_16),
        ("book.xlsx", b"PK\x03\x04\x14\0\x06\0".to_vec(), archive),
        (
            "book.ods",
            b"PK\x03\x04\x14\0\0\x08mimetype".to_vec(),
            archive,
        ),
        (
            "book.xls",
            b"\xD0\xCF\x11\xE0\xA1\xB1\x1A\xE1\0\0".to_vec(),
            "an old Excel file (.xls): save the sheet as CSV",
        ),
        (
            "paper.pdf",
            b"%PDF-1.4\n%\xE2\xE3\xCF\xD3\n".to_vec(),
            "a PDF file",
        ),
        (
            "picture.png",
            b"\x89PNG\r\n\x1A\n\0\0\0\rIHDR".to_vec(),
            "a binary file",
        ),
        (
            "cut.csv",
            [plain().as_bytes(), b"\0\0\0\0"].concat(),
            "a binary file",
        ),
    ] {
        let path = &file(&folder, name, content);
        let alone = format!("{path}: this is no profile file: it is {kind} (question 1, place 0)");
        says(&["check", path], 1, &alone);
        let line = |profiles: &[&str]| {
            let words = [
                "series",
                "G0",
                "2000",
                "1000",
                "--holidays",
                "none",
                "--profiles",
            ];
            let outcome = run(&[&words[..], profiles].concat());
            (outcome.status, outcome.said)
        };
        assert_eq!(line(&[path]), (1, format!("dusterteal: {alone}\n")));
        let beside = format!("{path} is {kind}");
        assert_eq!(line(&[TABLE, path]), (1, format!("dusterteal: {beside}\n")));
        says(&["pack", path], 1, &beside);
    }
}

#[test]
fn a_table_without_a_group_has_that_of_its_files_name() {
    let folder = folder("tables_group");
    let nameless = plain().replacen("G0", "Uhrzeit", 1);
    for (name, group) in [
        ("G0.csv", "G0"),
        ("l2.txt", "L2"),
        ("h0", "H0"),
        ("G4 neu_2026.csv", "G4"),
    ] {
        let path = &file(&folder, name, &nameless);
        let said = run(&["check", path]).written;
        let expected = format!("{path}: accepted, a table with {group}\n");
        assert!(said.starts_with(expected.as_bytes()), "{name}");
    }
    // What the table says counts before the name.
    let path = &file(&folder, "h0.csv", plain());
    let said = warned(
        &["check", path],
        &[&format!("{path} has a table of G0, and not of H0")],
    );
    assert!(said.starts_with(&format!("{path}: accepted, a table with G0\n")));

    let hint = "put it into the first field of the header or into a line above, or name the file by it, as G0.csv; \
                the groups are H0, G0, G1, G2, G3, G4, G5, G6, L0, L1, L2";
    for name in ["shop.csv", "G0 G1.csv", "G7.csv"] {
        let path = &file(&folder, name, &nameless);
        says(
            &["check", path],
            1,
            &format!("{path} does not name its group: {hint}"),
        );
    }
}

#[test]
fn two_tables_have_not_the_same_group() {
    let folder = folder("tables_twice");
    let [one, other] = ["a.csv", "b.csv"].map(|name| file(&folder, name, plain()));
    let message = format!("{one} and {other} have the same group, G0");
    let options = ["--holidays", "none", "--profiles", &one, &other];
    says(
        &[&["series", "G0", "2000", "1000"][..], &options].concat(),
        1,
        &message,
    );
    says(&["pack", &one, &other], 1, &message);
}

#[test]
fn a_profile_file_stands_alone() {
    let folder = folder("tables_beside");
    let table = &file(&folder, "h0.csv", made::table("H0", &values()));
    let message = format!("{FILE} is a profile file: only tables are put together");
    for profiles in [[FILE, table], [table, FILE], [FILE, FILE]] {
        let line = [
            "series",
            "G0",
            "2000",
            "1000",
            "--holidays",
            "none",
            "--profiles",
        ];
        says(&[&line[..], &profiles].concat(), 2, &message);
    }
}

#[test]
fn several_tables_stand_in_any_order() {
    let folder = folder("tables_several");
    let groups = [Group::H0, Group::G0, Group::L2];
    let path = |group: Group| file(&folder, group.name(), table(group.name(), &values()));
    let [h0, g0, l2] = groups.map(path);
    let packed = file(&folder, "all.slp", packed(&groups, &values()));
    for group in groups {
        let series = |profiles: &[&String]| {
            let mut line = vec![
                "series",
                group.name(),
                "2000-10-29",
                "1000",
                "--holidays",
                "none",
                "--profiles",
            ];
            line.extend(profiles.iter().map(|path| path.as_str()));
            written(&line)
        };
        let expected = series(&[&packed]);
        assert_eq!(expected.lines().count(), 101);
        for tables in [[&h0, &g0, &l2], [&l2, &g0, &h0], [&g0, &l2, &h0]] {
            assert_eq!(series(&tables), expected, "{tables:?}");
        }
    }
}
