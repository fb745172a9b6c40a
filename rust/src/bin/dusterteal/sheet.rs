//! The lines and fields of a text that spreadsheets write.
use std::fmt;

/// What may separate fields, in the order in which it is looked for.
const SEPARATORS: [char; 3] = [';', '\t', ','];

/// What is wrong with a text, and where: its line and, where one field is meant, the field's number as the column, both from 1.
#[derive(Debug, Clone, PartialEq, Eq)]
pub struct Fault {
    line: usize,
    column: Option<usize>,
    what: String,
}

impl fmt::Display for Fault {
    fn fmt(&self, f: &mut fmt::Formatter) -> fmt::Result {
        write!(f, "line {}", self.line)?;
        if let Some(column) = self.column {
            write!(f, ", column {column}")?;
        }
        write!(f, ": {}", self.what)
    }
}

/// The lines of a text that have content, in fields.
#[derive(Debug, PartialEq, Eq)]
pub struct Sheet {
    pub separator: char,
    pub lines: Vec<Line>,
}

/// A line with content. A line break in quotes does not end it.
#[derive(Debug, PartialEq, Eq)]
pub struct Line {
    /// The number of its beginning in the text, from 1.
    pub number: usize,
    /// Trimmed and without quotes.
    pub fields: Vec<String>,
}

impl Sheet {
    /// A fault of the text as a whole, told at its first line.
    pub fn fault_at_start(&self, what: String) -> Fault {
        Fault {
            line: 1,
            column: None,
            what,
        }
    }

    /// A fault of the line that should follow the last one.
    pub fn fault_at_end(&self, what: String) -> Fault {
        Fault {
            line: self.lines.last().map_or(0, |line| line.number) + 1,
            column: None,
            what,
        }
    }
}

impl Line {
    /// The field at an index, empty where the line has none.
    pub fn field(&self, index: usize) -> &str {
        self.fields.get(index).map_or("", String::as_str)
    }

    /// The first field that is not empty.
    pub fn first_filled(&self) -> &str {
        let mut fields = self.fields.iter().map(String::as_str);
        fields.find(|field| !field.is_empty()).unwrap_or_default()
    }

    /// How many fields there are without the empty ones at the end.
    pub fn width(&self) -> usize {
        let last = self.fields.iter().rposition(|field| !field.is_empty());
        last.map_or(0, |index| index + 1)
    }

    /// A fault of the whole line.
    pub fn fault(&self, what: String) -> Fault {
        Fault {
            line: self.number,
            column: None,
            what,
        }
    }

    /// A fault of the field at an index.
    pub fn fault_at(&self, index: usize, what: String) -> Fault {
        Fault {
            line: self.number,
            column: Some(index + 1),
            what,
        }
    }
}

/// Splits a text of so many columns, two at least, in fields. Empty lines, lines of separators only and lines that begin with `#` are
/// passed over.
pub fn read(text: &str, columns: usize) -> Result<Sheet, Fault> {
    let declared = declared_separator(text)?;
    let mut reader = Reader {
        rest: text,
        number: 1,
        separator: declared.unwrap_or_else(|| found_separator(text, columns)),
    };
    if declared.is_some() {
        reader.skip_line();
    }
    let mut lines = Vec::new();
    while !reader.rest.is_empty() {
        if is_remark(reader.rest) {
            reader.skip_line();
            continue;
        }
        let line = reader.line()?;
        if line.width() > 0 {
            lines.push(line);
        }
    }
    Ok(Sheet {
        separator: reader.separator,
        lines,
    })
}

/// The separator of a first line as `sep=;`.
fn declared_separator(text: &str) -> Result<Option<char>, Fault> {
    let first = text.lines().next().unwrap_or_default();
    let first = first.trim_matches([' ', '"']);
    let declared = match first.split_once('=') {
        Some((name, value)) if name.eq_ignore_ascii_case("sep") => value,
        _ => return Ok(None),
    };
    match declared {
        ";" => Ok(Some(';')),
        "," => Ok(Some(',')),
        "\t" | "\\t" => Ok(Some('\t')),
        _ => Err(Fault {
            line: 1,
            column: None,
            what: "the separator must be a semicolon, a tab or a comma".into(),
        }),
    }
}

/// The separator that some line has often enough for all columns, as a header does; else one that stands anywhere.
fn found_separator(text: &str, columns: usize) -> char {
    let has = |line: &str, separator: char, times: usize| {
        // Every second part between quotes is outside of them.
        let outside = line.split('"').step_by(2);
        outside.flat_map(|part| part.matches(separator)).count() >= times
    };
    let find = |times: usize| {
        SEPARATORS.into_iter().find(|&separator| {
            let mut lines = text.lines().filter(|line| !is_remark(line));
            lines.any(|line| has(line, separator, times))
        })
    };
    find(columns - 1)
        .or_else(|| find(1))
        .unwrap_or(SEPARATORS[0])
}

/// Whether a line begins with `#`, also in quotes, as spreadsheets write a remark that has a comma.
fn is_remark(line: &str) -> bool {
    line.trim_start_matches([' ', '\t', '"']).starts_with('#')
}

/// Space beside a field. A tab and a line break may end one.
fn is_blank(c: char) -> bool {
    c.is_whitespace() && !matches!(c, '\t' | '\r' | '\n')
}

/// What is left of a text, and the number of the line where that begins.
struct Reader<'a> {
    rest: &'a str,
    number: usize,
    separator: char,
}

impl<'a> Reader<'a> {
    /// Takes the first bytes of the rest.
    fn take(&mut self, length: usize) -> &'a str {
        let (taken, rest) = self.rest.split_at(length);
        self.number += taken.matches('\n').count();
        self.rest = rest;
        taken
    }

    fn skip_line(&mut self) {
        let end = self.rest.find('\n').map_or(self.rest.len(), |at| at + 1);
        self.take(end);
    }

    fn line(&mut self) -> Result<Line, Fault> {
        let mut line = Line {
            number: self.number,
            fields: Vec::new(),
        };
        loop {
            let field = self.field().ok_or_else(|| {
                line.fault_at(
                    line.fields.len(),
                    "the field begins with a quote that none at its end closes".into(),
                )
            })?;
            line.fields.push(field.trim().to_string());
            if !self.rest.starts_with(self.separator) {
                self.skip_line();
                return Ok(line);
            }
            self.take(1);
        }
    }

    /// Takes a field, up to the separator or the line's end; `None` where it begins with a quote and does not end with one.
    fn field(&mut self) -> Option<String> {
        let blanks = self.rest.len() - self.rest.trim_start_matches(is_blank).len();
        self.take(blanks);
        if self.rest.starts_with('"') {
            return self.quoted_field();
        }
        Some(self.take_to_end_of_field().to_string())
    }

    fn quoted_field(&mut self) -> Option<String> {
        let mut field = String::new();
        self.take(1);
        loop {
            let end = self.rest.find('"')?;
            field += self.take(end);
            self.take(1);
            if !self.rest.starts_with('"') {
                break;
            }
            // Two quotes are one of the field.
            field += self.take(1);
        }
        let after = self.take_to_end_of_field();
        after.trim().is_empty().then_some(field)
    }

    fn take_to_end_of_field(&mut self) -> &'a str {
        let end = self.rest.find([self.separator, '\n']);
        self.take(end.unwrap_or(self.rest.len()))
    }
}

#[cfg(test)]
mod tests {
    use super::*;

    /// A text of ten columns, as a table has them.
    fn read(text: &str) -> Result<Sheet, Fault> {
        super::read(text, 10)
    }

    fn lines(text: &str) -> Vec<(usize, Vec<String>)> {
        let sheet = read(text).expect("fields");
        let lines = sheet.lines.into_iter();
        lines.map(|line| (line.number, line.fields)).collect()
    }

    fn fields(text: &str) -> Vec<String> {
        lines(text).remove(0).1
    }

    fn fault_of(text: &str) -> String {
        read(text).unwrap_err().to_string()
    }

    #[test]
    fn the_header_settles_the_separator() {
        let header = "a|b|c|d|e|f|g|h|i|j";
        for separator in SEPARATORS {
            let header = header.replace('|', &separator.to_string());
            for text in [
                format!("{header}\n"),
                format!("one, two; three\n{header}"),
                format!("# a;b;c;d;e;f;g;h;i;j\n{header}"),
                format!("\"a;b\"{}", &header[1..]),
            ] {
                assert_eq!(read(&text).expect("fields").separator, separator, "{text}");
            }
        }
    }

    #[test]
    fn a_short_header_has_semicolons_before_tabs_before_commas() {
        let separator = |text| read(text).expect("fields").separator;
        assert_eq!(separator("a,b\tc;d"), ';');
        assert_eq!(separator("a,b\tc"), '\t');
        assert_eq!(separator("a,b"), ',');
        assert_eq!(separator("\"a;b\",c"), ',');
        assert_eq!(separator("a"), ';');
        assert_eq!(separator(""), ';');
    }

    /// Where two columns are wanted, one separator is enough, and a comma in a field does not hide it.
    #[test]
    fn two_columns_have_one_separator() {
        let separator = |text| super::read(text, 2).expect("fields").separator;
        assert_eq!(separator("a;b\nc,d,e;f"), ';');
        assert_eq!(separator("a,b,c\nd;e"), ';');
        assert_eq!(separator("a\tb,c"), '\t');
        assert_eq!(separator("# a;b\nc,d"), ',');
    }

    #[test]
    fn a_first_line_declares_the_separator() {
        for (text, separator) in [
            ("sep=;\na;b,c", ';'),
            ("sep=,\na,b;c", ','),
            ("SEP=\t\r\na\tb;c", '\t'),
            ("sep=\\t\na\tb;c", '\t'),
            ("\"sep=,\" \na,b;c", ','),
        ] {
            let sheet = read(text).expect(text);
            assert_eq!(
                (sheet.separator, sheet.lines.len()),
                (separator, 1),
                "{text:?}"
            );
            assert_eq!(
                (sheet.lines[0].number, sheet.lines[0].fields.len()),
                (2, 2),
                "{text:?}"
            );
        }
        let fault = "line 1: the separator must be a semicolon, a tab or a comma";
        for text in ["sep=|\na|b", "sep=", "sep=;;"] {
            assert_eq!(fault_of(text), fault);
        }
        assert_eq!(
            lines("a\nsep=,"),
            [(1, vec!["a".into()]), (2, vec!["sep=".into(), "".into()])]
        );
    }

    #[test]
    fn fields_are_trimmed() {
        assert_eq!(fields(" a ;\u{a0}b\u{a0}; ;c d\r\n"), ["a", "b", "", "c d"]);
        assert_eq!(fields("\ta \t b\t\r\n"), ["", "a", "b", ""]);
    }

    #[test]
    fn quotes_stand_round_a_field() {
        assert_eq!(
            fields("\"a;b\";\"63,2\"; \"c\" ;\"\""),
            ["a;b", "63,2", "c", ""]
        );
        assert_eq!(fields("\"say \"\"a\"\"\";b"), ["say \"a\"", "b"]);
        assert_eq!(fields("\"\"\"\";5\" pipe"), ["\"", "5\" pipe"]);
        assert_eq!(fields("\"63,2\",\"64,0\"\r\n"), ["63,2", "64,0"]);
    }

    #[test]
    fn a_line_break_in_quotes_ends_no_line() {
        assert_eq!(
            lines("a;\"b\r\nc\";d\r\ne"),
            [
                (1, vec!["a".into(), "b\r\nc".into(), "d".into()]),
                (3, vec!["e".into()])
            ]
        );
    }

    #[test]
    fn a_quote_that_is_not_closed_is_a_fault() {
        let what = "the field begins with a quote that none at its end closes";
        assert_eq!(
            fault_of("a;b\nc;\"d;e\nf"),
            format!("line 2, column 2: {what}")
        );
        assert_eq!(fault_of("\"a\"b;c"), format!("line 1, column 1: {what}"));
        assert_eq!(
            fault_of("a;\"b\n c;\"d\""),
            format!("line 1, column 2: {what}")
        );
        assert_eq!(fault_of("a;\""), format!("line 1, column 2: {what}"));
    }

    #[test]
    fn lines_without_content_are_passed_over() {
        let text = "# a;\"b\r\n\r\n;;;\r\n \t \r\n\"\";\"\"\r\na;b;;\r\n #c\r\n\"# d; e\";\r\nf";
        assert_eq!(
            lines(text),
            [
                (6, vec!["a".into(), "b".into(), "".into(), "".into()]),
                (9, vec!["f".into()])
            ]
        );
        assert_eq!(lines(""), []);
        assert_eq!(lines("\n"), []);
    }

    #[test]
    fn a_line_knows_its_width_and_its_faults() {
        let sheet = read("\na;;b;;\n").expect("fields");
        let line = &sheet.lines[0];
        assert_eq!((line.width(), line.fields.len()), (3, 5));
        assert_eq!((line.field(2), line.field(3), line.field(9)), ("b", "", ""));
        assert_eq!(line.fault("x".into()).to_string(), "line 2: x");
        assert_eq!(
            line.fault_at(2, "x".into()).to_string(),
            "line 2, column 3: x"
        );
        assert_eq!(sheet.fault_at_end("x".into()).to_string(), "line 3: x");
    }
}
