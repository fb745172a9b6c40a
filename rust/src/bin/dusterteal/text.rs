//! A file's text: its characters, its lines, and how a message quotes a part of it.

const UTF_16: &str = "UTF-16 text: save it as CSV in UTF-8";
const ARCHIVE: &str = "a spreadsheet or zip archive (.xlsx, .ods): save the sheet as CSV";

/// What other files begin with, and what they are.
const MARKS: [(&[u8], &str); 7] = [
    (b"\xFF\xFE", UTF_16),
    (b"\xFE\xFF", UTF_16),
    (b"PK\x03\x04", ARCHIVE),
    (b"PK\x05\x06", ARCHIVE),
    (
        b"\xD0\xCF\x11\xE0",
        "an old Excel file (.xls): save the sheet as CSV",
    ),
    (b"%PDF", "a PDF file"),
    (b"SLP\0", "a profile file"),
];

/// The characters of the bytes 0x80 to 0x9F in Windows-1252. The five bytes that have none stay the control characters that
/// they are in Latin-1.
const WINDOWS_1252: [char; 32] = [
    '€', '\u{81}', '‚', 'ƒ', '„', '…', '†', '‡', 'ˆ', '‰', 'Š', '‹', 'Œ', '\u{8d}', 'Ž', '\u{8f}',
    '\u{90}', '‘', '’', '“', '”', '•', '–', '—', '˜', '™', 'š', '›', 'œ', '\u{9d}', 'ž', 'Ÿ',
];

/// The text of a file in UTF-8, with or without its byte order mark, or in Windows-1252, as German spreadsheets write it.
///
/// The error says what the bytes are instead, in words that follow "NAME is ".
pub fn decode(bytes: &[u8]) -> Result<String, &'static str> {
    if let Some(kind) = other_kind(bytes) {
        return Err(kind);
    }
    let bytes = bytes.strip_prefix(b"\xEF\xBB\xBF").unwrap_or(bytes);
    Ok(match std::str::from_utf8(bytes) {
        Ok(text) => text.to_string(),
        Err(_) => bytes.iter().map(|&byte| windows_1252(byte)).collect(),
    })
}

/// What bytes are that are no text.
fn other_kind(bytes: &[u8]) -> Option<&'static str> {
    let mark = MARKS.iter().find(|(mark, _)| bytes.starts_with(mark));
    if let Some((_, kind)) = mark {
        return Some(kind);
    }
    if is_utf_16(bytes) {
        return Some(UTF_16);
    }
    let binary = bytes.iter().any(|&byte| is_control(byte));
    binary.then_some("a binary file")
}

/// Whether the first four characters are two bytes each, one of them NUL, as in UTF-16 without a byte order mark.
fn is_utf_16(bytes: &[u8]) -> bool {
    let beginning = &bytes[..bytes.len().min(8) / 2 * 2];
    let nul_at = |place: usize| {
        let mut pairs = beginning.chunks_exact(2);
        pairs.all(|pair| pair[place] == 0 && !is_control(pair[1 - place]))
    };
    !beginning.is_empty() && (nul_at(0) || nul_at(1))
}

/// Whether a byte is a control character that text does not have.
fn is_control(byte: u8) -> bool {
    byte.is_ascii_control() && !matches!(byte, b'\t' | b'\n' | b'\r' | b'\x0C')
}

fn windows_1252(byte: u8) -> char {
    match byte {
        0x80..=0x9F => WINDOWS_1252[usize::from(byte - 0x80)],
        _ => char::from(byte),
    }
}

/// The lines that have content, trimmed, with their numbers from 1. Blank lines and lines that begin with `#` are passed over, also in
/// the quotes that a spreadsheet puts around them.
pub fn content(text: &str) -> impl Iterator<Item = (usize, &str)> {
    let is_remark = |line: &str| line.trim_start_matches('"').starts_with('#');
    (1..)
        .zip(text.lines().map(str::trim))
        .filter(move |(_, line)| !line.is_empty() && !is_remark(line))
}

/// A name as names are compared: its letters and digits alone, in small letters, with German ones spelt out. The two dots of an umlaut
/// may be a character of their own, as some systems write them.
pub fn plain(text: &str) -> String {
    let mut plain = String::new();
    for c in text.to_lowercase().chars() {
        match c {
            'ä' => plain += "ae",
            'ö' => plain += "oe",
            'ü' => plain += "ue",
            'ß' => plain += "ss",
            '\u{308}' => plain.push('e'),
            c if c.is_alphanumeric() => plain.push(c),
            _ => {}
        }
    }
    plain
}

/// Whether a text is decimal digits alone, one at least.
pub fn is_digits(text: &str) -> bool {
    !text.is_empty() && text.bytes().all(|byte| byte.is_ascii_digit())
}

/// A text in quotes, of a long one the beginning.
pub fn quoted(text: &str) -> String {
    const LONGEST: usize = 40;
    match text.char_indices().nth(LONGEST) {
        Some((end, _)) => format!("{:?}..", &text[..end]),
        None => format!("{text:?}"),
    }
}

#[cfg(test)]
mod tests {
    use super::*;

    fn utf_16(text: &str, order: fn(u16) -> [u8; 2]) -> Vec<u8> {
        text.encode_utf16().flat_map(order).collect()
    }

    #[test]
    fn utf_8_is_taken_as_it_is_and_its_mark_is_dropped() {
        assert_eq!(decode(b""), Ok(String::new()));
        assert_eq!(decode(b"\xEF\xBB\xBF"), Ok(String::new()));
        assert_eq!(decode("Übergang\r\n".as_bytes()), Ok("Übergang\r\n".into()));
        assert_eq!(decode("\u{feff}Übergang".as_bytes()), Ok("Übergang".into()));
        assert_eq!(decode("a\u{feff}b".as_bytes()), Ok("a\u{feff}b".into()));
    }

    #[test]
    fn other_text_is_windows_1252() {
        assert_eq!(
            decode(b"\xDCbergang;fr\xFCh\t\n"),
            Ok("Übergang;früh\t\n".into())
        );
        assert_eq!(
            decode(b"\x80 \x96 \x9F \xA0 \xFF"),
            Ok("€ – Ÿ \u{a0} ÿ".into())
        );
        assert_eq!(decode(b"\x81\xDC"), Ok("\u{81}Ü".into()));
    }

    #[test]
    fn utf_16_is_told_by_its_mark_or_its_nuls() {
        for text in [
            "\u{feff}G0;Winter",
            "\u{feff}",
            "G0;Winter",
            "Üb",
            "\r\n\t1",
        ] {
            assert_eq!(decode(&utf_16(text, u16::to_le_bytes)), Err(UTF_16));
            assert_eq!(decode(&utf_16(text, u16::to_be_bytes)), Err(UTF_16));
        }
        assert_eq!(UTF_16, "UTF-16 text: save it as CSV in UTF-8");
    }

    #[test]
    fn files_of_other_programs_are_named() {
        let kinds: [(&[u8], &str); 5] = [
            (
                b"PK\x03\x04\x14\x00",
                "a spreadsheet or zip archive (.xlsx, .ods): save the sheet as CSV",
            ),
            (b"PK\x05\x06\x00\x00", ARCHIVE),
            (
                b"\xD0\xCF\x11\xE0\xA1\xB1\x1A\xE1",
                "an old Excel file (.xls): save the sheet as CSV",
            ),
            (b"%PDF-1.4\n", "a PDF file"),
            (b"SLP\x00\x01\x01\x01", "a profile file"),
        ];
        for (bytes, kind) in kinds {
            assert_eq!(decode(bytes), Err(kind));
        }
        assert_eq!(decode(b"SLP;PK"), Ok("SLP;PK".into()));
    }

    #[test]
    fn control_characters_are_no_text() {
        let samples: [&[u8]; 7] = [
            b"\x00",
            b"G0;\x00",
            b"G0\x01",
            b"\x7F",
            b"\x1B[0m",
            b"\x01\x00\x02\x00\x03\x00\x04\x00",
            b"a\x00bc",
        ];
        for bytes in samples {
            assert_eq!(decode(bytes), Err("a binary file"), "{bytes:?}");
        }
        assert_eq!(decode(b"a\tb\r\nc\x0C"), Ok("a\tb\r\nc\x0C".into()));
    }

    #[test]
    fn blanks_and_remarks_are_passed_over() {
        let lines = |text| content(text).collect::<Vec<_>>();
        assert_eq!(lines(""), []);
        assert_eq!(lines("a\r\n \r\n #b\r\n c \n#"), [(1, "a"), (4, "c")]);
        assert_eq!(lines("\"# a \"\"b\"\"\"\n\"c\""), [(2, "\"c\"")]);
    }

    #[test]
    fn names_are_compared_by_their_letters() {
        assert_eq!(plain("Buß- und Bettag"), "bussundbettag");
        assert_eq!(plain(" ÜBER_Öl's 3ä. "), "ueberoels3ae");
        assert_eq!(plain("Ko\u{308}nige"), plain("Könige"));
        assert_eq!(plain("-, "), "");
    }

    #[test]
    fn digits_are_decimal_and_not_none() {
        assert!(["0", "007", "4294967296"].into_iter().all(is_digits));
        assert!(!["", "-1", "1 2", "1.2", "x", "１"]
            .into_iter()
            .any(is_digits));
    }

    #[test]
    fn a_long_text_is_cut_between_characters() {
        assert_eq!(quoted("a\"b"), "\"a\\\"b\"");
        let longest = "é".repeat(40);
        assert_eq!(quoted(&longest), format!("\"{longest}\""));
        assert_eq!(quoted(&format!("{longest}é")), format!("\"{longest}\".."));
    }
}
