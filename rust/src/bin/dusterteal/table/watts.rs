//! Values in watts.
use crate::text::{is_digits, quoted};

/// The largest value, in tenths of a watt.
const LARGEST: u32 = 20_000;

/// The tenths of a watt of a field. The error says what is wrong with it.
pub fn parse(field: &str) -> Result<u16, String> {
    if field.is_empty() {
        return Err("the cell is empty".into());
    }
    tenths_of(field).map_err(|what| format!("{} {what}", quoted(field)))
}

/// The same of a field with content. The error follows the field.
fn tenths_of(field: &str) -> Result<u16, String> {
    if has_thousands(field) {
        return Err("has a thousands separator".into());
    }
    if field.strip_prefix('-').and_then(number).is_some() {
        return Err("is negative".into());
    }
    let (whole, decimals) = number(field).ok_or("is no number")?;
    if decimals.trim_end_matches('0').len() > 1 {
        return Err(too_many_decimals(whole, decimals).into());
    }
    if may_be_thousands(whole, decimals) {
        return Err(format!(
            "may be {whole}{decimals} with a thousands separator: write one decimal"
        ));
    }
    match tenths(whole, decimals) {
        tenths if tenths > LARGEST => Err("is above 2000.0 W, the largest value".into()),
        tenths => Ok(tenths as u16),
    }
}

/// What a number with more than one decimal is likely to be.
fn too_many_decimals(whole: &str, decimals: &str) -> &'static str {
    if decimals.len() == 3 && !whole.starts_with('0') {
        "has more than one decimal, or a thousands separator"
    } else if whole.trim_start_matches('0').len() < 2 {
        "has more than one decimal: it looks like kW, and the values must be watts"
    } else {
        "has more than one decimal"
    }
}

/// The digits before and behind a decimal comma or point.
fn number(field: &str) -> Option<(&str, &str)> {
    let (whole, decimals) = field.split_once([',', '.']).unwrap_or((field, "0"));
    (is_digits(whole) && is_digits(decimals)).then_some((whole, decimals))
}

fn tenths(whole: &str, decimals: &str) -> u32 {
    // Only a number too large for 32 bits fails here.
    let watts: u32 = whole.parse().unwrap_or(u32::MAX);
    let tenth = u32::from(decimals.as_bytes()[0] - b'0');
    watts.saturating_mul(10).saturating_add(tenth)
}

/// Whether a text is a number with separated thousands, as 1.234,5 or 1 234.
fn has_thousands(field: &str) -> bool {
    let is_separator = |c: char| c.is_whitespace() || matches!(c, '.' | ',' | '\'' | '’');
    let parts: Vec<&str> = field.split(is_separator).collect();
    let [first, middle @ .., last] = parts.as_slice() else {
        return false;
    };
    let is_thousand = |part: &&str| part.len() == 3;
    let spaced = !field.contains([',', '.']) && is_thousand(last);
    parts.iter().all(|part| is_digits(part))
        && first.len() <= 3
        && middle.iter().all(is_thousand)
        && (!middle.is_empty() || spaced)
}

/// Whether three decimals behind one digit may be the end of a number of thousands: 1.200 may be 1.2 and 1200.
fn may_be_thousands(whole: &str, decimals: &str) -> bool {
    decimals.len() == 3 && whole.len() == 1 && whole != "0"
}

#[cfg(test)]
mod tests {
    use super::*;

    fn fault_of(field: &str) -> String {
        parse(field).unwrap_err()
    }

    #[test]
    fn commas_and_points_are_taken() {
        let fields = [
            ("0", 0),
            ("0,0", 0),
            ("007", 70),
            ("100", 1000),
            ("100,1", 1001),
            ("63.2", 632),
            ("2000", 20_000),
            ("2000.0", 20_000),
        ];
        for (field, tenths) in fields {
            assert_eq!(parse(field), Ok(tenths), "{field}");
        }
    }

    #[test]
    fn zeros_behind_the_decimal_are_taken() {
        let fields = [
            ("63,20", 632),
            ("63.200", 632),
            ("0,500", 5),
            ("1,20", 12),
            ("1,2000", 12),
            ("2000,00", 20_000),
        ];
        for (field, tenths) in fields {
            assert_eq!(parse(field), Ok(tenths), "{field}");
        }
    }

    #[test]
    fn an_empty_cell_and_other_text_are_no_numbers() {
        assert_eq!(fault_of(""), "the cell is empty");
        for field in [
            ",", "1,", ",5", ".", "-", "+1", "1e3", "one", "#N/A", "63,2 W", "1,2,3", "1 2", "1;2",
            "١",
        ] {
            assert_eq!(fault_of(field), format!("{field:?} is no number"));
        }
    }

    #[test]
    fn more_than_one_decimal_is_named_and_so_are_kilowatts() {
        assert_eq!(fault_of("63,25"), "\"63,25\" has more than one decimal");
        assert_eq!(fault_of("10.01"), "\"10.01\" has more than one decimal");
        for field in ["0,0632", "0.06", "9,99", "0.234", "00,05"] {
            assert_eq!(
                fault_of(field),
                format!("{field:?} has more than one decimal: it looks like kW, and the values must be watts")
            );
        }
    }

    #[test]
    fn a_negative_number_and_what_may_be_thousands_are_named() {
        assert_eq!(fault_of("-1,0"), "\"-1,0\" is negative");
        let what = "\"1.234\" has more than one decimal, or a thousands separator";
        assert_eq!(fault_of("1.234"), what);
    }

    #[test]
    fn thousands_separators_are_named() {
        for field in [
            "1.234,5",
            "1,234.5",
            "1'234,5",
            "1’234",
            "1 234",
            "1\u{a0}234,5",
            "1.234.567",
            "12.345,67",
        ] {
            assert_eq!(
                fault_of(field),
                format!("{} has a thousands separator", quoted(field))
            );
        }
    }

    #[test]
    fn what_may_be_thousands_is_not_guessed() {
        for (field, joined) in [("1.200", "1200"), ("1,000", "1000"), ("2.100", "2100")] {
            assert_eq!(
                fault_of(field),
                format!("{field:?} may be {joined} with a thousands separator: write one decimal")
            );
        }
        assert_eq!((parse("63,200"), parse("0,500")), (Ok(632), Ok(5)));
    }

    #[test]
    fn values_above_the_largest_are_named() {
        for field in ["2000,1", "2001", "20000", "99999999999999", "4294967295,9"] {
            assert_eq!(
                fault_of(field),
                format!("{field:?} is above 2000.0 W, the largest value")
            );
        }
    }
}
