//! Energy and power as decimal text.
use crate::arguments::{Arguments, Choice, Grammar};
use crate::failure::Failure;
use crate::text::quoted;

/// In what figures are written.
pub const UNIT: Choice = Choice::with_value("--unit");
/// How decimals are written.
pub const DECIMAL: Choice = Choice::with_value("--decimal");

/// What a figure is written in. All are exact.
#[derive(Debug, Clone, Copy, PartialEq, Eq)]
pub enum Unit {
    /// Whole watt hours.
    WattHours,
    /// Kilowatt hours with three decimals.
    KilowattHours,
    /// The quarter hour's mean power, four times its energy, in kilowatts with three decimals.
    Kilowatts,
}

impl Unit {
    /// As a header says it.
    pub const fn name(self) -> &'static str {
        match self {
            Unit::WattHours => "Wh",
            Unit::KilowattHours => "kWh",
            Unit::Kilowatts => "kW",
        }
    }
}

/// What stands before the decimals of a number.
#[derive(Debug, Clone, Copy, PartialEq, Eq)]
pub enum Decimal {
    /// As German spreadsheets have it.
    Comma,
    /// As English ones have it.
    Point,
}

impl Decimal {
    /// What the option `--decimal` asks for.
    pub fn of(grammar: &Grammar, arguments: &Arguments) -> Result<Decimal, Failure> {
        match arguments.text("--decimal").as_deref() {
            None | Some("comma") => Ok(Decimal::Comma),
            Some("point") => Ok(Decimal::Point),
            Some(other) => Err(grammar.fault(&format!(
                "--decimal: {} is neither \"comma\" nor \"point\"",
                quoted(other)
            ))),
        }
    }

    const fn sign(self) -> u8 {
        match self {
            Decimal::Comma => b',',
            Decimal::Point => b'.',
        }
    }

    /// A number of 10^-`places` as text.
    pub fn text(self, number: u64, places: u32) -> String {
        let (unit, sign) = (10_u64.pow(places), char::from(self.sign()));
        let (whole, rest) = (number / unit, number % unit);
        format!("{whole}{sign}{rest:0width$}", width = places as usize)
    }
}

/// How an amount is written.
#[derive(Debug, Clone, Copy, PartialEq, Eq)]
pub struct Format {
    /// The unit.
    pub unit: Unit,
    decimal: Decimal,
}

impl Format {
    /// The format that the options `--unit` and `--decimal` ask for, where the unit is one of these.
    pub fn of(grammar: &Grammar, arguments: &Arguments, units: &[Unit]) -> Result<Format, Failure> {
        let unit = match arguments.text("--unit") {
            None => Unit::WattHours,
            Some(text) => {
                let mut known = units.iter().copied();
                let found = known.find(|unit| unit.name().eq_ignore_ascii_case(&text));
                found.ok_or_else(|| {
                    let names: Vec<&str> = units.iter().map(|unit| unit.name()).collect();
                    grammar.fault(&format!(
                        "--unit: {} is none of {}",
                        quoted(&text),
                        names.join(", ")
                    ))
                })?
            }
        };
        let decimal = Decimal::of(grammar, arguments)?;
        Ok(Format { unit, decimal })
    }

    /// Adds an energy in Wh to a text.
    pub fn put(self, text: &mut Vec<u8>, energy: u64) {
        let thousandths = match self.unit {
            Unit::WattHours => return put_number(text, energy),
            Unit::KilowattHours => energy,
            Unit::Kilowatts => 4 * energy,
        };
        put_number(text, thousandths / 1000);
        text.push(self.decimal.sign());
        text.extend([100, 10, 1].map(|place| digit(thousandths / place % 10)));
    }

    /// Adds an energy that may be negative.
    pub fn put_signed(self, text: &mut Vec<u8>, energy: i64) {
        if energy < 0 {
            text.push(b'-');
        }
        self.put(text, energy.unsigned_abs());
    }
}

fn digit(number: u64) -> u8 {
    b'0' + number as u8
}

/// Adds a number in decimal digits to a text. A year has 35,000 of them, so it goes without the formatting machinery.
pub fn put_number(text: &mut Vec<u8>, mut number: u64) {
    let mut digits = [0; 20];
    let mut first = digits.len();
    loop {
        first -= 1;
        digits[first] = digit(number % 10);
        number /= 10;
        if number == 0 {
            break;
        }
    }
    text.extend_from_slice(&digits[first..]);
}

#[cfg(test)]
mod tests {
    use super::*;

    fn text(unit: Unit, decimal: Decimal, energy: u64) -> String {
        let mut text = Vec::new();
        Format { unit, decimal }.put(&mut text, energy);
        String::from_utf8(text).unwrap()
    }

    #[test]
    fn an_amount_is_exact_in_each_unit() {
        assert_eq!(text(Unit::WattHours, Decimal::Comma, 1234), "1234");
        assert_eq!(text(Unit::KilowattHours, Decimal::Comma, 1234), "1,234");
        assert_eq!(text(Unit::KilowattHours, Decimal::Point, 7), "0.007");
        assert_eq!(text(Unit::Kilowatts, Decimal::Point, 26), "0.104");
        assert_eq!(text(Unit::Kilowatts, Decimal::Comma, 250), "1,000");
    }

    #[test]
    fn a_negative_amount_has_a_minus_sign() {
        let signed = |unit, energy| {
            let (mut text, decimal) = (Vec::new(), Decimal::Comma);
            Format { unit, decimal }.put_signed(&mut text, energy);
            String::from_utf8(text).unwrap()
        };
        let watt_hours = [-402, 0, 698].map(|energy| signed(Unit::WattHours, energy));
        assert_eq!(watt_hours, ["-402", "0", "698"]);
        let kilowatt_hours = [-402, -1_107, 7].map(|energy| signed(Unit::KilowattHours, energy));
        assert_eq!(kilowatt_hours, ["-0,402", "-1,107", "0,007"]);
        assert_eq!(signed(Unit::WattHours, i64::MIN), i64::MIN.to_string());
    }

    #[test]
    fn decimals_have_their_zeros() {
        let texts = [(12_420, 4), (7, 4), (311, 1)]
            .map(|(number, places)| Decimal::Point.text(number, places));
        assert_eq!(texts, ["1.2420", "0.0007", "31.1"]);
        assert_eq!(Decimal::Comma.text(311, 1), "31,1");
    }

    #[test]
    fn numbers_are_written_as_everywhere() {
        for number in [0, 9, 10, 99, 100, 12_345, u64::from(u32::MAX), u64::MAX] {
            let mut text = Vec::new();
            put_number(&mut text, number);
            assert_eq!(String::from_utf8(text).unwrap(), number.to_string());
        }
    }
}
