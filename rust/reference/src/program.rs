//! The program: its input and its text.
use crate::calendar::{Day, Season};
use crate::series::{accept, Accepted, Request};
use crate::{ask, Refusal};

/// The longest input in bytes.
pub const LONGEST_INPUT: usize = 65_536;

/// Group, two dates, yearly use and the list's length.
const HEAD: usize = 15;

/// What the program prints for an input.
pub fn text(input: &[u8]) -> String {
    listing(input).unwrap_or_else(|no| format!("refused {} {}\n", no.number, no.place))
}

/// The text for an input in the first bytes of a lent page, which keeps those beyond, and its length: question 12, with the bytes
/// needed as place.
pub fn respond(input: &[u8], page: &mut [u8]) -> Result<usize, Refusal> {
    let text = text(input);
    ask(text.len() <= page.len(), 12, text.len())?;
    page[..text.len()].copy_from_slice(text.as_bytes());
    Ok(text.len())
}

/// The lines of the days and the last line: question 13, then 1 to 11.
pub fn listing(input: &[u8]) -> Result<String, Refusal> {
    const INCOMPLETE: Refusal = Refusal {
        number: 13,
        place: 0,
    };
    ask(input.len() <= LONGEST_INPUT, 13, 0)?;
    let (head, rest) = input.split_at_checked(HEAD).ok_or(INCOMPLETE)?;
    let listed = usize::from(u16::from_be_bytes([head[13], head[14]]));
    let (list, file) = rest.split_at_checked(4 * listed).ok_or(INCOMPLETE)?;
    let holidays: Vec<u32> = list.chunks_exact(4).map(number).collect();
    let request = Request {
        file,
        group: head[0],
        first: number(&head[1..5]),
        last: number(&head[5..9]),
        holidays: &holidays,
        yearly: number(&head[9..13]),
        carry: 0,
    };
    Ok(lines(&accept(&request)?, &holidays))
}

/// Of four bytes, big-endian.
fn number(bytes: &[u8]) -> u32 {
    bytes.iter().fold(0, |n, &byte| 256 * n + u32::from(byte))
}

/// The date as yyyy-mm-dd.
pub(crate) fn date(day: Day) -> String {
    format!("{}-{:02}-{:02}", day.year, day.month, day.day)
}

/// Season letter and day digit.
pub(crate) fn kind(day: Day, holidays: &[u32]) -> String {
    let letter = match day.season() {
        Season::Winter => 'W',
        Season::Summer => 'S',
        Season::Transition => 'T',
    };
    let digit = day.day_type(holidays) as u32 + 1;
    format!("{letter}{digit}")
}

fn lines(accepted: &Accepted, holidays: &[u32]) -> String {
    let (mut text, mut days, mut count, mut total, mut carry) = (String::new(), 0, 0, 0, 0);
    for day in accepted.days() {
        let made = accepted.expand_day(day, carry, &mut [0; 100]);
        let (date, kind) = (date(day), kind(day, holidays));
        text += &format!("{date} {kind} {} {}\n", made.count, made.total);
        days += 1;
        count += made.count;
        total += made.total;
        carry = made.carry;
    }
    text + &format!("total {days} {count} {total} {carry}\n")
}

#[cfg(test)]
mod tests {
    use super::*;

    /// Document 01's input: G0, 25 and 26 March 2000, 1,000 kWh, no holidays, every value 1001.
    fn listing_input() -> Vec<u8> {
        let mut file = vec![0; 1_735];
        crate::write(&[1], &[1001; 864], &mut file).unwrap();
        let numbers = [20_000_325_u32, 20_000_326, 1_000];
        let mut input = vec![1];
        input.extend(numbers.iter().flat_map(|number| number.to_be_bytes()));
        input.extend([0, 0]);
        input.extend(file);
        input
    }

    #[test]
    fn the_listing_of_document_01() {
        assert_eq!(
            text(&listing_input()),
            "2000-03-25 T2 96 2402\n2000-03-26 T3 92 2302\ntotal 2 188 4704 28000\n"
        );
    }

    #[test]
    fn a_head_a_list_and_a_length_are_asked_first() {
        let input = listing_input();
        assert_eq!(text(&input[..14]), "refused 13 0\n");
        assert_eq!(text(&input[..15]), "refused 1 0\n");
        let mut one_listed = input.clone();
        one_listed[14] = 1;
        assert_eq!(text(&one_listed[..18]), "refused 13 0\n");
        assert_eq!(text(&one_listed[..19]), "refused 1 0\n");
        let mut longest = input;
        longest.resize(65_536, 0);
        assert_eq!(text(&longest), "refused 3 0\n");
        longest.push(0);
        assert_eq!(text(&longest), "refused 13 0\n");
    }
}
