//! Document 02, request (e): a day page of fixed width, each field written as in the program. The series is made and cut at the days.
use crate::program::{date, kind};
use crate::series::{accept, Expansion, Request};
use crate::{ask, Refusal};

/// The bytes of a line: 10 for the date, 2 for the day type, 6 for the count and 16 for the Wh, three spaces, and LF.
pub const LINE: usize = 38;

/// Fills the first bytes of `page` with a line for each day of the period and a last one with their sums, and answers what expanding
/// answers: questions 1 to 11 and 19.
pub fn page(request: &Request, page: &mut [u8]) -> Result<Expansion, Refusal> {
    let accepted = accept(request)?;
    let needed = LINE * (accepted.days().count() + 1);
    ask(page.len() >= needed, 19, needed)?;
    let mut series = vec![0; accepted.count()];
    let made = accepted.expand(&mut series);

    let mut text = String::with_capacity(needed);
    let mut rest = &series[..];
    for day in accepted.days() {
        let (figures, behind) = rest.split_at(day.values());
        let energy = figures.iter().copied().map(u64::from).sum();
        let kind = kind(day, request.holidays);
        text += &line(&date(day), &kind, figures.len(), energy);
        rest = behind;
    }
    text += &line("total", "--", made.count, made.total);
    page[..needed].copy_from_slice(text.as_bytes());
    Ok(made)
}

fn line(first: &str, kind: &str, count: usize, energy: u64) -> String {
    format!("{first:<10} {kind} {count:>6} {energy:>16}\n")
}

#[cfg(test)]
mod tests {
    use super::*;

    /// The page of 25 and 26 March 2000 for document 01's file (G0, with every value 1001) and 1,000 kWh, begun with a carry, on as many
    /// bytes as are lent.
    fn march(carry: u32, lent: usize) -> (Result<Expansion, Refusal>, String) {
        let mut file = vec![0; 1_735];
        crate::write(&[1], &[1001; 864], &mut file).unwrap();
        let request = Request {
            file: &file,
            group: 1,
            first: 20_000_325,
            last: 20_000_326,
            holidays: &[],
            yearly: 1_000,
            carry,
        };
        let mut lines = vec![b'?'; lent];
        let answer = page(&request, &mut lines);
        (answer, String::from_utf8(lines).unwrap())
    }

    #[test]
    fn a_line_for_each_day_and_a_last_one() {
        let lines = "2000-03-25 T2     96             2402\n\
                     2000-03-26 T3     92             2302\n\
                     total      --    188             4704\n";
        let made = Expansion {
            count: 188,
            total: 4_704,
            carry: 28_000,
        };
        assert_eq!(march(0, 114), (Ok(made), lines.to_owned()));
        assert_eq!(march(0, 117), (Ok(made), format!("{lines}???")));
    }

    /// 24,000 / 40,000 Wh and the 16,000 that the first day leaves from carry 0 are 1 Wh.
    #[test]
    fn the_page_begins_with_the_carry_that_is_given() {
        let (answer, lines) = march(24_000, 114);
        assert_eq!(answer.map(|made| made.total), Ok(4_705));
        assert!(lines.starts_with("2000-03-25 T2     96             2403\n"));
    }

    #[test]
    fn a_byte_too_few_leaves_the_page() {
        let no = |number, place| Err(Refusal { number, place });
        assert_eq!(march(0, 113), (no(19, 114), "?".repeat(113)));
        assert_eq!(march(40_000, 113), (no(11, 0), "?".repeat(113)));
    }
}
