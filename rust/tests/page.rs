//! The call `page` held to the reference, on random inputs and at its limits, and to what document 02, (e), says of it, as it is read
//! back from the page's own bytes: the date, the day type and the numbers of each day, and the sums of the last line. `agreed`
//! compares the answer and every byte of the lent page.
#[allow(dead_code)] // the tests of the other calls use the rest
mod agreed;
#[allow(dead_code)] // likewise
mod draw;
#[allow(dead_code)] // likewise
mod profile_file;
#[allow(dead_code)] // likewise
mod program_input;
mod tally;

use std::collections::BTreeMap;

use agreed::refused;
use draw::Draw;
use reference::{Expansion, Refusal};
use slp::report::{ExpansionReport, Request};
use tally::Tally;

const INPUTS: u64 = 30_000;

/// The bytes of a line.
const LINE: usize = 38;

/// Bytes of a page that no line was written to.
const MARK: u8 = b'?';

/// What the call is given, and how many bytes of page.
#[derive(Clone)]
struct Asked {
    file: Vec<u8>,
    group: u8,
    first: u32,
    last: u32,
    holidays: Vec<u32>,
    yearly: u32,
    carry: u32,
    room: usize,
}

impl Asked {
    fn request(&self) -> Request<'_> {
        Request {
            file: &self.file,
            group: self.group,
            first: self.first,
            last: self.last,
            holidays: &self.holidays,
            yearly: self.yearly,
            carry: self.carry,
        }
    }

    /// The answer, and the page after it.
    fn answer(&self, what: &str) -> (Result<Expansion, Refusal>, Vec<u8>) {
        let mut page = vec![MARK; self.room];
        let answer = agreed::page(&self.request(), &mut page, what);
        (answer, page)
    }

    /// The answer and the text of a request that is accepted.
    fn text(&self, what: &str) -> (Expansion, String) {
        let (answer, mut page) = self.answer(what);
        page.truncate(slp::day_page_length(self.dates().len()));
        (answer.expect(what), String::from_utf8(page).expect(what))
    }

    /// The dates of a period that is accepted.
    fn dates(&self) -> Vec<u32> {
        let [first, last] = [self.first, self.last].map(draw::index_of);
        let days = first.expect("a date")..=last.expect("a date");
        days.map(draw::date_at).collect()
    }

    /// What expanding answers for a day of the period alone.
    fn expanded(&self, date: u32, carry: u32) -> ExpansionReport {
        let day = Request {
            first: date,
            last: date,
            carry,
            ..self.request()
        };
        let made = slp::report::expand(&day, &mut [0; 100]);
        assert_eq!(made.number, 0, "{date}");
        made
    }

    /// Season letter and day digit of a day, by the day enquiry.
    fn day_type(&self, date: u32) -> String {
        let day = slp::report::day(date, &self.holidays);
        assert_eq!(day.number, 0, "{date}");
        let letter = ["W", "S", "T"][day.season as usize - 1];
        format!("{letter}{}", day.day_type)
    }

    /// The lines of a page, read back from its bytes: each day's is its own, with what expanding answers for the day alone, given the
    /// carry of the day before; the last line's numbers are the sums of those above it, and the answer's.
    fn expect_read_back(&self, page: &[u8], made: Expansion, what: &str) {
        let dates = self.dates();
        let lines: Vec<&[u8]> = page.chunks(LINE).take(dates.len() + 1).collect();
        let (last, lines) = lines.split_last().expect(what);
        assert_eq!(lines.len(), dates.len(), "{what}");
        let (mut count, mut energy, mut carry) = (0, 0, self.carry);
        for (line, date) in lines.iter().zip(dates) {
            let read = Line::read(line);
            assert_eq!(date_of(read.first), date, "{what}");
            assert_eq!(read.day_type, self.day_type(date), "{what}, {date}");
            let expanded = self.expanded(date, carry);
            let expected = (expanded.count as u64, expanded.total);
            assert_eq!((read.count, read.energy), expected, "{what}, {date}");
            count += read.count;
            energy += read.energy;
            carry = expanded.carry;
        }
        let total = Line::read(last);
        assert_eq!(
            (total.first, total.day_type),
            ("total     ", "--"),
            "{what}"
        );
        assert_eq!((total.count, total.energy), (count, energy), "{what}");
        let answer = (made.count as u64, made.total, made.carry);
        assert_eq!(answer, (count, energy, carry), "{what}");
    }
}

/// The fields of a line.
struct Line<'a> {
    first: &'a str,
    day_type: &'a str,
    count: u64,
    energy: u64,
}

impl Line<'_> {
    /// Fields stand at fixed places, with a space between two, and a line feed ends the line.
    fn read(line: &[u8]) -> Line<'_> {
        let text = std::str::from_utf8(line).expect("a line is text");
        assert!(text.len() == LINE && text.is_ascii(), "{text:?}");
        let between = [10, 13, 20, 37].map(|at| line[at]);
        assert_eq!(between, *b"   \n", "{text:?}");
        Line {
            first: &text[..10],
            day_type: &text[11..13],
            count: number(&text[14..20]),
            energy: number(&text[21..37]),
        }
    }
}

/// The number of a field: spaces, then digits without leading zeros.
fn number(field: &str) -> u64 {
    let digits = field.trim_start_matches(' ');
    let number: u64 = digits.parse().expect(field);
    assert_eq!(number.to_string(), digits);
    number
}

/// The number yyyymmdd of a field yyyy-mm-dd.
fn date_of(field: &str) -> u32 {
    let parts: Vec<&str> = field.split('-').collect();
    assert_eq!(
        parts.iter().map(|part| part.len()).collect::<Vec<_>>(),
        [4, 2, 2]
    );
    let all_digits = parts.concat().bytes().all(|byte| byte.is_ascii_digit());
    assert!(all_digits, "{field:?}");
    parts.concat().parse().expect(field)
}

// Random inputs.

/// Bytes that the page of a period needs; some number where it is no period.
fn needed(first: usize, last: usize) -> usize {
    match draw::span().get(first..=last) {
        Some(days) if days.len() <= 1_461 => slp::day_page_length(days.len()),
        _ => 200,
    }
}

fn drawn(draw: &mut Draw) -> Asked {
    let (file, codes) = draw::file(draw, 15);
    let (first, last) = draw::period(draw);
    Asked {
        file,
        group: draw::group(draw, &codes),
        first: draw::date(draw, first, 2),
        last: draw::date(draw, last, 2),
        holidays: draw::list(draw, first),
        yearly: draw::yearly(draw),
        carry: draw::carry(draw),
        room: draw::output_length(draw, needed(first, last)),
    }
}

#[test]
fn random_inputs_agree() {
    let mut tally = Tally::default();
    let mut accepted: BTreeMap<&str, u32> = BTreeMap::new();
    let (mut just_enough, mut a_byte_short) = (0, 0);
    for seed in 0..INPUTS {
        let mut draw = Draw::new(12_000_000 + seed);
        let asked = drawn(&mut draw);
        let mut page: Vec<u8> = (0..asked.room).map(|_| draw.byte()).collect();
        let answer = agreed::page(&asked.request(), &mut page, &format!("seed {seed}"));
        tally.note(&answer);
        let made = match answer {
            Ok(made) => made,
            Err(Refusal { number, place }) => {
                a_byte_short += u32::from(number == 19 && place == asked.room + 1);
                continue;
            }
        };
        let dates = asked.dates();
        let days = dates.len();
        just_enough += u32::from(asked.room == slp::day_page_length(days));
        let listed = |date: &u32| asked.holidays.contains(date);
        for (kind, is_so) in [
            ("households", asked.group == 0),
            ("several days", days > 1),
            ("1,400 days and more", days >= 1_400),
            ("a clock change", made.count != 96 * days),
            ("a holiday", dates.iter().any(listed)),
            (
                "a listed 24 or 31 December",
                dates.iter().any(|date| listed(date) && draw::is_eve(*date)),
            ),
            ("a carry", asked.carry > 0),
            ("no energy", made.total == 0),
            ("ten digits of energy", made.total >= 1_000_000_000),
            ("bytes beyond", asked.room > slp::day_page_length(days)),
        ] {
            *accepted.entry(kind).or_default() += u32::from(is_so);
        }
    }
    tally.expect("page", &[1, 2, 3, 4, 5, 6, 7, 8, 9, 10, 11, 19], 200);
    tally.expect_places(7, &[0, 1]);
    tally.expect_many_places(9, 50);
    tally.expect_places(11, &[0]);
    tally.expect_many_places(19, 20);
    println!("page: accepted inputs by what they have {accepted:?}; {just_enough} with just enough bytes, {a_byte_short} a byte short");
    let all = accepted.values().all(|&inputs| inputs >= 50);
    assert!(
        all && just_enough >= 1_000 && a_byte_short >= 200,
        "{accepted:?} {just_enough} {a_byte_short}"
    );
}

/// Document 02: the last line's "count and Wh equal the sums of the numbers on the lines above, as read back from the page itself".
#[test]
fn the_numbers_read_back_from_the_page_add_up() {
    let mut accepted = 0;
    for seed in 0..INPUTS / 2 {
        let asked = drawn(&mut Draw::new(13_000_000 + seed));
        let what = &format!("seed {seed}");
        let (answer, page) = asked.answer(what);
        if let Ok(made) = answer {
            asked.expect_read_back(&page, made, what);
            accepted += 1;
        }
    }
    assert!(accepted >= 5_000, "{accepted}");
}

/// Document 02: "each field written as in the program", which begins with carry 0.
#[test]
fn the_fields_are_written_as_in_the_program() {
    let mut accepted = 0;
    for seed in 0..4_000 {
        let mut asked = drawn(&mut Draw::new(14_000_000 + seed));
        asked.carry = 0;
        let what = &format!("seed {seed}");
        if asked.answer(what).0.is_err() {
            continue;
        }
        accepted += 1;
        let (made, text) = asked.text(what);
        let numbers = [asked.first, asked.last, asked.yearly];
        let input = program_input::input(asked.group, numbers, &asked.holidays, &asked.file);
        let mut listing = vec![0; slp::PAGE_LENGTH];
        let length = slp::respond(&input, &mut listing).expect(what);
        let listing = std::str::from_utf8(&listing[..length]).expect(what);
        let days = asked.dates().len();
        for (line, printed) in text.lines().zip(listing.lines()).take(days) {
            let fields: Vec<&str> = line.split_whitespace().collect();
            assert_eq!(fields.join(" "), printed, "{what}");
        }
        let total = listing.lines().nth(days).expect(what);
        let Expansion {
            count,
            total: energy,
            carry,
        } = made;
        assert_eq!(
            total,
            format!("total {days} {count} {energy} {carry}"),
            "{what}"
        );
    }
    assert!(accepted >= 1_500, "{accepted}");
}

// The worked page.

/// 25 and 26 March 2000 by document 01's file: G0, with every value 1001.
fn march(carry: u32, room: usize) -> Asked {
    Asked {
        file: profile_file::of(&[1], &[1_001; 864]),
        group: 1,
        first: 20_000_325,
        last: 20_000_326,
        holidays: Vec::new(),
        yearly: 1_000,
        carry,
        room,
    }
}

const MARCH: &str = "2000-03-25 T2     96             2402\n\
                     2000-03-26 T3     92             2302\n\
                     total      --    188             4704\n";

#[test]
fn the_worked_page() {
    let (made, text) = march(0, 114).text("March");
    assert_eq!(text, MARCH);
    assert_eq!((made.count, made.total, made.carry), (188, 4_704, 28_000));
    assert!(text.split_inclusive('\n').all(|line| line.len() == LINE));
}

#[test]
fn the_worked_page_on_a_byte_too_few_is_refused() {
    let (answer, page) = march(0, 113).answer("113 bytes");
    assert_eq!(answer, refused(19, 114));
    assert_eq!(page, [MARK; 113]);
}

#[test]
fn bytes_beyond_the_worked_page_are_kept() {
    let (answer, page) = march(0, 120).answer("120 bytes");
    assert!(answer.is_ok());
    assert_eq!(page, format!("{MARCH}??????").as_bytes());
}

/// From carry 0 the first day leaves 16,000 / 40,000 Wh, so that 24,000 more are 1 Wh of that day, and 23,999 one of the next. The carry
/// is not printed, and the answer hands on what is left.
#[test]
fn a_page_begins_with_the_carry_that_is_given() {
    let (made, text) = march(24_000, 114).text("carry 24,000");
    let expected = MARCH.replace("2402", "2403").replace("4704", "4705");
    assert_eq!(text, expected);
    assert_eq!((made.count, made.total, made.carry), (188, 4_705, 12_000));
    let (_, text) = march(23_999, 114).text("carry 23,999");
    let expected = MARCH.replace("2302", "2303").replace("4704", "4705");
    assert_eq!(text, expected);
}

#[test]
fn any_carry_of_the_range_is_taken() {
    for carry in [0, 1, 20_000, 39_998, 39_999] {
        let what = &format!("carry {carry}");
        let asked = march(carry, 114);
        let (made, text) = asked.text(what);
        asked.expect_read_back(text.as_bytes(), made, what);
    }
    for carry in [40_000, 40_001, u32::MAX] {
        let (answer, page) = march(carry, 114).answer("too large");
        assert_eq!(answer, refused(11, 0), "{carry}");
        assert_eq!(page, [MARK; 114]);
    }
}

// The limits.

/// Households and trade from 1 January 2000 to a date, with every value and the yearly use at their limits.
fn largest(group: u8, last: u32) -> Asked {
    Asked {
        file: profile_file::of(&[0, 1], &[20_000; 1_728]),
        group,
        first: 20_000_101,
        last,
        holidays: vec![20_000_421, 20_011_224, 20_031_226],
        yearly: 1_000_000_000,
        carry: 39_999,
        room: slp::LONGEST_DAY_PAGE,
    }
}

/// 1,461 days at the largest values, use and carry. A quarter hour of G0 has 500,000,000 Wh.
#[test]
fn the_largest_page() {
    assert_eq!(slp::LONGEST_DAY_PAGE, 55_556);
    for group in [0, 1] {
        let what = &format!("group {group}");
        let asked = largest(group, 20_031_231);
        let (made, text) = asked.text(what);
        assert_eq!(text.len(), 55_556, "{what}");
        assert_eq!(text.lines().count(), 1_462, "{what}");
        assert!(text.lines().all(|line| line.len() == LINE - 1), "{what}");
        asked.expect_read_back(text.as_bytes(), made, what);
        assert!(made.total > 70_000_000_000_000, "{what}: {}", made.total);
        if group == 1 {
            assert_eq!(made.total, 500_000_000 * 140_256);
            assert!(text.ends_with("total      -- 140256   70128000000000\n"));
        }
    }
}

/// A page with nothing but zeros as energy, on which the carry stays.
#[test]
fn no_use_is_printed_as_0() {
    let asked = Asked {
        yearly: 0,
        ..march(39_999, 114)
    };
    let (made, text) = asked.text("no use");
    let expected = MARCH.replace("2402", "   0");
    let expected = expected.replace("2302", "   0").replace("4704", "   0");
    assert_eq!(text, expected);
    assert_eq!((made.count, made.total, made.carry), (188, 0, 39_999));
}

#[test]
fn a_page_has_38_bytes_for_each_day_and_the_last_line_and_keeps_those_beyond() {
    for (last, days) in [
        (20_000_101, 1),
        (20_000_102, 2),
        (20_001_231, 366),
        (20_031_230, 1_460),
        (20_031_231, 1_461),
    ] {
        let needed = 38 * (days + 1);
        assert_eq!(slp::day_page_length(days), needed);
        let asked = |room| Asked {
            room,
            ..largest(1, last)
        };
        for room in [0, 1, 38, 38 * days, needed - 1] {
            let (answer, page) = asked(room).answer("too short");
            assert_eq!(answer, refused(19, needed), "{days}, {room}");
            assert_eq!(page, vec![MARK; room], "{days}, {room}");
        }
        for room in [needed, needed + 1, needed + 38, needed + 1_000] {
            let (answer, page) = asked(room).answer("long enough");
            assert!(answer.is_ok(), "{days}, {room}");
            assert!(!page[..needed].contains(&MARK), "{days}, {room}");
            assert_eq!(page[needed..], vec![MARK; room - needed], "{days}, {room}");
        }
    }
}

/// The pages of 2000 in parts, each given the carry that the one before answered, have the lines of the year's page.
#[test]
fn pages_join_where_the_carry_is_handed_on() {
    for group in [0, 1] {
        let year = Asked {
            carry: 7,
            yearly: 3_501,
            ..largest(group, 20_001_231)
        };
        let (made, whole) = year.text("year");
        let (mut carry, mut lines, mut total) = (year.carry, String::new(), 0);
        for (first, last) in [
            (101, 101),
            (102, 325),
            (326, 326),
            (327, 1_028),
            (1_029, 1_231),
        ] {
            let part = Asked {
                first: 20_000_000 + first,
                last: 20_000_000 + last,
                carry,
                ..year.clone()
            };
            let (made, text) = part.text("part");
            lines += &text[..text.len() - LINE];
            total += made.total;
            carry = made.carry;
        }
        assert_eq!(whole[..whole.len() - LINE], lines);
        assert_eq!((total, carry), (made.total, made.carry));
    }
}

// The first "no" counts.

/// A change of what is asked, and number and place of the refusal after it.
type Change = (fn(&mut Asked), u32, usize);

/// Every question is answered "no", and what is at fault is put right in the questions' order: each time the next one refuses.
#[test]
fn the_questions_come_in_order() {
    let sound = largest(1, 20_031_231);
    let mut asked = Asked {
        group: 5,
        first: 20_000_230,
        last: 21_000_101,
        holidays: vec![20_000_101; 401],
        yearly: 1_000_000_001,
        carry: 40_000,
        room: 0,
        ..sound.clone()
    };
    for (at, byte) in [(2, 0), (4, 2), (5, 12), (1_735, 0), (3_462, 255)] {
        asked.file[at] = byte;
    }
    let steps: [Change; 15] = [
        (|_| (), 1, 0),
        (|asked| asked.file[2] = b'P', 2, 0),
        (|asked| asked.file[4] = 1, 3, 0),
        (|asked| asked.file[5] = 2, 4, 1_735),
        (|asked| asked.file[1_735] = 1, 5, 3_462),
        (|asked| asked.file[3_462] = 0x4E, 6, 0),
        (|asked| asked.group = 1, 7, 0),
        (|asked| asked.first = 20_000_101, 7, 1),
        (|asked| asked.last = 19_991_231, 8, 0),
        (|asked| asked.last = 20_040_101, 8, 0),
        (|asked| asked.last = 20_031_231, 9, 1),
        (
            |asked| asked.holidays = vec![20_000_421, 20_011_224, 20_031_226],
            10,
            0,
        ),
        (|asked| asked.yearly = 1_000_000_000, 11, 0),
        (|asked| asked.carry = 39_999, 19, 55_556),
        (|asked| asked.room = 55_555, 19, 55_556),
    ];
    for (put_right, number, place) in steps {
        put_right(&mut asked);
        let what = &format!("question {number}, place {place}");
        let (answer, page) = asked.answer(what);
        assert_eq!(answer, refused(number, place), "{what}");
        assert_eq!(page, vec![MARK; asked.room], "{what}");
    }
    asked.room = 55_556;
    assert_eq!(asked.file, sound.file);
    assert_eq!(asked.text("nothing is at fault"), sound.text("sound"));
}
