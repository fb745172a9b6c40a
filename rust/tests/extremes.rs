//! Expanding at its limits: the least and the greatest yearly use, an output of just the length needed, and each question refused
//! with every later one at fault too. `agreed` holds each answer and the lent memory after it to the reference.
#[allow(dead_code)] // the other tests use the rest
mod agreed;
#[allow(dead_code)] // likewise
mod draw;
#[allow(dead_code)] // likewise
mod profile_file;

use agreed::refused;
use reference::dynamisation::{factor, power};
use reference::{Expansion, Refusal};
use slp::report::Request;

/// H0 and G0, with every value at the limit.
fn file() -> Vec<u8> {
    profile_file::of(&[0, 1], &[20_000; 1_728])
}

/// Entries of an output that no figure was written to.
const MARK: u32 = u32::MAX;

/// More entries than 1,461 days can need.
const LENGTH: usize = 140_300;

fn request(file: &[u8], group: u8, first: u32, last: u32, yearly: u32, carry: u32) -> Request<'_> {
    Request {
        file,
        group,
        first,
        last,
        holidays: &[],
        yearly,
        carry,
    }
}

/// The sum of the powers Q of a request's days.
fn sum_of_powers(request: &Request) -> u64 {
    let first = draw::index_of(request.first).expect("a date of the span");
    let last = draw::index_of(request.last).expect("a date of the span");
    let days = draw::span()[first..=last].iter();
    days.map(|day| {
        let q = power(20_000, factor(request.group, day.t));
        day.values() as u64 * u64::from(q)
    })
    .sum()
}

/// The answer follows from the powers' sum too: all that is handed on adds up to total and last carry.
fn expect_sums(request: &Request, made: Expansion, figures: &[u32], what: &str) {
    let units = sum_of_powers(request) * u64::from(request.yearly) + u64::from(request.carry);
    let sums = (units / 40_000, (units % 40_000) as u32);
    assert_eq!((made.total, made.carry), sums, "{what}");
    let sum: u64 = figures.iter().copied().map(u64::from).sum();
    assert_eq!(sum, made.total, "{what}: the figures' sum");
}

// The least and the greatest use, over the 1,461 days from 1 January 2000.

const DAYS: (u32, u32) = (20_000_101, 20_031_231);
const COUNT: usize = 140_256;

/// What the days add up to, and their least and greatest figure.
fn expanded(group: u8, yearly: u32, carry: u32) -> (Expansion, u32, u32) {
    let file = file();
    let request = request(&file, group, DAYS.0, DAYS.1, yearly, carry);
    let what = &format!("group {group}, {yearly} kWh, carry {carry}");
    let mut out = vec![MARK; LENGTH];
    let made = agreed::expand(&request, &mut out, what).expect(what);
    assert_eq!(made.count, COUNT, "{what}");
    let figures = &out[..COUNT];
    expect_sums(&request, made, figures, what);
    let (least, greatest) = (figures.iter().min(), figures.iter().max());
    (made, *least.expect(what), *greatest.expect(what))
}

/// The carries that a call is given: both ends of the range, and some between.
const CARRIES: [u32; 4] = [0, 1, 12_345, 39_999];

fn expect_figures(group: u8, yearly: u32, least: u32, greatest: u32) {
    for carry in CARRIES {
        let (_, found_least, found_greatest) = expanded(group, yearly, carry);
        assert_eq!((found_least, found_greatest), (least, greatest));
    }
}

#[test]
fn no_use_gives_zeros_and_keeps_the_carry() {
    for group in [0, 1] {
        expect_figures(group, 0, 0, 0);
        for carry in CARRIES {
            let (made, ..) = expanded(group, 0, carry);
            assert_eq!((made.total, made.carry), (0, carry));
        }
    }
}

#[test]
fn one_kwh_gives_figures_of_0_and_1() {
    expect_figures(0, 1, 0, 1);
    expect_figures(1, 1, 0, 1);
}

/// Document 01 has F = 7847 for t = 202 and 12597 for t = 366, the least and the greatest of these years: with every value
/// 20,000 a household's powers go from 15,694 to 25,194; those of G0 are 20,000.
#[test]
fn both_sides_of_the_use_up_to_which_sums_are_kept_in_parts() {
    expect_figures(1, 500_000, 250_000, 250_000);
    expect_figures(1, 500_001, 250_000, 250_001);
    expect_figures(0, 500_000, 196_175, 314_925);
    expect_figures(0, 500_001, 196_175, 314_926);
}

/// The same powers.
#[test]
fn the_greatest_uses() {
    expect_figures(1, 999_999_999, 499_999_999, 500_000_000);
    expect_figures(1, 1_000_000_000, 500_000_000, 500_000_000);
    expect_figures(0, 999_999_999, 392_349_999, 629_850_000);
    expect_figures(0, 1_000_000_000, 392_350_000, 629_850_000);
}

/// Document 01's factors: a household's figures on these days of 2000, for the largest value and use.
#[test]
fn the_marked_factors_show_in_the_figures() {
    let file = file();
    for (date, f) in [
        (20_000_101, 12_420),
        (20_000_720, 7_847),
        (20_001_231, 12_597),
    ] {
        let request = request(&file, 0, date, date, 1_000_000_000, 0);
        let mut out = [MARK; 96];
        let made = agreed::expand(&request, &mut out, &format!("{date}")).expect("accepted");
        assert_eq!(out, [50_000 * f; 96], "{date}");
        assert_eq!(made.carry, 0, "{date}");
    }
}

/// Document 01's carry step: Q = 1001, A = 1000, carry 39,999.
#[test]
fn the_marked_carry_step() {
    let file = profile_file::of(&[1], &[1_001; 864]);
    let request = request(&file, 1, 20_000_101, 20_000_101, 1_000, 39_999);
    let mut out = [MARK; 96];
    agreed::expand(&request, &mut out, "the marked step").expect("accepted");
    let (figure, carry) = reference::series::carry_step(1_001, 1_000, 39_999);
    assert_eq!((figure, carry), (26, 999));
    assert_eq!(out[..2], [26, 25]);
}

/// With the least and the greatest use.
#[test]
fn a_profile_of_zeros_gives_zeros() {
    let file = profile_file::of(&[0, 1], &[0; 1_728]);
    for (group, yearly) in [(0, 0), (1, 0), (0, 1_000_000_000), (1, 1_000_000_000)] {
        let request = request(&file, group, 20_000_101, 20_000_107, yearly, 39_999);
        let mut out = [MARK; 7 * 96];
        let made = agreed::expand(&request, &mut out, "zeros").expect("accepted");
        assert_eq!((made.total, made.carry), (0, 39_999));
        assert!(out.iter().all(|&figure| figure == 0));
    }
}

// The lent output's length.

/// A day of 92 values with the day before it, a day of 100, and 1,461 days with four days of 100 and three of 92.
const ROOMS: [(u32, u32, usize); 3] = [
    (20_000_325, 20_000_326, 188),
    (20_001_029, 20_001_029, 100),
    (20_000_327, 20_040_326, 140_260),
];

#[test]
fn an_output_too_short_is_refused_and_one_long_enough_is_not() {
    let file = file();
    for (first, last, needed) in ROOMS {
        for group in [0, 1] {
            let request = request(&file, group, first, last, 1_001, 1);
            for room in [0, 1, needed - 1] {
                let what = &format!("group {group}, {first} to {last}, room {room}");
                let mut out = vec![MARK; room];
                let answer = agreed::expand(&request, &mut out, what);
                assert_eq!(answer, refused(12, needed), "{what}");
            }
            for room in [needed, needed + 1, LENGTH, slp::LONGEST_SERIES] {
                let what = &format!("group {group}, {first} to {last}, room {room}");
                let mut out = vec![MARK; room];
                let made = agreed::expand(&request, &mut out, what).expect(what);
                assert_eq!(made.count, needed, "{what}");
                expect_sums(&request, made, &out[..needed], what);
            }
        }
    }
}

// The first "no" counts.

/// What expanding is given.
struct Asked {
    file: Vec<u8>,
    group: u8,
    first: u32,
    last: u32,
    holidays: Vec<u32>,
    yearly: u32,
    carry: u32,
    room: usize,
}

impl Asked {
    /// Every question is answered "no": a byte of the mark, the version, the count, the second code and the last value of each profile; a
    /// group that is missing, two dates that are none of the span, a list with a date twice and 401 dates, use and carry out of
    /// range, and no output.
    fn all_at_fault() -> Asked {
        let mut file = file();
        file[2] = 0;
        file[4] = 2;
        file[5] = 12;
        file[1_735] = 0;
        file[1_733] = 255;
        file[3_462] = 255;
        let mut holidays: Vec<u32> = (0..401).map(first_of_month).collect();
        holidays[7] = holidays[0];
        Asked {
            file,
            group: 5,
            first: 20_000_230,
            last: 21_000_101,
            holidays,
            yearly: 1_000_000_001,
            carry: 40_000,
            room: 0,
        }
    }

    fn answer(&self, what: &str) -> Result<Expansion, Refusal> {
        let request = Request {
            file: &self.file,
            group: self.group,
            first: self.first,
            last: self.last,
            holidays: &self.holidays,
            yearly: self.yearly,
            carry: self.carry,
        };
        agreed::expand(&request, &mut vec![MARK; self.room], what)
    }
}

/// A change of what is asked, and number and place of the refusal after it.
type Change = (fn(&mut Asked), u32, usize);

/// The first of the month that lies some months after January 1996.
fn first_of_month(months: u32) -> u32 {
    10_000 * (1996 + months / 12) + 100 * (months % 12 + 1) + 1
}

/// What is at fault is put right in the questions' order, a bit at a time: each time the next question refuses.
#[test]
fn expanding_asks_in_order() {
    let mut asked = Asked::all_at_fault();
    let steps: [Change; 17] = [
        (|_| (), 1, 0),
        (|asked| asked.file[2] = b'P', 2, 0),
        (|asked| asked.file[4] = 1, 3, 0),
        (|asked| asked.file[5] = 2, 4, 1_735),
        (|asked| asked.file[1_735] = 1, 5, 1_733),
        (|asked| asked.file[1_733] = 0x4E, 5, 3_462),
        (|asked| asked.file[3_462] = 0x4E, 6, 0),
        (|asked| asked.group = 1, 7, 0),
        (|asked| asked.first = 20_000_102, 7, 1),
        (|asked| asked.last = 20_000_101, 8, 0),
        (
            |asked| (asked.first, asked.last) = (20_000_101, 20_040_101),
            8,
            0,
        ),
        (|asked| asked.last = 20_031_231, 9, 7),
        (|asked| asked.holidays[7] = first_of_month(7), 9, 400),
        (|asked| asked.holidays.truncate(400), 10, 0),
        (|asked| asked.yearly = 1_000_000_000, 11, 0),
        (|asked| asked.carry = 39_999, 12, COUNT),
        (|asked| asked.room = COUNT - 1, 12, COUNT),
    ];
    for (put_right, number, place) in steps {
        put_right(&mut asked);
        let what = &format!("question {number}, place {place}");
        assert_eq!(asked.answer(what), refused(number, place), "{what}");
    }
    assert_eq!(asked.file, file());
    asked.room = COUNT;
    let made = Expansion {
        count: COUNT,
        total: 500_000_000 * COUNT as u64,
        carry: 39_999,
    };
    assert_eq!(asked.answer("nothing is at fault"), Ok(made));
}

/// Each question of expanding by itself, with nothing else at fault.
#[test]
fn each_question_of_expanding_by_itself() {
    let good = || Asked {
        file: file(),
        group: 1,
        first: DAYS.0,
        last: DAYS.1,
        holidays: (0..400).map(first_of_month).collect(),
        yearly: 1_000_000_000,
        carry: 39_999,
        room: COUNT,
    };
    assert!(good().answer("good").is_ok());
    let faults: [Change; 16] = [
        (|asked| asked.file[2] = 0, 1, 0),
        (|asked| asked.file.truncate(5), 1, 0),
        (|asked| asked.file[4] = 2, 2, 0),
        (|asked| asked.file[5] = 12, 3, 0),
        (|asked| asked.file.push(0), 3, 0),
        (|asked| asked.file[1_735] = 0, 4, 1_735),
        (|asked| asked.file[3_462] = 255, 5, 3_462),
        (|asked| asked.group = 5, 6, 0),
        (|asked| asked.first = 20_000_230, 7, 0),
        (|asked| asked.last = 21_000_101, 7, 1),
        (|asked| asked.first = 20_040_101, 8, 0),
        (|asked| asked.last = 20_040_101, 8, 0),
        (|asked| asked.holidays.push(20_991_231), 9, 400),
        (|asked| asked.yearly = 1_000_000_001, 10, 0),
        (|asked| asked.carry = 40_000, 11, 0),
        (|asked| asked.room -= 1, 12, COUNT),
    ];
    for (fault, number, place) in faults {
        let mut asked = good();
        fault(&mut asked);
        let what = &format!("question {number}, place {place}");
        assert_eq!(asked.answer(what), refused(number, place), "{what}");
    }
}

/// The day enquiry, reading and comparing, with every later question at fault too.
#[test]
fn the_other_calls_ask_in_order() {
    let Asked { holidays, file, .. } = Asked::all_at_fault();
    let day = |date, holidays: &[u32]| agreed::day(date, holidays, "day").map(|day| day.t);
    assert_eq!(day(20_000_230, &holidays), refused(7, 0));
    assert_eq!(day(20_000_229, &holidays), refused(9, 7));
    assert_eq!(day(20_000_229, &holidays[..7]), Ok(60));

    let read = |file: &[u8], group| agreed::read(file, group, &mut [u16::MAX; 863], "read");
    let compare = |file: &[u8], first, second| agreed::compare(file, first, second, "compare");
    assert_eq!(read(&file, 5), refused(1, 0));
    assert_eq!(compare(&file, 5, 6), refused(1, 0));
    let file = self::file();
    assert_eq!(read(&file, 5), refused(6, 0));
    assert_eq!(read(&file, 1), refused(12, 864));
    assert_eq!(compare(&file, 5, 6), refused(6, 0));
    assert_eq!(compare(&file, 1, 6), refused(6, 1));
    assert_eq!(compare(&file, 1, 0), Ok(true));
}
