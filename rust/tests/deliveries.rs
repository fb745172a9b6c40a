//! The call `deliveries` held to the reference, on random inputs and at its limits, and to what document 02, (c), says of it: the
//! differences add up, and a period's balanced energy is what expanding gives for it, with the carry running through. `agreed` compares
//! the answer and every entry of the lent memory.
#[allow(dead_code)] // the tests of the other calls use the rest
mod agreed;
#[allow(dead_code)] // likewise
mod draw;
#[allow(dead_code)] // likewise
mod profile_file;
mod tally;

use std::collections::{BTreeMap, BTreeSet};

use agreed::refused;
use draw::Draw;
use reference::Refusal;
use slp::report::{Deliveries, ExpansionReport, Request};
use slp::MOST_PERIODS;
use tally::Tally;

const INPUTS: u64 = 30_000;

/// Entries of an output that no difference was written to.
const MARK: i64 = i64::MIN;

/// What the call is given, and how many entries of output.
#[derive(Clone)]
struct Asked {
    file: Vec<u8>,
    group: u8,
    first: u32,
    last: u32,
    starts: Vec<u32>,
    metered: Vec<u32>,
    holidays: Vec<u32>,
    yearly: u32,
    room: usize,
}

impl Asked {
    /// The answer, and the output after it.
    fn answer(&self, what: &str) -> (Result<(), Refusal>, Vec<i64>) {
        let given = Deliveries {
            file: &self.file,
            group: self.group,
            first: self.first,
            last: self.last,
            starts: &self.starts,
            metered: &self.metered,
            holidays: &self.holidays,
            yearly: self.yearly,
        };
        let mut out = vec![MARK; self.room];
        let answer = agreed::deliveries(&given, &mut out, what);
        (answer, out)
    }

    /// The differences of an input that is accepted.
    fn differences(&self, what: &str) -> Vec<i64> {
        let (answer, mut out) = self.answer(what);
        assert_eq!(answer, Ok(()), "{what}");
        out.truncate(self.starts.len());
        out
    }

    /// What expanding answers for some days of the span.
    fn expanded(&self, first: u32, last: u32, carry: u32, out: &mut [u32]) -> ExpansionReport {
        let request = Request {
            file: &self.file,
            group: self.group,
            first,
            last,
            holidays: &self.holidays,
            yearly: self.yearly,
            carry,
        };
        let made = slp::report::expand(&request, out);
        assert_eq!(made.number, 0, "{first} to {last}");
        made
    }

    /// The last date of the period at an index.
    fn end_of(&self, period: usize) -> u32 {
        match self.starts.get(period + 1) {
            Some(&next) => draw::date_at(draw::index_of(next).expect("a date of the span") - 1),
            None => self.last,
        }
    }

    /// Each balanced energy is the total of the period, expanded with the carry of the period before; all of them are the span's.
    fn expect_expanded(&self, differences: &[i64], out: &mut [u32], what: &str) {
        let mut carry = 0;
        for (period, &start) in self.starts.iter().enumerate() {
            let made = self.expanded(start, self.end_of(period), carry, out);
            let metered = 1_000 * i64::from(self.metered[period]);
            let found = metered - differences[period];
            assert_eq!(found, made.total as i64, "{what}, period {period}");
            carry = made.carry;
        }
        let whole = self.expanded(self.first, self.last, 0, out);
        let metered: i64 = self.metered.iter().copied().map(i64::from).sum();
        let sum: i64 = differences.iter().sum();
        assert_eq!(sum, 1_000 * metered - whole.total as i64, "{what}");
        assert_eq!(carry, whole.carry, "{what}");
    }
}

// Random inputs.

/// First dates from the span's own on, mostly rising and inside it.
fn drawn_starts(draw: &mut Draw, first: usize, last: usize) -> Vec<u32> {
    let days = (last + 1).saturating_sub(first).max(1);
    let most = days.min(MOST_PERIODS);
    let count = match draw.below(20) {
        0..=5 => 1,
        6..=9 => most,
        10 => days.min(MOST_PERIODS + 1 + draw.below(3)),
        _ => draw.between(1, most),
    };
    let mut days = BTreeSet::from([first]);
    while days.len() < count {
        days.insert(draw.between(first, last));
    }
    let mut starts: Vec<u32> = days.into_iter().map(draw::date_at).collect();
    let (at, other) = (draw.below(count), draw.below(count));
    match draw.below(60) {
        0 => starts.clear(),
        1 => starts[at] = draw::date(draw, first, 100),
        2 => starts[at] = starts[at.saturating_sub(1)],
        3 => starts.swap(at, other),
        4 => starts[at] = draw::date_at(draw::day_index(draw)),
        5 => starts.push(draw::date_at((last + 1).min(draw::span().len() - 1))),
        6 if count > 1 => drop(starts.remove(0)),
        // Between two months, so that only the date itself is wrong.
        7 | 8 => starts[at] = starts[at] / 100 * 100 + draw.pick(&[0, 99]),
        _ => {}
    }
    starts
}

/// Metered kWh, mostly one for each of `count` periods.
fn drawn_metered(draw: &mut Draw, count: usize) -> Vec<u32> {
    let (kind, size) = (draw.below(8), draw.between(1, 6));
    let mut metered: Vec<u32> = (0..count)
        .map(|_| match kind {
            0 => 0,
            1 => u32::MAX,
            2 => draw.word(),
            _ => draw.below(10_usize.pow(size as u32)) as u32,
        })
        .collect();
    match draw.below(60) {
        0 => metered.clear(),
        1 => drop(metered.pop()),
        2 => metered.push(draw.word()),
        _ => {}
    }
    metered
}

fn drawn(draw: &mut Draw) -> Asked {
    let (file, codes) = draw::file(draw, 15);
    let (first, last) = draw::period(draw);
    let starts = drawn_starts(draw, first, last);
    Asked {
        file,
        group: draw::group(draw, &codes),
        first: draw::date(draw, first, 2),
        last: draw::date(draw, last, 2),
        metered: drawn_metered(draw, starts.len()),
        holidays: draw::list(draw, first),
        yearly: draw::yearly(draw),
        room: draw::output_length(draw, starts.len()),
        starts,
    }
}

#[test]
fn random_inputs_agree() {
    let mut tally = Tally::default();
    let mut accepted: BTreeMap<&str, u32> = BTreeMap::new();
    let mut figures = vec![0; slp::LONGEST_SERIES];
    for seed in 0..INPUTS {
        let asked = drawn(&mut Draw::new(11_000_000 + seed));
        let what = &format!("seed {seed}");
        let (answer, out) = asked.answer(what);
        tally.note(&answer);
        if answer.is_err() {
            continue;
        }
        let differences = &out[..asked.starts.len()];
        asked.expect_expanded(differences, &mut figures, what);
        let span = asked.first..=asked.last;
        let [first, last] = [asked.first, asked.last].map(|date| draw::index_of(date).expect(what));
        let mut days = draw::span()[first..=last].iter();
        let mut listed = asked.holidays.iter();
        for (kind, is_so) in [
            (
                "a negative difference",
                differences.iter().any(|&wh| wh < 0),
            ),
            (
                "a positive difference",
                differences.iter().any(|&wh| wh > 0),
            ),
            ("households", asked.group == 0),
            ("several periods", asked.starts.len() > 1),
            ("48 periods", asked.starts.len() == MOST_PERIODS),
            ("a clock change", days.any(|day| day.values() != 96)),
            ("a holiday", listed.any(|date| span.contains(date))),
            ("entries beyond", out.len() > asked.starts.len()),
        ] {
            *accepted.entry(kind).or_default() += u32::from(is_so);
        }
    }
    let questions = [1, 2, 3, 4, 5, 6, 7, 8, 9, 10, 12, 17, 18];
    tally.expect("deliveries", &questions, 200);
    tally.expect_places(7, &[0, 1]);
    tally.expect_many_places(9, 50);
    tally.expect_many_places(12, 10);
    tally.expect_places(17, &[0]);
    tally.expect_many_places(18, 10);
    println!("deliveries: accepted inputs by what they have {accepted:?}");
    assert!(
        accepted.values().all(|&inputs| inputs >= 100),
        "{accepted:?}"
    );
}

// What the request says.

/// Document 01's file: G0, with every value 1001.
fn flat(first: u32, last: u32, starts: &[u32], metered: &[u32]) -> Asked {
    Asked {
        file: profile_file::of(&[1], &[1_001; 864]),
        group: 1,
        first,
        last,
        starts: starts.to_vec(),
        metered: metered.to_vec(),
        holidays: Vec::new(),
        yearly: 1_000,
        room: starts.len(),
    }
}

/// 24, 25 and 26 March 2000 have 7,107 Wh, of which a carry that began anew each day would leave 2,302 for the last.
#[test]
fn the_marked_days_of_march() {
    let days = [20_000_324, 20_000_325, 20_000_326];
    let daily = flat(days[0], days[2], &days, &[2, 2, 2]);
    assert_eq!(daily.differences("three days"), [-402, -402, -303]);
    let two = flat(days[1], days[2], &days[1..], &[2, 3]);
    assert_eq!(two.differences("two days"), [-402, 698]);
    let one = flat(days[0], days[2], &days[..1], &[6]);
    assert_eq!(one.differences("one period"), [6_000 - 7_107]);
}

/// First days of months from January 2000 on.
fn months(count: u32) -> Vec<u32> {
    let month = |i| 10_000 * (2000 + i / 12) + 100 * (i % 12 + 1) + 1;
    (0..count).map(month).collect()
}

/// Households and trade over the 1,461 days of 2000 to 2003, in as many months.
fn four_years(group: u8, values: u16, yearly: u32, metered: u32) -> Asked {
    Asked {
        file: profile_file::of(&[0, 1], &[values; 1_728]),
        group,
        first: 20_000_101,
        last: 20_031_231,
        starts: months(48),
        metered: vec![metered; 48],
        holidays: vec![20_000_421, 20_011_224, 20_031_226],
        yearly,
        room: MOST_PERIODS,
    }
}

/// A year's 12 months, its 4 quarters and the year itself: what is joined adds up.
#[test]
fn joined_periods_have_their_differences_added() {
    for group in [0, 1] {
        let asked = |step: usize, metered: u32| Asked {
            last: 20_001_231,
            starts: months(12).into_iter().step_by(step).collect(),
            metered: vec![metered; 12 / step],
            ..four_years(group, 1_234, 3_501, 0)
        };
        let months = asked(1, 100).differences("months");
        let quarters = asked(3, 300).differences("quarters");
        let year = asked(12, 1_200).differences("year");
        let added: Vec<i64> = months.chunks(3).map(|months| months.iter().sum()).collect();
        assert_eq!(quarters, added);
        assert_eq!(year, [quarters.iter().sum::<i64>()]);
    }
}

// The limits.

/// For the largest value and use a quarter hour of G0 has 500,000,000 Wh; households have up to 1.26 times that.
#[test]
fn four_years_of_months_at_the_greatest_use() {
    let mut figures = vec![0; slp::LONGEST_SERIES];
    for (group, metered) in [(0, 0), (1, 0), (0, u32::MAX), (1, u32::MAX)] {
        let what = &format!("group {group}, {metered} kWh metered");
        let asked = four_years(group, 20_000, 1_000_000_000, metered);
        let differences = asked.differences(what);
        asked.expect_expanded(&differences, &mut figures, what);
        if group == 1 {
            let quarter_hours = [31 * 96, 29 * 96, 31 * 96 - 4];
            let expected = quarter_hours.map(|n| 1_000 * i64::from(metered) - 500_000_000 * n);
            assert_eq!(differences[..3], expected, "{what}");
        }
    }
}

#[test]
fn the_greatest_and_the_least_difference_of_one_period() {
    let whole = |group, values, yearly, metered| Asked {
        starts: months(1),
        metered: vec![metered],
        ..four_years(group, values, yearly, 0)
    };
    let greatest = 1_000 * i64::from(u32::MAX);
    for group in [0, 1] {
        for (values, yearly) in [(20_000, 0), (0, 1_000_000_000)] {
            let asked = whole(group, values, yearly, u32::MAX);
            assert_eq!(asked.differences("nothing balanced"), [greatest]);
        }
    }
    let trade = whole(1, 20_000, 1_000_000_000, 0);
    assert_eq!(trade.differences("trade"), [-500_000_000 * 140_256]);
    let households = whole(0, 20_000, 1_000_000_000, 0);
    let least = households.differences("households")[0];
    assert!(least < -70_000_000_000_000, "{least}");
}

#[test]
fn an_output_has_an_entry_for_each_period_and_keeps_those_beyond() {
    for count in [1, 2, 47, 48] {
        let asked = |room| Asked {
            starts: months(count as u32),
            metered: vec![7; count],
            room,
            ..four_years(1, 1_001, 1_000, 0)
        };
        for room in [0, count - 1] {
            let (answer, out) = asked(room).answer("too short");
            assert_eq!(answer, refused(12, count), "{count}, {room}");
            assert_eq!(out, vec![MARK; room], "{count}, {room}");
        }
        for room in [count, count + 1, 200] {
            let (answer, out) = asked(room).answer("long enough");
            assert_eq!(answer, Ok(()), "{count}, {room}");
            assert!(!out[..count].contains(&MARK), "{count}, {room}");
            assert_eq!(out[count..], vec![MARK; room - count], "{count}, {room}");
        }
    }
}

#[test]
fn a_call_has_1_to_48_periods_with_a_metered_value_each() {
    let answer = |starts: u32, metered: usize| {
        let asked = Asked {
            starts: months(starts),
            metered: vec![7; metered],
            last: 20_031_231,
            room: 50,
            ..four_years(1, 1_001, 1_000, 0)
        };
        asked
            .answer(&format!("{starts} starts, {metered} metered"))
            .0
    };
    for count in [1, 2, 12, 48] {
        assert_eq!(answer(count, count as usize), Ok(()));
        assert_eq!(answer(count, count as usize - 1), refused(17, 0));
        assert_eq!(answer(count, count as usize + 1), refused(17, 0));
    }
    for (starts, metered) in [(0, 0), (0, 1), (49, 49), (49, 48), (48, 49), (400, 400)] {
        assert_eq!(answer(starts, metered), refused(17, 0));
    }
}

#[test]
fn first_dates_are_real_and_rise_from_the_spans_own_inside_it() {
    let answer = |starts: &[u32]| {
        let metered = vec![2; starts.len()];
        let asked = flat(20_000_229, 20_000_326, starts, &metered);
        asked.answer(&format!("{starts:?}")).0
    };
    let first = 20_000_229;
    for starts in [
        &[first][..],
        &[first, 20_000_301],
        &[first, 20_000_326],
        &[first, 20_000_325, 20_000_326],
    ] {
        assert_eq!(answer(starts), Ok(()), "{starts:?}");
    }
    for (starts, place) in [
        (&[20_000_230][..], 0),
        (&[20_000_301], 0),
        (&[20_000_228, 20_000_301], 0),
        (&[first, 20_000_230], 1),
        (&[first, first], 1),
        (&[first, 20_000_228], 1),
        (&[first, 20_000_327], 1),
        (&[first, 0], 1),
        (&[first, u32::MAX], 1),
        (&[first, 20_000_301, 20_000_301, 0], 2),
        (&[first, 20_000_303, 20_000_302], 2),
        (&[first, 20_000_303, 19_951_231], 2),
    ] {
        assert_eq!(answer(starts), refused(18, place), "{starts:?}");
    }
}

// The first "no" counts.

/// A change of what is asked, and number and place of the refusal after it.
type Change = (fn(&mut Asked), u32, usize);

/// Every question is answered "no", and what is at fault is put right in the questions' order: each time the next one refuses.
#[test]
fn the_questions_come_in_order() {
    let sound = four_years(1, 20_000, 1_000_000_000, 7);
    let mut asked = Asked {
        group: 5,
        first: 20_000_230,
        last: 21_000_101,
        starts: months(49),
        metered: vec![7; 47],
        holidays: vec![20_000_101; 401],
        yearly: 1_000_000_001,
        room: 0,
        ..sound.clone()
    };
    for (at, byte) in [(2, 0), (4, 2), (5, 12), (1_735, 0), (3_462, 255)] {
        asked.file[at] = byte;
    }
    for (at, start) in [
        (0, 20_000_102),
        (1, 20_000_230),
        (2, 20_000_201),
        (47, 20_040_101),
    ] {
        asked.starts[at] = start;
    }
    let steps: [Change; 21] = [
        (|_| (), 1, 0),
        (|asked| asked.file[2] = b'P', 2, 0),
        (|asked| asked.file[4] = 1, 3, 0),
        (|asked| asked.file[5] = 2, 4, 1_735),
        (|asked| asked.file[1_735] = 1, 5, 3_462),
        (|asked| asked.file[3_462] = 0x4E, 6, 0),
        (|asked| asked.group = 1, 7, 0),
        (|asked| asked.first = 20_000_101, 7, 1),
        (|asked| asked.last = 19_991_231, 8, 0),
        (|asked| asked.last = 20_040_101, 8, 0),
        (|asked| asked.last = 20_031_231, 17, 0),
        (|asked| asked.starts.truncate(48), 17, 0),
        (|asked| asked.metered.push(7), 18, 0),
        (|asked| asked.starts[0] = 20_000_101, 18, 1),
        (|asked| asked.starts[1] = 20_000_201, 18, 2),
        (|asked| asked.starts[2] = 20_000_301, 18, 47),
        (|asked| asked.starts[47] = 20_031_201, 9, 1),
        (
            |asked| asked.holidays = vec![20_000_421, 20_011_224, 20_031_226],
            10,
            0,
        ),
        (|asked| asked.yearly = 1_000_000_000, 12, 48),
        (|asked| asked.room = 1, 12, 48),
        (|asked| asked.room = 47, 12, 48),
    ];
    for (put_right, number, place) in steps {
        put_right(&mut asked);
        let what = &format!("question {number}, place {place}");
        let (answer, _) = asked.answer(what);
        assert_eq!(answer, refused(number, place), "{what}");
    }
    asked.room = 48;
    assert_eq!(asked.file, sound.file);
    assert_eq!(
        asked.differences("nothing is at fault"),
        sound.differences("sound")
    );
}
