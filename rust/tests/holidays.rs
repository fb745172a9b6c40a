//! The call `holidays` held to the reference: on every year and choice, with lists on both sides of the length that is needed, and on
//! random inputs. `agreed` compares the answer and every entry of the lent memory.
#[allow(dead_code)] // the tests of the other calls use the rest
mod agreed;
#[allow(dead_code)] // likewise
mod draw;
#[allow(dead_code)] // likewise
mod profile_file;
#[allow(dead_code)] // likewise
mod tally;

use std::collections::BTreeMap;

use agreed::refused;
use draw::Draw;
use slp::{DayType, Group, RegionalDay, Request};
use tally::Tally;

const INPUTS: u64 = 30_000;

/// All years and all choices.
fn every_input() -> impl Iterator<Item = (u32, u8)> {
    (1996..=2099).flat_map(|year| (0..=63).map(move |choice| (year, choice)))
}

/// The list of a year and a choice, which is accepted.
fn list_of(year: u32, choice: u8) -> Vec<u32> {
    let mut list = vec![0; slp::MOST_HOLIDAYS];
    let report = slp::report::holidays(year, choice, &mut list);
    assert_eq!((report.number, report.place), (0, 0), "{year} {choice}");
    list.truncate(report.length);
    list
}

/// A list of each length from 0 to three more than the most that is needed.
#[test]
fn every_year_and_choice_with_every_length() {
    for (year, choice) in every_input() {
        let needed = list_of(year, choice).len();
        for length in 0..=slp::MOST_HOLIDAYS + 3 {
            let what = &format!("{year}, choice {choice}, {length} entries");
            let mut list: Vec<u32> = (0..length as u32).map(|i| u32::MAX - i).collect();
            let answer = agreed::holidays(year, choice, &mut list, what);
            let expected = match length >= needed {
                true => Ok(needed),
                false => refused(16, needed),
            };
            assert_eq!(answer, expected, "{what}");
        }
    }
}

/// Mostly a year of the span.
fn drawn_year(draw: &mut Draw) -> u32 {
    let any = draw.word();
    match draw.below(12) {
        0 => draw.pick(&[0, 1995, 2100, 3996, 65_536 + 2000, u32::MAX, any]),
        1 => draw.pick(&[1996, 2008, 2099]),
        _ => draw.between(1996, 2099) as u32,
    }
}

/// Mostly a choice of the six days.
fn drawn_choice(draw: &mut Draw) -> u8 {
    match draw.below(12) {
        0 => draw.between(64, 255) as u8,
        1 => draw.pick(&[0, 63, 64, 128]),
        _ => draw.between(0, 63) as u8,
    }
}

#[test]
fn random_inputs_agree() {
    let mut tally = Tally::default();
    let mut lengths = BTreeMap::new();
    for seed in 0..INPUTS {
        let mut draw = Draw::new(9_000_000 + seed);
        let (year, choice) = (drawn_year(&mut draw), drawn_choice(&mut draw));
        let needed = 11 + (choice & 63).count_ones() as usize - usize::from(year == 2008);
        let length = draw::output_length(&mut draw, needed);
        let mut list: Vec<u32> = (0..length).map(|_| draw.word()).collect();
        let answer = agreed::holidays(year, choice, &mut list, &format!("seed {seed}"));
        tally.note(&answer);
        if let Ok(length) = answer {
            *lengths.entry(length).or_insert(0) += 1;
        }
    }
    tally.expect("holidays", &[14, 15, 16], 500);
    tally.expect_places(14, &[0]);
    tally.expect_places(15, &[0]);
    tally.expect_places(16, &(10..=17).collect::<Vec<_>>());
    println!("holidays: inputs by length {lengths:?}");
    assert!(lengths.keys().copied().eq(10..=17), "{lengths:?}");
}

/// Each question is refused with every later one at fault too.
#[test]
fn the_questions_come_in_order() {
    let asked = |year, choice, length: usize| {
        let what = &format!("{year}, choice {choice}, {length} entries");
        agreed::holidays(year, choice, &mut vec![u32::MAX; length], what)
    };
    for (year, choice) in [
        (1995, 64),
        (2100, 255),
        (0, 64),
        (u32::MAX, 128),
        (1995, 63),
    ] {
        assert_eq!(asked(year, choice, 0), refused(14, 0));
    }
    for (year, choice) in [(1996, 64), (2099, 255), (2000, 128)] {
        assert_eq!(asked(year, choice, 0), refused(15, 0));
        assert_eq!(asked(year, choice, 17), refused(15, 0));
    }
    assert_eq!(asked(2000, 63, 0), refused(16, 17));
    assert_eq!(asked(2000, 63, 16), refused(16, 17));
    assert_eq!(asked(2008, 0, 9), refused(16, 10));
    assert_eq!(asked(2000, 63, 17), Ok(17));
}

/// The calls that take a list take every list that this call gives: question 9 passes, and a listed day counts as Sunday.
#[test]
fn every_list_passes_question_9() {
    let mut file = [0; slp::file_length(1)];
    slp::write(&[Group::G0], &[1001; slp::GROUP_VALUES], &mut file).expect("sound values");
    let mut out = [0; 96];
    for (year, choice) in every_input() {
        let list = list_of(year, choice);
        assert!((10..=17).contains(&list.len()), "{year} {choice}");
        assert!(list.windows(2).all(|pair| pair[0] < pair[1]), "{list:?}");
        for &date in &list {
            let day = slp::day(date, &list).expect("the list is accepted");
            assert_eq!(day.day_type, DayType::Sunday, "{date}");
        }
        let request = Request {
            file: &file,
            group: Group::G0,
            first: list[0],
            last: list[0],
            holidays: &list,
            yearly: 1000,
            carry: 0,
        };
        let made = slp::expand(&request, &mut out).expect("the list is accepted");
        assert_eq!(made.count, 96);
    }
}

/// Source document 000, step 4: the list of the year 2000 with all regional days.
#[test]
fn the_papers_list_of_2000() {
    let all = [
        101, 106, 421, 423, 424, 501, 601, 611, 612, 622, 815, 1003, 1031, 1101, 1122, 1225, 1226,
    ];
    assert_eq!(list_of(2000, 63), all.map(|day| 20_000_000 + day));
    let regional = [106, 622, 815, 1031, 1101, 1122];
    let federal = || all.into_iter().filter(|day| !regional.contains(day));
    let dates =
        |days: Vec<u32>| -> Vec<u32> { days.into_iter().map(|day| 20_000_000 + day).collect() };
    assert_eq!(list_of(2000, 0), dates(federal().collect()));
    for (day, date) in RegionalDay::ALL.into_iter().zip(regional) {
        let mut expected: Vec<u32> = federal().chain([date]).collect();
        expected.sort();
        assert_eq!(list_of(2000, 1 << day.bit()), dates(expected), "{day}");
    }
}

/// Easter Sundays, the third date of a list without Epiphany, and 1 May 2008, which is Ascension Day too.
#[test]
fn marked_easters() {
    for (year, easter) in [
        (2000, 423),
        (2008, 323),
        (2038, 425),
        (2049, 418),
        (2076, 419),
    ] {
        assert_eq!(list_of(year, 0)[2], 10_000 * year + easter);
    }
    let list = list_of(2008, 0);
    assert_eq!(list[3..6], [20_080_324, 20_080_501, 20_080_511]);
    assert_eq!(list.len(), 10);
}
