//! Each of the seven calls held to the reference on random inputs. Every figure of the answer and every entry of the lent memory
//! is compared; the counts by question number show that each way out of a call was taken.
#[allow(dead_code)] // the other tests use the rest
mod agreed;
mod draw;
#[allow(dead_code)] // likewise
mod profile_file;
mod tally;

use std::collections::BTreeSet;

use draw::Draw;
use slp::report::Request;
use slp::Group;
use tally::Tally;

const INPUTS: u64 = 30_000;

#[test]
fn check() {
    let mut tally = Tally::default();
    for seed in 0..INPUTS {
        let mut draw = Draw::new(seed);
        let (file, codes) = draw::file(&mut draw, 40);
        let group = draw::group(&mut draw, &codes);
        tally.note(&agreed::check(&file, group, &format!("seed {seed}")));
    }
    tally.expect("check", &[1, 2, 3, 4, 5, 6], 50);
    tally.expect_places(4, &(0..11).map(|i| 6 + 1729 * i).collect::<Vec<_>>());
    tally.expect_many_places(5, 200);
    tally.expect_places(6, &[0]);
}

#[test]
fn locate() {
    let mut tally = Tally::default();
    for seed in 0..INPUTS {
        let mut draw = Draw::new(1_000_000 + seed);
        let (file, codes) = draw::file(&mut draw, 40);
        let group = draw::group(&mut draw, &codes);
        let part = agreed::locate(&file, group, &format!("seed {seed}"));
        let answer = reference::check(&file, group);
        assert_eq!(
            part.len(),
            if answer.is_ok() { 1728 } else { 0 },
            "seed {seed}"
        );
        tally.note(&answer);
    }
    tally.expect("locate", &[1, 2, 3, 4, 5, 6], 50);
}

#[test]
fn read() {
    let mut tally = Tally::default();
    for seed in 0..INPUTS {
        let mut draw = Draw::new(2_000_000 + seed);
        let (file, codes) = draw::file(&mut draw, 35);
        let group = draw::group(&mut draw, &codes);
        let length = draw::output_length(&mut draw, 864);
        let mut table: Vec<u16> = (0..length).map(|_| draw.word() as u16).collect();
        let what = &format!("seed {seed}");
        tally.note(&agreed::read(&file, group, &mut table, what));
    }
    tally.expect("read", &[1, 2, 3, 4, 5, 6, 12], 50);
    tally.expect_places(12, &[864]);
}

#[test]
fn write() {
    let mut tally = Tally::default();
    for seed in 0..INPUTS {
        let mut draw = Draw::new(3_000_000 + seed);
        let (codes, values) = draw::contents(&mut draw);
        let length = draw::output_length(&mut draw, 6 + 1729 * codes.len());
        let mut buffer: Vec<u8> = (0..length).map(|_| draw.byte()).collect();
        let what = &format!("seed {seed}");
        tally.note(&agreed::write(&codes, &values, &mut buffer, what));
    }
    tally.expect("write", &[3, 4, 5, 12], 50);
    tally.expect_places(4, &(0..11).map(|i| 6 + 1729 * i).collect::<Vec<_>>());
    tally.expect_many_places(5, 200);
    tally.expect_many_places(12, 6);
}

#[test]
fn compare() {
    let mut tally = Tally::default();
    let (mut alike, mut unlike) = (0, 0);
    for seed in 0..INPUTS {
        let mut draw = Draw::new(4_000_000 + seed);
        let (file, codes) = draw::file(&mut draw, 35);
        let first = draw::group(&mut draw, &codes);
        let second = draw::group(&mut draw, &codes);
        let answer = agreed::compare(&file, first, second, &format!("seed {seed}"));
        tally.note(&answer);
        if first != second {
            alike += u32::from(answer == Ok(true));
            unlike += u32::from(answer == Ok(false));
        }
    }
    tally.expect("compare", &[1, 2, 3, 4, 5, 6], 50);
    tally.expect_places(6, &[0, 1]);
    assert!(
        alike > 500 && unlike > 500,
        "two groups alike {alike}, unlike {unlike}"
    );
}

#[test]
fn day() {
    let mut tally = Tally::default();
    let mut kinds = BTreeSet::new();
    let (mut listed, mut unlisted) = (0, 0);
    for seed in 0..INPUTS {
        let mut draw = Draw::new(5_000_000 + seed);
        let index = draw::day_index(&mut draw);
        let date = draw::date(&mut draw, index, 10);
        let holidays = draw::list(&mut draw, index);
        let answer = agreed::day(date, &holidays, &format!("seed {seed}"));
        tally.note(&answer);
        if answer.is_ok() && draw::is_eve(date) {
            listed += u32::from(holidays.contains(&date));
            unlisted += u32::from(!holidays.contains(&date));
        }
        kinds.extend(answer.map(|day| (day.season, day.day_type, day.values)));
    }
    tally.expect("day", &[7, 9], 50);
    tally.expect_places(7, &[0]);
    tally.expect_many_places(9, 100);
    assert_eq!(
        kinds.len(),
        11,
        "nine kinds of day and two clock changes: {kinds:?}"
    );
    println!("day: 24 or 31 December, no Sunday, {listed} listed, {unlisted} not");
    assert!(listed >= 100 && unlisted >= 100, "{listed} {unlisted}");
}

#[test]
fn every_day_of_the_span() {
    for day in draw::span() {
        let date = day.date();
        for holidays in [&[][..], &[date]] {
            let answer = agreed::day(date, holidays, &format!("{date}"));
            assert!(answer.is_ok(), "{date}");
        }
    }
}

/// Entries that the period's output needs; some number where it is no period.
fn needed(first: usize, last: usize) -> usize {
    match draw::span().get(first..=last) {
        Some(days) if days.len() <= 1_461 => draw::values_of(days),
        _ => 200,
    }
}

#[test]
fn expand() {
    let mut tally = Tally::default();
    let (mut households, mut long, mut eves) = (0, 0, 0);
    for seed in 0..INPUTS {
        let mut draw = Draw::new(6_000_000 + seed);
        let (file, codes) = draw::file(&mut draw, 15);
        let (first, last) = draw::period(&mut draw);
        let holidays = draw::list(&mut draw, first);
        let request = Request {
            file: &file,
            group: draw::group(&mut draw, &codes),
            first: draw::date(&mut draw, first, 2),
            last: draw::date(&mut draw, last, 2),
            holidays: &holidays,
            yearly: draw::yearly(&mut draw),
            carry: draw::carry(&mut draw),
        };
        let length = draw::output_length(&mut draw, needed(first, last));
        let mut out: Vec<u32> = (0..length).map(|_| draw.word()).collect();
        let answer = agreed::expand(&request, &mut out, &format!("seed {seed}"));
        tally.note(&answer);
        if let Ok(made) = answer {
            households += u32::from(request.group == 0);
            long += u32::from(made.count > 130_000);
            let within = |date: &&u32| (request.first..=request.last).contains(date);
            let mut listed = holidays.iter().filter(within);
            eves += u32::from(listed.any(|&date| draw::is_eve(date)));
        }
    }
    tally.expect("expand", &[1, 2, 3, 4, 5, 6, 7, 8, 9, 10, 11, 12], 50);
    tally.expect_places(7, &[0, 1]);
    tally.expect_many_places(9, 50);
    tally.expect_many_places(12, 10);
    println!("expand: {households} accepted for households, {long} of nearly four years or more, {eves} with a listed 24 or 31 December");
    assert!(
        households > 1_000 && long > 50 && eves > 100,
        "{households} {long} {eves}"
    );
}

/// Households: every value on every day of a leap year. With A = 40,000 a figure is the power Q itself.
#[test]
fn every_power_on_every_day() {
    for start in (0..=20_000).step_by(96) {
        let column = (start..start + 96).map(|p: u16| p.min(20_000));
        let values: Vec<u16> = column.cycle().take(864).collect();
        let mut file = [0; slp::file_length(1)];
        slp::write(&[Group::H0], &values, &mut file).unwrap();
        let request = Request {
            file: &file,
            group: Group::H0.code(),
            first: 20_000_101,
            last: 20_001_231,
            holidays: &[],
            yearly: 40_000,
            carry: 0,
        };
        let mut out = vec![0; 35_136];
        let answer = agreed::expand(&request, &mut out, &format!("values from {start}"));
        assert_eq!(answer.map(|made| made.count), Ok(35_136));
    }
}

#[test]
fn the_longest_series_has_140260_figures() {
    let longest = draw::span().windows(1_461).map(draw::values_of).max();
    assert_eq!(longest, Some(140_260));
    assert_eq!(slp::LONGEST_SERIES, 146_100);
}
