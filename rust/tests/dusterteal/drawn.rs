//! Random runs that the tool accepts.
use std::path::Path;

use reference::dynamisation::HOUSEHOLDS;
use reference::series::{CARRY_UNITS, LARGEST_USE, MOST_DAYS};

use crate::draw::{self, Draw};
use crate::expected::{Run, Source};
use crate::profile_file;

/// A file of some groups, households often among them, and a list of days at and after a day of the span.
pub fn source(draw: &mut Draw, folder: &Path, name: &str, near: usize) -> Source {
    let mut codes = draw::codes(draw);
    if draw.chance(40) {
        codes[0] = HOUSEHOLDS;
    }
    let values = draw::values(draw, codes.len());
    let holidays = until(
        || draw::list(draw, near),
        |list| reference::day(20_000_101, list).is_ok(),
    );
    Source::new(folder, name, profile_file::of(&codes, &values), holidays)
}

/// First and last index of a period.
pub fn period(draw: &mut Draw) -> (usize, usize) {
    until(
        || draw::period(draw),
        |&(first, last)| first <= last && last - first < MOST_DAYS as usize,
    )
}

/// A run for a period, from carry 0.
pub fn run<'a>(draw: &mut Draw, source: &'a Source, (first, last): (usize, usize)) -> Run<'a> {
    Run {
        source,
        group: group(draw, source),
        first: draw::date_at(first),
        last: draw::date_at(last),
        yearly: until(|| draw::yearly(draw), |yearly| *yearly <= LARGEST_USE),
        since: None,
        carry: 0,
    }
}

/// A run that also begins with some carry and, one time in three, some days or years before its period.
pub fn handed_on<'a>(draw: &mut Draw, source: &'a Source, period: (usize, usize)) -> Run<'a> {
    let back = draw.pick(&[1, 40, 400, 4_000]);
    let before = draw.between(0, back);
    let since = draw::date_at(period.0.saturating_sub(before));
    Run {
        since: draw.chance(33).then_some(since),
        carry: until(|| draw::carry(draw), |carry| *carry < CARRY_UNITS),
        ..run(draw, source, period)
    }
}

/// A group of a file; the first, which may be the households, more often than others.
fn group(draw: &mut Draw, source: &Source) -> u8 {
    let present = |code: &u8| reference::check(&source.file, *code).is_ok();
    let codes: Vec<u8> = (0..=10).filter(present).collect();
    let any = draw.pick(&codes);
    draw.pick(&[codes[0], any])
}

/// Draws until what is drawn is good.
fn until<T>(mut make: impl FnMut() -> T, good: impl Fn(&T) -> bool) -> T {
    std::iter::repeat_with(&mut make)
        .find(good)
        .expect("it is drawn again and again")
}

/// Does some work for each item, on two threads.
pub fn on_two_threads<T: Sync>(items: &[T], work: impl Fn(&T) + Sync) {
    let (first, second) = items.split_at(items.len() / 2);
    std::thread::scope(|scope| {
        scope.spawn(|| first.iter().for_each(&work));
        second.iter().for_each(&work);
    });
}
