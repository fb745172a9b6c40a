//! Holds all ways to the proved calls, the lent memory included: on the timed inputs, and on random ones, whole and damaged.
use std::collections::BTreeMap;

use reference::calendar::{day_of, Day};
use slp::{
    file_length, Deliveries, Group, Refusal, RefusalKind, RegionalDay, Request, GROUP_VALUES,
    MOST_PERIODS,
};

use crate::calls::{Answer, Calls, Work, ALL, PROVED};
use crate::inputs::Inputs;
use crate::lines::LINES;
use crate::random::Random;

const REQUESTS: usize = 500;

/// What the proved call makes of the lent memory, where the other ways make the same.
fn same(lent: impl Fn() -> Work, run: impl Fn(&Calls, &mut Work)) -> Result<Work, String> {
    let mut proved = lent();
    run(&PROVED, &mut proved);
    for calls in ALL {
        let mut work = lent();
        run(calls, &mut work);
        if work != proved {
            return Err(difference(calls.name, &proved, &work));
        }
    }
    Ok(proved)
}

fn difference(name: &str, proved: &Work, work: &Work) -> String {
    let answered = |work: &Work| (work.expanded, work.answered, work.listed);
    if answered(proved) != answered(work) {
        let answers = |work: &Work| match answered(work) {
            (Some(expanded), ..) => format!("{expanded:?}"),
            (_, Some(answer), _) => format!("{answer:?}"),
            (.., listed) => format!("{listed:?}"),
        };
        return format!(
            "{name} answers {}, the proved call {}",
            answers(work),
            answers(proved)
        );
    }
    let mut figures = work.out.iter().zip(&proved.out);
    match figures.position(|(ours, theirs)| ours != theirs) {
        Some(i) => format!(
            "{name} has entry {i} as {}, the proved call as {}",
            work.out[i], proved.out[i]
        ),
        None => {
            format!("{name} leaves another table, another buffer or other differences than the proved call")
        }
    }
}

/// All ways on what is timed.
pub fn on_timed_inputs(inputs: &Inputs) -> Result<(), String> {
    for line in &LINES {
        same(Work::longest, |calls, work| (line.run)(calls, inputs, work))
            .map_err(|difference| format!("{}: {difference}", line.title))?;
    }
    Ok(())
}

/// A random request to every call.
struct Case {
    groups: Vec<Group>,
    values: Vec<u16>,
    file: Vec<u8>,
    group: Group,
    first: u32,
    last: u32,
    holidays: Vec<u32>,
    yearly: u32,
    carry: u32,
    /// The lengths of the lent output, table and buffer.
    lent: [usize; 3],
    year: u32,
    regional: Vec<RegionalDay>,
    /// The length of the list lent for the holidays.
    lent_list: usize,
    starts: Vec<u32>,
    metered: Vec<u32>,
    /// How many entries are lent for the differences.
    lent_differences: usize,
    /// The length of the page lent for the days.
    lent_page: usize,
}

fn draw_groups(random: &mut Random) -> Vec<Group> {
    let certain = random.one_of(&Group::ALL);
    let chosen = |group: &Group| *group == certain || random.once_in(2);
    Group::ALL.into_iter().filter(chosen).collect()
}

fn draw_values(random: &mut Random, count: usize) -> Vec<u16> {
    let largest = random.one_of(&[0, 2_500, 16_384, 20_000]);
    let least = random.one_of(&[0, largest]);
    let mut value = || (least + random.below(largest - least + 1)) as u16;
    (0..GROUP_VALUES * count).map(|_| value()).collect()
}

/// A value that question 5 refuses.
fn bad_value(random: &mut Random) -> u16 {
    random.one_of(&[20_001, 32_768, 65_535])
}

fn damage_file(random: &mut Random, file: &mut Vec<u8>) {
    let profiles = (file.len() / file_length(1)) as u32;
    let at = 6 + 1_729 * random.below(profiles) as usize;
    match random.below(8) {
        0 => file.truncate(random.below(8) as usize),
        1 => file.truncate(file.len() - 1),
        2 => file.push(0),
        3 => file[random.below(3) as usize] ^= 1 << random.below(8),
        4 => file[3 + random.below(2) as usize] ^= 1 << random.below(8),
        5 => file[5] = random.below(13) as u8,
        6 => file[at] = random.below(13) as u8,
        _ => {
            let at = at + 1 + 2 * random.below(864) as usize;
            file[at..at + 2].copy_from_slice(&bad_value(random).to_be_bytes());
        }
    }
}

fn damage_contents(random: &mut Random, groups: &mut Vec<Group>, values: &mut Vec<u16>) {
    let group = random.below(groups.len() as u32) as usize;
    let value = random.below(values.len() as u32) as usize;
    match random.below(4) {
        0 => drop(values.pop()),
        1 => groups.clear(),
        2 => groups[group] = random.one_of(&Group::ALL),
        _ => values[value] = bad_value(random),
    }
}

fn draw_period(random: &mut Random) -> (u32, u32) {
    let bad = [
        0, 19951231, 20010229, 20000431, 20001301, 20000100, 21000101,
    ];
    let year = 1996 + random.below(104);
    let first = 10_000 * year + 100 * (1 + random.below(12)) + 1 + random.below(28);
    let short = random.one_of(&[1, 3, 40, 400, 1_461]);
    let further = random.below(short) + 1_461 * u32::from(random.once_in(20));
    let last = day_of(first).map_or(0, |first| {
        (0..further).fold(first, |day, _| day.next()).date()
    });
    match random.below(24) {
        0 => (random.one_of(&bad), last),
        1 => (first, random.one_of(&bad)),
        2 => (last, first),
        _ => (first, last),
    }
}

/// Dates from the beginning of the first date's year on.
fn draw_holidays(random: &mut Random, first: u32) -> Vec<u32> {
    let count = random.one_of(&[0, 1, 10, 60, 400]) + usize::from(random.once_in(12));
    let gap = random.one_of(&[1, 5, 40]);
    let start = day_of(first / 10_000 * 10_000 + 101);
    let mut step = |day: Day| (0..=random.below(gap)).fold(day, |day, _| day.next());
    let days = std::iter::successors(start, |&day| Some(step(day)));
    days.map(|day| day.date())
        .take_while(|&date| date < 21000000)
        .take(count)
        .collect()
}

fn draw_year(random: &mut Random) -> u32 {
    match random.below(8) {
        0 => random.one_of(&[0, 1995, 2100, u32::MAX]),
        1 => 2008,
        _ => 1996 + random.below(104),
    }
}

fn draw_regional(random: &mut Random) -> Vec<RegionalDay> {
    let days = RegionalDay::ALL.into_iter();
    days.filter(|_| random.once_in(2)).collect()
}

/// First dates of reading periods, mostly rising from the first date on and not behind the last.
fn draw_starts(random: &mut Random, first: u32, last: u32) -> Vec<u32> {
    let most = random.one_of(&[1, 2, 12, MOST_PERIODS, MOST_PERIODS + 1]);
    let gap = random.one_of(&[1, 3, 30]);
    let mut step = |day: Day| (0..=random.below(gap)).fold(day, |day, _| day.next());
    let days = std::iter::successors(day_of(first), |&day| Some(step(day)));
    let mut starts: Vec<u32> = days.map(|day| day.date()).take(most).collect();
    if !random.once_in(6) {
        starts.retain(|&start| start <= last);
    }
    if !starts.is_empty() && random.once_in(12) {
        let at = random.below(starts.len() as u32) as usize;
        starts[at] = random.one_of(&[0, 20000230, starts[0], last]);
    }
    starts
}

/// Metered kWh, mostly one for each period.
fn draw_metered(random: &mut Random, periods: usize) -> Vec<u32> {
    let metered = periods + usize::from(random.once_in(20));
    (0..metered).map(|_| random.below(1_000_000)).collect()
}

impl Case {
    fn draw(random: &mut Random) -> Case {
        let mut groups = draw_groups(random);
        let mut values = draw_values(random, groups.len());
        let mut file = vec![0; file_length(groups.len())];
        slp::write(&groups, &values, &mut file).expect("the values are in range");
        let any = random.one_of(&Group::ALL);
        let group = if random.once_in(12) {
            any
        } else {
            random.one_of(&groups)
        };
        if random.once_in(4) {
            damage_file(random, &mut file);
        }
        if random.once_in(3) {
            damage_contents(random, &mut groups, &mut values);
        }
        let (first, last) = draw_period(random);
        let mut holidays = draw_holidays(random, first);
        if !holidays.is_empty() && random.once_in(12) {
            let at = random.below(holidays.len() as u32) as usize;
            holidays[at] = random.one_of(&[0, 20000230, holidays[0]]);
        }
        let starts = draw_starts(random, first, last);
        let yearly = random.below(1_000_000_000);
        let yearly = [
            0,
            1,
            3_500,
            500_000,
            500_001,
            yearly,
            yearly,
            1_000_000_000,
            1_000_000_001,
        ];
        let carry = random.below(40_000);
        let carry = [0, 0, carry, carry, carry, 39_999, 39_999, 40_000];
        let mut case = Case {
            group,
            first,
            last,
            yearly: random.one_of(&yearly),
            carry: random.one_of(&carry),
            holidays,
            lent: [0; 3],
            year: draw_year(random),
            regional: draw_regional(random),
            lent_list: random.one_of(&[0, 9, 10, 11, 14, 16, 17, 17, 17, 20]),
            lent_differences: (starts.len() + random.one_of(&[1, 1, 4, 0])).saturating_sub(1),
            metered: draw_metered(random, starts.len()),
            lent_page: 0,
            starts,
            file,
            groups,
            values,
        };
        case.lent = [case.needed(), GROUP_VALUES, file_length(case.groups.len())]
            .map(|needed| (needed + random.one_of(&[1, 1, 4, 0])).saturating_sub(1));
        case.lent_page = case.needed_page() + random.one_of(&[1, 1, 40, 0]) - 1;
        case
    }

    fn request(&self) -> Request<'_> {
        Request {
            file: &self.file,
            group: self.group,
            first: self.first,
            last: self.last,
            holidays: &self.holidays,
            yearly: self.yearly,
            carry: self.carry,
        }
    }

    fn deliveries(&self) -> Deliveries<'_> {
        Deliveries {
            file: &self.file,
            group: self.group,
            first: self.first,
            last: self.last,
            starts: &self.starts,
            metered: &self.metered,
            holidays: &self.holidays,
            yearly: self.yearly,
        }
    }

    /// How many entries of output expanding asks for.
    fn needed(&self) -> usize {
        match slp::expand(&self.request(), &mut []) {
            Err(Refusal {
                kind: RefusalKind::ShortOutput,
                place,
            }) => place,
            _ => 100,
        }
    }

    /// How many bytes the day page asks for.
    fn needed_page(&self) -> usize {
        match slp::page(&self.request(), &mut []) {
            Err(Refusal {
                kind: RefusalKind::ShortPage,
                place,
            }) => place,
            _ => 100,
        }
    }

    /// All ways on the seven calls: the proved answers.
    fn run(&self) -> Result<[Answer; 7], String> {
        let [out, table, buffer] = self.lent;
        let lent = || Work::new(out, table, buffer, 0);
        let request = self.request();
        let expanded = same(lent, |calls, work| {
            work.expanded = Some((calls.expand)(&request, &mut work.out));
        })?;
        let checked = same(lent, |calls, work| {
            work.answered = Some((calls.check)(&self.file, self.group));
        })?;
        let read = same(lent, |calls, work| {
            work.answered = Some((calls.read)(&self.file, self.group, &mut work.table));
        })?;
        let written = same(lent, |calls, work| {
            work.answered = Some((calls.write)(&self.groups, &self.values, &mut work.buffer));
        })?;
        let listed = same(
            || Work::new(self.lent_list, 0, 0, 0),
            |calls, work| {
                let listed = (calls.holidays)(self.year, &self.regional, &mut work.out);
                work.listed = Some(listed);
            },
        )?;
        let given = self.deliveries();
        let settled = same(
            || Work::new(0, 0, 0, self.lent_differences),
            |calls, work| {
                work.answered = Some((calls.deliveries)(&given, &mut work.differences));
            },
        )?;
        let printed = same(
            || Work::new(0, 0, self.lent_page, 0),
            |calls, work| {
                work.expanded = Some((calls.page)(&request, &mut work.buffer));
            },
        )?;
        let answers = [
            expanded.expanded.map(|answer| answer.map(|_| ())),
            checked.answered,
            read.answered,
            written.answered,
            listed.listed.map(|answer| answer.map(|_| ())),
            settled.answered,
            printed.expanded.map(|answer| answer.map(|_| ())),
        ];
        Ok(answers.map(|answer| answer.expect("every call was made")))
    }
}

/// How the random calls were answered.
#[derive(Default)]
pub struct Tally {
    pub accepted: usize,
    /// How many each question refused, by its number.
    pub refused: BTreeMap<u32, usize>,
}

impl Tally {
    fn note(&mut self, answer: Answer) {
        match answer {
            Ok(()) => self.accepted += 1,
            Err(refusal) => *self.refused.entry(refusal.kind.number()).or_default() += 1,
        }
    }
}

/// All ways on random requests.
pub fn on_random_requests() -> Result<Tally, String> {
    let mut random = Random::new(2_000);
    let mut tally = Tally::default();
    for i in 0..REQUESTS {
        let case = Case::draw(&mut random);
        let answers = case.run().map_err(|difference| {
            format!(
                "random request {i} (group {}, {} to {}, {} kWh, carry {}, {} holidays, {} periods; year {}, {:?}): {difference}",
                case.group, case.first, case.last, case.yearly, case.carry, case.holidays.len(), case.starts.len(), case.year, case.regional
            )
        })?;
        answers.into_iter().for_each(|answer| tally.note(answer));
    }
    Ok(tally)
}
