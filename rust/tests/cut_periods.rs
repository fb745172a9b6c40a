//! Periods cut into parts, each expanded by its own call with the carry handed on, and with refused calls between them: figures,
//! added counts, added totals and last carry are those of one call for the whole period. Every run of the joined figures keeps to
//! the bound of demand 3.
#[allow(dead_code)] // the other tests use the rest
mod agreed;
#[allow(dead_code)] // likewise
mod draw;
#[allow(dead_code)] // likewise
mod profile_file;

use std::collections::BTreeMap;
use std::ops::Range;

use agreed::{reference_request, refused};
use draw::Draw;
use reference::energy::{keeps_to_bound, quarters, Quarter, UNITS};
use reference::Expansion;
use slp::report::Request;

/// H0, G0 and L2.
const GROUPS: [u8; 3] = [0, 1, 10];

/// No two neighbours are equal.
fn file() -> Vec<u8> {
    let values: Vec<u16> = (0..3 * 864)
        .map(|i: u32| ((i * 7_919 + 13) % 20_001) as u16)
        .collect();
    profile_file::of(&GROUPS, &values)
}

/// 1 January, 3 October and 24 December of each year.
fn holidays() -> Vec<u32> {
    (1996..=2099)
        .flat_map(|year| [101, 1_003, 1_224].map(|date| 10_000 * year + date))
        .collect()
}

/// Entries of an output that no figure was written to.
const MARK: u32 = u32::MAX;

/// How many entries an output has beyond those that the period needs.
const BEYOND: usize = 40;

/// Some successive days of the span.
#[derive(Debug, Clone, Copy)]
struct Days {
    first: usize,
    count: usize,
}

impl Days {
    fn values(self) -> usize {
        draw::values_of(&draw::span()[self.first..self.first + self.count])
    }

    /// The first and the last date.
    fn dates(self) -> (u32, u32) {
        let last = self.first + self.count - 1;
        (draw::date_at(self.first), draw::date_at(last))
    }

    /// The parts between the cuts, which are numbers of days before a part begins.
    fn cut(self, cuts: &[usize]) -> Vec<Days> {
        let starts = [&[0], cuts].concat();
        let ends = [cuts, &[self.count]].concat();
        let bounds = starts.into_iter().zip(ends);
        bounds
            .map(|(start, end)| Days {
                first: self.first + start,
                count: end - start,
            })
            .collect()
    }

    /// A request like this one for these days, with this carry.
    fn of<'a>(self, request: &Request<'a>, carry: u32) -> Request<'a> {
        let (first, last) = self.dates();
        Request {
            first,
            last,
            carry,
            ..*request
        }
    }
}

/// A request for all of these days.
fn request<'a>(
    (file, holidays): (&'a [u8], &'a [u32]),
    days: Days,
    group: u8,
    yearly: u32,
    carry: u32,
) -> Request<'a> {
    let (first, last) = days.dates();
    Request {
        file,
        group,
        first,
        last,
        holidays,
        yearly,
        carry,
    }
}

/// What was tried.
#[derive(Debug, Default)]
struct Tried {
    periods: usize,
    parts: usize,
    figures: usize,
    /// By the question that refused them.
    refused: BTreeMap<u32, usize>,
    /// Periods of households, and how many of them had a yearly use of at most 500,000 kWh; then the same of other groups.
    small_uses: [(usize, usize); 2],
}

impl Tried {
    fn note(&mut self, request: &Request, figures: usize) {
        self.periods += 1;
        self.figures += figures;
        let (all, small) = &mut self.small_uses[usize::from(request.group != 0)];
        *all += 1;
        *small += usize::from(request.yearly <= 500_000);
    }

    /// For households and for other groups, at least half of the uses are at most 500,000 kWh, and not all.
    fn expect_small_uses(&self) {
        for (all, small) in self.small_uses {
            assert!(2 * small >= all && small < all, "{self:?}");
        }
    }

    /// Each question refused some of the calls, of which one stands before the first part and one behind each.
    fn expect_each_refusal(&self) {
        let refused: usize = self.refused.values().sum();
        assert_eq!(refused, self.periods + self.parts, "{self:?}");
        assert!(self.refused.keys().copied().eq(1..=12), "{self:?}");
    }
}

/// Joins the figures of calls for a period's parts, with refused calls before the first part, between them and after the last.
struct Joining<'a> {
    request: Request<'a>,
    out: Vec<u32>,
    made: Expansion,
    what: &'a str,
}

impl<'a> Joining<'a> {
    fn new(request: Request<'a>, entries: usize, what: &'a str) -> Joining<'a> {
        Joining {
            request,
            out: vec![MARK; entries],
            made: Expansion {
                count: 0,
                total: 0,
                carry: request.carry,
            },
            what,
        }
    }

    /// Expands some days behind the figures so far, into just as many entries or into all that are left.
    fn add(&mut self, days: Days, all: bool) {
        let request = days.of(&self.request, self.made.carry);
        let rest = &mut self.out[self.made.count..];
        let lent = if all { rest.len() } else { days.values() };
        let made = agreed::expand(&request, &mut rest[..lent], self.what)
            .expect("a part of an accepted period is accepted");
        self.made.count += made.count;
        self.made.total += made.total;
        self.made.carry = made.carry;
    }

    /// A call for some days that is refused by a question which is drawn: it leaves the figures so far and the entries beyond as
    /// they are, and its zeros are not handed on.
    fn refuse(&mut self, draw: &mut Draw, days: Days, tried: &mut Tried) {
        let number = draw.between(1, 12);
        let mut request = days.of(&self.request, self.made.carry);
        let mut file = request.file.to_vec();
        let mut list = request.holidays.to_vec();
        let mut place = 0;
        let mut lent = 0..self.out.len();
        match number {
            1 => file[draw.below(3)] ^= 1,
            2 => file[draw.between(3, 4)] ^= 2,
            3 => file.truncate(draw.between(6, 5_192)),
            4 => {
                place = 6 + 1_729 * draw.below(3);
                file[place] = 11;
            }
            5 => {
                place = 7 + 1_729 * draw.below(3) + 2 * draw.below(864);
                file[place..place + 2].copy_from_slice(&20_001_u16.to_be_bytes());
            }
            6 => request.group = draw.pick(&[2, 9, 11, 255]),
            7 => {
                place = draw.below(2);
                let (first, last) = (&mut request.first, &mut request.last);
                *(if place == 0 { first } else { last }) = 20_010_229;
            }
            8 => (request.first, request.last) = (20_000_102, 20_000_101),
            9 => {
                place = draw.between(1, list.len() - 1);
                list[place] = list[place - 1];
            }
            10 => request.yearly = 1_000_000_001,
            11 => request.carry = 40_000,
            _ => {
                place = days.values();
                lent.end = draw.below(place);
            }
        }
        request = Request {
            file: &file,
            holidays: &list,
            ..request
        };
        let answer = agreed::expand(&request, &mut self.out[lent], self.what);
        assert_eq!(answer, refused(number as u32, place), "{}", self.what);
        *tried.refused.entry(number as u32).or_default() += 1;
    }
}

/// A request for some days in parts against the whole in one call.
fn expect_joined(
    request: &Request,
    days: Days,
    cuts: &[usize],
    draw: &mut Draw,
    tried: &mut Tried,
) {
    let needed = days.values();
    let what = &format!(
        "group {}, {} to {}, {} kWh, carry {}, cut at {cuts:?}",
        request.group, request.first, request.last, request.yearly, request.carry
    );
    let mut whole = vec![MARK; needed + BEYOND];
    let made = agreed::expand(request, &mut whole, what).expect("the period is accepted");
    assert_eq!(made.count, needed, "{what}");

    let mut joining = Joining::new(*request, needed + BEYOND, what);
    joining.refuse(draw, days, tried);
    for part in days.cut(cuts) {
        joining.add(part, draw.chance(50));
        joining.refuse(draw, part, tried);
        tried.parts += 1;
    }
    assert_eq!(joining.made, made, "{what}");
    agreed::expect_memory(&joining.out, &whole, what);
    tried.note(request, needed);

    let quarters = quarters(&reference_request(request)).expect("the period is accepted");
    let figures = &joining.out[..needed];
    expect_every_run_within_bound(request, &quarters, figures, what);
    let mut end = 0;
    for part in days.cut(cuts) {
        end += part.values();
        expect_runs_around(request, &quarters, figures, end, draw, what);
    }
}

// Demand 3's bound.

/// One run, by demand 3's formula.
fn expect_run_within_bound(
    request: &Request,
    quarters: &[Quarter],
    figures: &[u32],
    run: Range<usize>,
    what: &str,
) {
    let sum = figures[run.clone()].iter().copied().map(u64::from).sum();
    assert!(
        keeps_to_bound(request.group, request.yearly, &quarters[run.clone()], sum),
        "{what}: the sum of {run:?} is {sum}"
    );
}

/// Some runs that end at, begin at or lie across a place in the figures.
fn expect_runs_around(
    request: &Request,
    quarters: &[Quarter],
    figures: &[u32],
    place: usize,
    draw: &mut Draw,
    what: &str,
) {
    let length = figures.len();
    let near = place.saturating_sub(draw.between(1, 200))..length.min(place + draw.between(1, 200));
    let any = draw.between(0, place)..draw.between(place, length);
    let last = place.saturating_sub(1)..place;
    let next = place..length.min(place + 1);
    for run in [near, any, last, next, place..place] {
        expect_run_within_bound(request, quarters, figures, run, what);
    }
}

/// Every run, in one pass. Of the figures before a place let D be their sum less their exact energy, and B what they add to the
/// bound beside the 1 Wh. The run from i to j keeps to the bound where D_j - D_i < 1 Wh + B_j - B_i and D_i - D_j < 1 Wh + B_j - B_i;
/// so D_j - B_j must lie less than 1 Wh above every earlier D_i - B_i, and D_j + B_j less than 1 Wh below every earlier D_i + B_i.
fn expect_every_run_within_bound(
    request: &Request,
    quarters: &[Quarter],
    figures: &[u32],
    what: &str,
) {
    assert_eq!(quarters.len(), figures.len(), "{what}");
    let signed = |units: u128| i128::try_from(units).expect("sums of a series fit");
    let one = signed(UNITS);
    let (mut off, mut leeway) = (0, 0);
    let (mut lowest, mut highest) = (0, 0);
    for (end, (quarter, &figure)) in quarters.iter().zip(figures).enumerate() {
        off += i128::from(figure) * one - signed(quarter.exact(request.yearly));
        leeway += signed(quarter.leeway(request.group, request.yearly));
        let within = off - leeway - lowest < one && highest - (off + leeway) < one;
        assert!(within, "{what}: a run that ends with figure {end}");
        lowest = lowest.min(off - leeway);
        highest = highest.max(off + leeway);
    }
}

// Inputs.

/// Both sides of 500,000 kWh, up to which the proved code keeps sums in parts, the least uses, and drawn ones.
fn yearly_uses(draw: &mut Draw) -> [u32; 6] {
    let small = draw.between(2, 499_999) as u32;
    let large = draw.between(500_002, 1_000_000_000) as u32;
    [0, 1, small, 500_000, 500_001, large]
}

fn carry(draw: &mut Draw) -> u32 {
    let any = draw.below(40_000) as u32;
    draw.pick(&[0, 39_999, any, any, any])
}

/// Cuts in order, at most as many as asked for, none at the ends of the period.
fn drawn_cuts(draw: &mut Draw, days: usize, most: usize) -> Vec<usize> {
    if days == 1 {
        return Vec::new();
    }
    let mut cuts: Vec<usize> = (0..most).map(|_| draw.between(1, days - 1)).collect();
    cuts.sort_unstable();
    cuts.dedup();
    cuts
}

/// The first date, how many days, and how many of them before the day at which something changes: 26 March 2000, 29 October
/// 2000, 1 January 2000, 29 February 2000, 31 March 1996, 24 December 2099, 1 January 2002, 29 October 2000. The fifth begins
/// with the span, the sixth ends with it, and the last two have 1,461 days.
const AROUND_CHANGES: [(u32, usize, usize); 8] = [
    (20_000_324, 5, 2),
    (20_001_027, 5, 2),
    (19_991_229, 7, 3),
    (20_000_226, 6, 3),
    (19_960_101, 120, 90),
    (20_990_101, 365, 357),
    (20_000_101, 1_461, 731),
    (20_000_327, 1_461, 216),
];

/// Each period for each group, cut before the day, after it, and on both sides, with each yearly use.
#[test]
fn cuts_around_days_at_which_something_changes() {
    let (file, holidays) = (file(), holidays());
    let lent = (&file[..], &holidays[..]);
    let mut draw = Draw::new(9_000_000);
    let mut tried = Tried::default();
    for (first, count, day) in AROUND_CHANGES {
        let first = draw::index_of(first).expect("a date of the span");
        for group in GROUPS {
            for cuts in [&[day][..], &[day + 1], &[day, day + 1]] {
                for yearly in yearly_uses(&mut draw) {
                    let days = Days { first, count };
                    let request = request(lent, days, group, yearly, carry(&mut draw));
                    expect_joined(&request, days, cuts, &mut draw, &mut tried);
                }
            }
        }
    }
    println!("{tried:?}");
    assert_eq!((tried.periods, tried.parts), (432, 1_008));
    assert_eq!(tried.figures, 6 * 2_963_520);
    tried.expect_small_uses();
    tried.expect_each_refusal();
}

/// Any period of the span, with up to five cuts anywhere.
#[test]
fn drawn_cuts_of_drawn_periods() {
    let (file, holidays) = (file(), holidays());
    let lent = (&file[..], &holidays[..]);
    let mut tried = Tried::default();
    for seed in 0..60 {
        let mut draw = Draw::new(10_000_000 + seed);
        let first = draw::day_index(&mut draw);
        let most = 1_461.min(draw::span().len() - first);
        let days = Days {
            first,
            count: draw.between(1, most),
        };
        let group = draw.pick(&GROUPS);
        for yearly in yearly_uses(&mut draw) {
            let request = request(lent, days, group, yearly, carry(&mut draw));
            let cuts = drawn_cuts(&mut draw, days.count, 5);
            expect_joined(&request, days, &cuts, &mut draw, &mut tried);
        }
    }
    println!("{tried:?}");
    assert_eq!(tried.periods, 360);
    assert!(
        tried.parts > 1_000 && tried.figures > 7_560_636,
        "{tried:?}"
    );
    tried.expect_small_uses();
    tried.expect_each_refusal();
}

/// A leap year a day at a time.
#[test]
fn every_day_by_itself() {
    let (file, holidays) = (file(), holidays());
    let lent = (&file[..], &holidays[..]);
    let mut draw = Draw::new(11_000_000);
    let mut tried = Tried::default();
    let days = Days {
        first: draw::index_of(20_000_101).expect("a date of the span"),
        count: 366,
    };
    let cuts: Vec<usize> = (1..366).collect();
    for (group, yearly) in [(0, 3_500), (1, 3_500), (0, 1_000_000_000)] {
        let request = request(lent, days, group, yearly, 39_999);
        expect_joined(&request, days, &cuts, &mut draw, &mut tried);
    }
    assert_eq!((tried.parts, tried.figures), (3 * 366, 3 * 35_136));
}

/// Calls for more than 1,461 days in all, for which there is no call for the whole: joined differently they have the same
/// figures, and the bound holds for runs across all of them.
#[test]
fn joined_figures_past_1461_days() {
    let (file, holidays) = (file(), holidays());
    let lent = (&file[..], &holidays[..]);
    let mut draw = Draw::new(12_000_000);
    let mut tried = Tried::default();
    let days = Days {
        first: draw::index_of(20_980_101).expect("a date of the span") - 4_000,
        count: 4_730,
    };
    for (group, yearly) in [(0, 500_000), (0, 500_001), (10, 123_456), (10, 999_999_999)] {
        let what = &format!("group {group}, {yearly} kWh");
        let request = request(lent, days, group, yearly, 39_999);
        assert_eq!(request.last, 20_991_231);
        let mut out = vec![MARK; days.values()];
        assert_eq!(
            agreed::expand(&request, &mut out, what),
            refused(8, 0),
            "{what}"
        );

        let ways = [&[1_461, 2_922, 4_383][..], &[1, 1_000, 2_461, 3_922, 4_729]];
        let joined = ways.map(|cuts| {
            let mut joining = Joining::new(request, days.values(), what);
            for part in days.cut(cuts) {
                joining.refuse(&mut draw, part, &mut tried);
                joining.add(part, true);
            }
            (joining.made, joining.out)
        });
        assert_eq!(joined[0].0, joined[1].0, "{what}");
        agreed::expect_memory(&joined[0].1, &joined[1].1, what);

        let quarters: Vec<Quarter> = days
            .cut(ways[0])
            .into_iter()
            .flat_map(|part| quarters(&reference_request(&part.of(&request, 0))).expect("accepted"))
            .collect();
        expect_every_run_within_bound(&request, &quarters, &joined[0].1, what);
        for place in [35_000, 140_256, 280_000, quarters.len()] {
            expect_runs_around(&request, &quarters, &joined[0].1, place, &mut draw, what);
        }
    }
}

/// Every run of three days with a clock change, each by demand 3's formula.
#[test]
fn every_run_of_three_days_by_itself() {
    let file = file();
    for (group, first) in [(0, 20_000_325), (1, 20_001_028)] {
        let days = Days {
            first: draw::index_of(first).expect("a date of the span"),
            count: 3,
        };
        for yearly in [1, 3_500, 500_000, 500_001, 1_000_000_000] {
            let what = &format!("group {group}, {yearly} kWh");
            let request = request((&file, &[]), days, group, yearly, 39_999);
            let mut figures = vec![MARK; days.values()];
            agreed::expand(&request, &mut figures, what).expect("accepted");
            let quarters = quarters(&reference_request(&request)).expect("accepted");
            for start in 0..=figures.len() {
                for end in start..=figures.len() {
                    expect_run_within_bound(&request, &quarters, &figures, start..end, what);
                }
            }
        }
    }
}
