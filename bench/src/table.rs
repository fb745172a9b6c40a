//! The table of ratios, the lines with tables kept, and how the time grows with the days.
use slp::Group;

use crate::calls::{Calls, Work, FAST, KEPT, PLAIN, PROVED};
use crate::inputs::Inputs;
use crate::lines::{line, Line, LINES};
use crate::timing::alternate;

/// The median nanoseconds a call of a line, for each of the ways.
fn measure<const N: usize>(line: &Line, ways: [&Calls; N], inputs: &Inputs) -> [f64; N] {
    let runs = ways.map(|calls| move |work: &mut Work| (line.run)(calls, inputs, work));
    let runs = runs.each_ref().map(|run| run as &dyn Fn(&mut Work));
    alternate(runs, &mut Work::longest())
}

/// Every line: proved, plain and fast.
pub fn ratios(inputs: &Inputs) {
    println!("Nanoseconds a call");
    println!(
        "{:<24}{:>10}{:>10}{:>10}{:>16}{:>16}{:>18}",
        "", "proved", "plain", "fast", "proved / plain", "proved / fast", "proved, a figure"
    );
    for line in &LINES {
        let [proved, plain, fast] = measure(line, [&PROVED, &PLAIN, &FAST], inputs);
        println!(
            "{:<24}{:>10.0}{:>10.0}{:>10.0}{:>16.2}{:>16.2}{:>18.3}",
            line.title,
            proved,
            plain,
            fast,
            proved / plain,
            proved / fast,
            proved / line.units as f64
        );
    }
}

/// The lines of G0 with its tables kept for the whole call.
pub fn tables_kept(inputs: &Inputs) {
    println!("\nNanoseconds a call, tables kept for the whole call, a group without dynamisation");
    println!(
        "{:<24}{:>10}{:>10}{:>10}{:>16}{:>16}{:>18}",
        "", "proved", "fast", "kept", "proved / kept", "fast / kept", "kept, a figure"
    );
    for line in ["g0-year", "g0-longest"].into_iter().filter_map(line) {
        let [proved, fast, kept] = measure(line, [&PROVED, &FAST, &KEPT], inputs);
        println!(
            "{:<24}{:>10.0}{:>10.0}{:>10.0}{:>16.2}{:>16.2}{:>18.3}",
            line.title,
            proved,
            fast,
            kept,
            proved / kept,
            fast / kept,
            kept / line.units as f64
        );
    }
}

/// Periods from 1 January 2000 on: days and last date.
const PERIODS: [(u32, u32); 8] = [
    (1, 20000101),
    (2, 20000102),
    (7, 20000107),
    (31, 20000131),
    (92, 20000401),
    (366, 20001231),
    (731, 20011231),
    (1_461, 20031231),
];

/// The proved call for longer and longer periods of H0.
pub fn growth(inputs: &Inputs) {
    let requests = PERIODS.map(|(_, last)| inputs.request(Group::H0, 20000101, last));
    let runs = requests.map(|request| {
        move |work: &mut Work| work.expanded = Some(slp::expand(&request, &mut work.out))
    });
    let runs = runs.each_ref().map(|run| run as &dyn Fn(&mut Work));
    let mut work = Work::longest();
    let times = alternate(runs, &mut work);
    println!("\nThe proved call by the length of the period, H0");
    println!(
        "{:>8}{:>10}{:>14}{:>14}",
        "days", "figures", "ns a call", "ns a figure"
    );
    for (((days, _), request), time) in PERIODS.iter().zip(&requests).zip(times) {
        let made = slp::expand(request, &mut work.out).expect("the request is accepted");
        let each = time / made.count as f64;
        println!("{days:>8}{:>10}{time:>14.0}{each:>14.3}", made.count);
    }
}
