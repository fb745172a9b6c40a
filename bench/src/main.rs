//! Measures the proved calls beside two baselines in safe Rust, alternating, in one run. docs/PERFORMANCE.md has the command
//! and what was measured.
mod agree;
mod calls;
mod day_sums;
mod days;
mod deliveries;
mod fast;
mod holidays;
mod inputs;
mod kept;
mod lines;
mod page;
mod program;
mod random;
mod table;
mod timing;
mod tool;

use std::hint::black_box;
use std::process::ExitCode;

use agree::Tally;
use calls::{Calls, Work};
use inputs::Inputs;
use lines::Line;

const USAGE: &str = "usage: bench                        compare all ways, then measure
       bench count WAY LINE TIMES   make the calls of a line and nothing else, for callgrind
WAY is proved, plain, fast or kept; LINE is h0-year, g0-year, h0-longest, g0-longest, h0-day, h0-large, h0-exact, check, read, write,
holidays, deliveries, h0-page or g0-page.";

/// What the command line asks for.
enum Task {
    Measure,
    Count(&'static Calls, &'static Line, usize),
}

fn parse(words: &[String]) -> Option<Task> {
    let words: Vec<&str> = words.iter().map(String::as_str).collect();
    match words[..] {
        [] => Some(Task::Measure),
        ["count", way, line, times] => {
            let calls = calls::ALL.into_iter().find(|calls| calls.name == way)?;
            Some(Task::Count(calls, lines::line(line)?, times.parse().ok()?))
        }
        _ => None,
    }
}

fn measure() -> Result<(), String> {
    let inputs = Inputs::new();
    agree::on_timed_inputs(&inputs)?;
    let Tally { accepted, refused } = agree::on_random_requests()?;
    println!("All ways agree on the timed inputs and on random ones: {accepted} calls accepted; refused, by question: {refused:?}\n");
    table::ratios(&inputs);
    table::tables_kept(&inputs);
    table::growth(&inputs);
    program::measure(&inputs)?;
    tool::measure(&inputs)
}

fn count(calls: &Calls, line: &Line, times: usize) {
    let inputs = Inputs::new();
    let mut work = Work::longest();
    for _ in 0..times {
        (line.run)(calls, &inputs, black_box(&mut work));
    }
}

fn main() -> ExitCode {
    let words: Vec<String> = std::env::args().skip(1).collect();
    match parse(&words) {
        Some(Task::Measure) => {
            if let Err(message) = measure() {
                eprintln!("bench: {message}");
                return ExitCode::FAILURE;
            }
        }
        Some(Task::Count(calls, line, times)) => count(calls, line, times),
        None => {
            eprintln!("{USAGE}");
            return ExitCode::from(2);
        }
    }
    ExitCode::SUCCESS
}
