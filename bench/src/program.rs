//! The program's own run on the longest request, beside a process that does nothing and beside the library's call.
use std::io::Write;
use std::path::{Path, PathBuf};
use std::process::{Command, Stdio};
use std::time::Instant;

use slp::{Group, Request};

use crate::calls::Work;
use crate::inputs::Inputs;
use crate::timing::{alternate, median};

const RUNS: usize = 101;
const DAYS: usize = 1_461;

fn path() -> PathBuf {
    Path::new(env!("CARGO_MANIFEST_DIR")).join("../target/bin/slp")
}

/// The program's input for a request: group, dates, yearly use, how many holidays, the holidays, the file; numbers are big-endian.
/// There is no carry in it: the program begins with 0.
fn encoded(request: &Request) -> Vec<u8> {
    let mut input = vec![request.group.code()];
    for number in [request.first, request.last, request.yearly] {
        input.extend(number.to_be_bytes());
    }
    input.extend((request.holidays.len() as u16).to_be_bytes());
    input.extend(request.holidays.iter().flat_map(|date| date.to_be_bytes()));
    input.extend(request.file);
    input
}

/// What the program prints for an input.
fn run(program: &Path, input: &[u8]) -> std::io::Result<String> {
    let mut child = Command::new(program)
        .stdin(Stdio::piped())
        .stdout(Stdio::piped())
        .spawn()?;
    if let Some(mut stdin) = child.stdin.take() {
        stdin.write_all(input)?;
    }
    let output = child.wait_with_output()?;
    Ok(String::from_utf8_lossy(&output.stdout).into_owned())
}

/// Microseconds of a run that must end with this line, or print nothing.
fn timed(program: &Path, input: &[u8], last: Option<&str>) -> Result<f64, String> {
    let start = Instant::now();
    let printed = run(program, input).map_err(|error| format!("{}: {error}", program.display()))?;
    let time = start.elapsed().as_nanos() as f64 / 1_000.0;
    let line = printed.lines().last();
    if line != last {
        let name = program.display();
        return Err(format!("{name} ends with {line:?}, and not with {last:?}"));
    }
    Ok(time)
}

pub fn measure(inputs: &Inputs) -> Result<(), String> {
    let program = path();
    if !program.is_file() {
        return Err(format!(
            "{} is missing: run `tools/build` first",
            program.display()
        ));
    }
    let request = inputs.request(Group::H0, 20000101, 20031231);
    let input = encoded(&request);
    let mut work = Work::longest();
    let made = slp::expand(&request, &mut work.out).map_err(|refusal| refusal.to_string())?;
    let last = format!("total {DAYS} {} {} {}", made.count, made.total, made.carry);

    let mut whole = Vec::new();
    let mut nothing = Vec::new();
    for _ in 0..RUNS {
        whole.push(timed(&program, &input, Some(&last))?);
        nothing.push(timed(Path::new("true"), &[], None)?);
    }
    let call = |work: &mut Work| work.expanded = Some(slp::expand(&request, &mut work.out));
    let [call] = alternate([&call], &mut work).map(|time| time / 1_000.0);
    report(median(&mut whole), median(&mut nothing), call);
    Ok(())
}

fn report(whole: f64, nothing: f64, call: f64) {
    println!("\nThe program on H0, 1,461 days: microseconds, the median of {RUNS} runs");
    println!("{:<42}{:>10}{:>20}", "", "", "/ the library call");
    let line = |title, time: f64| println!("{title:<42}{time:>10.0}{:>20.2}", time / call);
    line("the whole run, process started and ended", whole);
    line("`true`, a program that does nothing", nothing);
    line("the difference: the program's own run", whole - nothing);
    line("the library call", call);
}
