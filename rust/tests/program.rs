//! The built program, `target/bin/slp`: every byte that it prints is held to the reference, and its reading and
//! writing are tried with long inputs, slow pipes, failing reads and failing writes.
#[allow(dead_code)] // the tests of the calls use the rest
mod agreed;
#[allow(dead_code)] // likewise
mod draw;
#[allow(dead_code)] // likewise
mod profile_file;
mod program_input;
mod repository;
mod tally;

use std::fs::{self, File};
use std::io::{ErrorKind, Write};
use std::path::PathBuf;
use std::process::{Child, Command, Output, Stdio};
use std::thread::sleep;
use std::time::Duration;

use draw::Draw;
use program_input::{constant_file, dates, drawn_input, has_a_years_end, input, LONGEST_INPUT};
use tally::Tally;

const INPUTS: u64 = 1_500;

fn program() -> PathBuf {
    let program = repository::path("target/bin/slp");
    assert!(
        program.is_file(),
        "target/bin/slp is missing: run `tools/build`, which builds it"
    );
    program
}

fn started(command: &mut Command) -> Child {
    command
        .stdin(Stdio::piped())
        .stderr(Stdio::piped())
        .spawn()
        .expect("the program runs")
}

/// Gives the program its input and closes it; of one that is too long, the program leaves a part unread.
fn give(child: &mut Child, input: &[u8]) {
    let given = child.stdin.take().unwrap().write_all(input);
    if let Err(error) = given {
        assert_eq!(error.kind(), ErrorKind::BrokenPipe);
        assert!(input.len() > LONGEST_INPUT);
    }
}

/// What the program printed, with nothing to complain of.
fn printed(output: Output) -> String {
    assert_eq!(String::from_utf8_lossy(&output.stderr), "");
    assert!(output.status.success(), "{}", output.status);
    String::from_utf8(output.stdout).expect("the program prints ASCII")
}

fn text_for(input: &[u8]) -> String {
    let mut child = started(Command::new(program()).stdout(Stdio::piped()));
    give(&mut child, input);
    printed(child.wait_with_output().unwrap())
}

/// The program prints what the reference does. A difference is shown by the lengths and the first lines that differ.
fn expect_agreement(input: &[u8], what: &str) -> String {
    let (found, wanted) = (text_for(input), reference::program::text(input));
    let differ = found.lines().zip(wanted.lines()).find(|(f, w)| f != w);
    let lengths = (found.len(), wanted.len());
    assert!(found == wanted, "{what}: {lengths:?} bytes, {differ:?}");
    found
}

// Random inputs.

#[test]
fn random_inputs_agree() {
    let mut tally = Tally::default();
    let (mut longest, mut short_days, mut long_days) = (0, 0, 0);
    let (mut unlisted, mut listed) = (0, 0);
    for seed in 0..INPUTS {
        let input = drawn_input(&mut Draw::new(7_000_000 + seed));
        let text = expect_agreement(&input, &format!("seed {seed}"));
        tally.note(&reference::program::listing(&input));
        longest += u32::from(text.lines().count() == 1_462);
        short_days += u32::from(text.contains(" T3 92 "));
        long_days += u32::from(text.contains(" T3 100 "));
        unlisted += u32::from(has_a_years_end(&text, "W2"));
        listed += u32::from(has_a_years_end(&text, "W3"));
    }
    tally.expect("program", &[1, 2, 3, 4, 5, 6, 7, 8, 9, 10, 13], 10);
    tally.expect_places(7, &[0, 1]);
    tally.expect_many_places(9, 10);
    tally.expect_many_places(5, 10);
    tally.expect_places(13, &[0]);
    println!("program: {longest} of 1,461 days; with 92 values {short_days}, 100 {long_days}, a year's end {unlisted}, a listed one {listed}");
    assert!([longest, short_days, long_days, unlisted, listed]
        .iter()
        .all(|&n| n >= 20));
}

// Inputs that chance draws seldom.

/// From 20 December on all days are listed, then all but 24 and 31 December: those two count as Sunday, and unlisted as Saturday where
/// they are no Sundays. The two always have the same weekday.
#[test]
fn listed_year_ends_agree() {
    let file = constant_file(10, 1001);
    for year in 1996..=2099 {
        let (first, last) = (10_000 * year + 1220, 10_000 * year + 1231);
        let all = dates(first, 12);
        let other = |date: &u32| ![1224, 1231].contains(&(date % 10_000));
        let others: Vec<u32> = all.iter().copied().filter(other).collect();
        for (list, day_type, not) in [(all, "W3", "W2"), (others, "W2", "W3")] {
            let input = input(1, [first, last, 1000], &list, &file);
            let text = expect_agreement(&input, &format!("{year} {list:?}"));
            assert_eq!(
                has_a_years_end(&text, day_type),
                draw::is_eve(10_000 * year + 1224),
                "{text}"
            );
            assert!(!has_a_years_end(&text, not), "{text}");
        }
    }
    let input = input(
        1,
        [19_991_223, 19_991_225, 1000],
        &dates(19_991_223, 3),
        &file,
    );
    assert_eq!(
        text_for(&input),
        "1999-12-23 W3 96 2402\n1999-12-24 W3 96 2402\n1999-12-25 W3 96 2403\ntotal 3 288 7207 8000\n"
    );
}

/// The longest period, the largest values and use, the longest list; and each of the four one larger.
#[test]
fn the_limits_agree() {
    let holidays = dates(19_960_101, 401);
    let text = |last, listed, yearly, value| {
        let file = constant_file(0, value);
        let input = input(0, [19_960_101, last, yearly], &holidays[..listed], &file);
        expect_agreement(&input, "limits")
    };
    let largest = text(19_991_231, 400, 1_000_000_000, 20_000);
    assert_eq!(largest.lines().count(), 1_462);
    assert_eq!(
        text(20_000_101, 400, 1_000_000_000, 20_000),
        "refused 8 0\n"
    );
    assert_eq!(
        text(19_991_231, 401, 1_000_000_000, 20_000),
        "refused 9 400\n"
    );
    assert_eq!(
        text(19_991_231, 400, 1_000_000_001, 20_000),
        "refused 10 0\n"
    );
    assert_eq!(
        text(19_991_231, 400, 1_000_000_000, 20_001),
        "refused 5 7\n"
    );
}

/// No accepted input is as long as 65,536 bytes: the longest file and list have 20,640 with the head. Here every date of the
/// list is in order, and a file of all groups follows.
#[test]
fn an_input_of_65536_bytes_is_read_whole() {
    let file = constant_file(10, 1001);
    let listed = (LONGEST_INPUT - 15 - file.len()) / 4;
    let holidays = dates(19_960_101, listed);
    let mut longest = input(1, [20_000_325, 20_000_326, 1000], &holidays, &file);
    assert_eq!(longest.len(), LONGEST_INPUT);
    assert_eq!(expect_agreement(&longest, "longest"), "refused 9 400\n");
    longest.push(0);
    assert_eq!(expect_agreement(&longest, "one more"), "refused 13 0\n");
    longest.resize(1_000_000, 0);
    assert_eq!(expect_agreement(&longest, "many more"), "refused 13 0\n");
}

#[test]
fn the_stored_listing_is_the_programs() {
    let request = fs::read(repository::path("examples/year_2000.request")).unwrap();
    let listing = fs::read_to_string(repository::path("examples/year_2000.txt")).unwrap();
    assert!(expect_agreement(&request, "year 2000") == listing);
}

// Reading and writing.

fn listing_input() -> Vec<u8> {
    fs::read(repository::path("crates/slp/stdin")).unwrap()
}

const LISTING: &str = "2000-03-25 T2 96 2402\n2000-03-26 T3 92 2302\ntotal 2 188 4704 28000\n";
const UNREAD: &str = "slp: the input could not be read to its end\n";
const UNWRITTEN: &str = "slp: the output could not be written\n";

#[test]
fn a_pipe_may_deliver_a_byte_at_a_time() {
    let mut child = started(Command::new(program()).stdout(Stdio::piped()));
    let mut pipe = child.stdin.take().unwrap();
    for (i, byte) in listing_input().into_iter().enumerate() {
        pipe.write_all(&[byte]).unwrap();
        pipe.flush().unwrap();
        if i < 20 || i % 100 == 0 {
            sleep(Duration::from_millis(2));
        }
    }
    drop(pipe);
    assert_eq!(printed(child.wait_with_output().unwrap()), LISTING);
}

/// A folder can be opened and not read.
#[test]
fn a_failed_read_is_said_on_standard_error() {
    let folder = File::open(repository::path("target")).unwrap();
    let output = Command::new(program()).stdin(folder).output().unwrap();
    assert_eq!(String::from_utf8_lossy(&output.stderr), UNREAD);
    assert_eq!(String::from_utf8_lossy(&output.stdout), "");
}

#[test]
fn a_full_device_is_said_on_standard_error() {
    let full = File::options().write(true).open("/dev/full").unwrap();
    let mut child = started(Command::new(program()).stdout(full));
    give(&mut child, &listing_input());
    let output = child.wait_with_output().unwrap();
    assert_eq!(String::from_utf8_lossy(&output.stderr), UNWRITTEN);
}

/// The pipe is closed before the input is given, so before the program writes; the pause is for processes that other tests
/// are just starting, which have it open until they have become the program. The shell has the program ignore the signal
/// that would otherwise end it there, as it ends other programs.
#[test]
fn a_closed_pipe_is_said_on_standard_error() {
    let ignoring = ["-c", "trap '' PIPE; exec \"$0\""];
    let mut shell = Command::new("sh");
    let mut child = started(shell.args(ignoring).arg(program()).stdout(Stdio::piped()));
    drop(child.stdout.take());
    sleep(Duration::from_millis(50));
    give(&mut child, &listing_input());
    let output = child.wait_with_output().unwrap();
    assert_eq!(String::from_utf8_lossy(&output.stderr), UNWRITTEN);
}
