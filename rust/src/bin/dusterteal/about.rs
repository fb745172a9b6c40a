//! `--about`: how a series was made, so that it can be made again.
use std::io::Write;
use std::process::{Command, Stdio};

use crate::arguments::{Arguments, Choice};
use crate::failure::Failure;
use crate::files::Output;
use crate::holidays::Source;
use crate::regional;
use crate::run::{Run, Series};

/// Where the account of a series goes.
pub const ABOUT: Choice = Choice::with_value("--about");

/// The tool's name and version.
pub const VERSION: &str = concat!("dusterteal ", env!("CARGO_PKG_VERSION"));

/// The account of a series.
pub fn text(
    arguments: &Arguments,
    run: &Run,
    series: &Series,
    output: &Output,
) -> Result<String, Failure> {
    let words: Vec<String> = arguments
        .line
        .iter()
        .map(|word| in_shell(&word.to_string_lossy()))
        .collect();
    let mut text = format!("version: {VERSION}\narguments: {}\n", words.join(" "));
    text += &tool()?;
    for source in &run.profiles.sources {
        text += &line("profiles", &source.name, &source.bytes)?;
    }
    text += &holidays(run)?;
    text += &format!(
        "run: from {} with carry {} / 40000 Wh\n",
        run.since, run.carry
    );
    let (period, made) = (run.period, series.made);
    text += &format!(
        "period: {} to {} with carry {} / 40000 Wh\n",
        period.first, period.last, series.carry_before
    );
    text += &format!(
        "count: {} quarter hours\ntotal: {} Wh\ncarry: {} / 40000 Wh\n",
        made.count, made.total, made.carry
    );
    text += &line("output", &output.name(), &output.bytes)?;
    Ok(text)
}

/// The list of holidays: the file, or how it was worked out.
fn holidays(run: &Run) -> Result<String, Failure> {
    let regional = match &run.holidays.source {
        Source::Nowhere => return Ok("holidays: none\n".to_owned()),
        Source::File(source) => return line("holidays", &source.name, &source.bytes),
        Source::German(regional) => regional,
    };
    let (first, last) = (run.since.year(), run.period.last.year());
    let years = match first == last {
        true => first.to_string(),
        false => format!("{first} to {last}"),
    };
    let regional = match &regional[..] {
        [] => "no regional ones".to_owned(),
        days => regional::names(days),
    };
    let count = run.holidays.dates(run.whole()).len();
    Ok(format!(
        "holidays: german, {count} dates of {years} worked out by the proved call: the days of all of Germany, and {regional}\n"
    ))
}

/// The tool's own file, which tells one build from another.
fn tool() -> Result<String, Failure> {
    let read = std::env::current_exe().and_then(std::fs::read);
    let bytes = read
        .map_err(|error| Failure::Unusable(format!("cannot read the tool's own file: {error}")))?;
    line("tool", "dusterteal", &bytes)
}

fn line(what: &str, name: &str, bytes: &[u8]) -> Result<String, Failure> {
    let (length, sum) = (bytes.len(), sha256(bytes)?);
    Ok(format!("{what}: {name}, {length} bytes, SHA-256 {sum}\n"))
}

/// A word as a shell takes it.
fn in_shell(word: &str) -> String {
    let is_plain = |c: char| c.is_alphanumeric() || "-_./=:+,".contains(c);
    match !word.is_empty() && word.chars().all(is_plain) {
        true => word.to_owned(),
        false => format!("'{}'", word.replace('\'', r"'\''")),
    }
}

/// The SHA-256 of bytes, by the system's `sha256sum`.
fn sha256(bytes: &[u8]) -> Result<String, Failure> {
    let failed =
        |what: String| Failure::Unusable(format!("sha256sum, which --about needs, failed: {what}"));
    let mut child = Command::new("sha256sum")
        .stdin(Stdio::piped())
        .stdout(Stdio::piped())
        .spawn()
        .map_err(|error| failed(error.to_string()))?;
    let sent = child.stdin.take().map(|mut input| input.write_all(bytes));
    let output = child
        .wait_with_output()
        .map_err(|error| failed(error.to_string()))?;
    if let Some(Err(error)) = sent {
        return Err(failed(error.to_string()));
    }
    let text = String::from_utf8_lossy(&output.stdout);
    match text.split_whitespace().next() {
        Some(sum) if output.status.success() && sum.len() == 64 => Ok(sum.to_owned()),
        _ => Err(failed(output.status.to_string())),
    }
}

#[cfg(test)]
mod tests {
    use super::*;

    #[test]
    fn the_sum_is_that_of_the_bytes() {
        let sum = sha256(b"abc").unwrap();
        assert_eq!(
            sum,
            "ba7816bf8f01cfea414140de5dae2223b00361a396177a9cb410ff61f20015ad"
        );
    }

    #[test]
    fn words_are_quoted_where_a_shell_needs_it() {
        assert_eq!(in_shell("2026-01-15..2026-02-14"), "2026-01-15..2026-02-14");
        assert_eq!(in_shell("my file.csv"), "'my file.csv'");
        assert_eq!(in_shell("it's"), r"'it'\''s'");
        assert_eq!(in_shell(""), "''");
    }
}
