//! Runs the built tool.
use std::fs;
use std::io::Write;
use std::path::{Path, PathBuf};
use std::process::{Command, Stdio};

/// What the tool did.
#[derive(Debug)]
pub struct Outcome {
    /// The exit status.
    pub status: i32,
    /// What it wrote to standard output.
    pub written: Vec<u8>,
    /// What it said on standard error.
    pub said: String,
}

/// The command, in the folder of the repository.
pub fn command(arguments: &[&str]) -> Command {
    let mut command = Command::new(env!("CARGO_BIN_EXE_dusterteal"));
    command
        .args(arguments)
        .current_dir(Path::new(env!("CARGO_MANIFEST_DIR")).join(".."));
    command
}

/// Runs the tool with nothing on standard input.
pub fn run(arguments: &[&str]) -> Outcome {
    run_with(arguments, b"")
}

/// Runs the tool with something on standard input.
pub fn run_with(arguments: &[&str], input: &[u8]) -> Outcome {
    let mut child = command(arguments)
        .stdin(Stdio::piped())
        .stdout(Stdio::piped())
        .stderr(Stdio::piped())
        .spawn()
        .expect("the tool runs");
    // A tool that stops before it has read all closes the pipe.
    let _ = child.stdin.take().map(|mut pipe| pipe.write_all(input));
    let output = child.wait_with_output().expect("the tool ends");
    Outcome {
        status: output.status.code().expect("the tool ends by itself"),
        written: output.stdout,
        said: String::from_utf8(output.stderr).expect("messages are text"),
    }
}

/// What the tool writes where it does its work and says nothing.
pub fn written(arguments: &[&str]) -> String {
    let outcome = run(arguments);
    assert_eq!(
        (outcome.status, outcome.said.as_str()),
        (0, ""),
        "{arguments:?}"
    );
    String::from_utf8(outcome.written).expect("the output is text")
}

/// What the tool writes where it does its work and warns; each of `words` stands in what it says.
pub fn warned(arguments: &[&str], words: &[&str]) -> String {
    let outcome = run(arguments);
    assert_eq!(outcome.status, 0, "{arguments:?}: {}", outcome.said);
    assert!(
        outcome
            .said
            .lines()
            .all(|line| line.starts_with("dusterteal: warning: ")),
        "{}",
        outcome.said
    );
    expect_words(&outcome.said, words);
    String::from_utf8(outcome.written).expect("the output is text")
}

/// The warnings of a run that does its work.
pub fn warnings(arguments: &[&str]) -> Vec<String> {
    let outcome = run(arguments);
    assert_eq!(outcome.status, 0, "{arguments:?}: {}", outcome.said);
    let warning = |line: &str| {
        line.strip_prefix("dusterteal: warning: ")
            .map(str::to_owned)
    };
    let lines = outcome.said.lines();
    lines.map(|line| warning(line).expect(line)).collect()
}

/// The tool stops with this exit status, writes nothing to standard output, and says each of `words`.
pub fn stopped(arguments: &[&str], status: i32, words: &[&str]) {
    expect_stopped(&run(arguments), status, words);
}

/// The tool stops with this exit status, writes nothing to standard output, and says this alone.
pub fn says(arguments: &[&str], status: i32, message: &str) {
    let outcome = run(arguments);
    expect_stopped(&outcome, status, &[]);
    assert_eq!(
        outcome.said,
        format!("dusterteal: {message}\n"),
        "{arguments:?}"
    );
}

/// A run that has been made stopped with this exit status, wrote nothing to standard output, and said each of `words`.
pub fn expect_stopped(outcome: &Outcome, status: i32, words: &[&str]) {
    assert_eq!(outcome.status, status, "{}", outcome.said);
    assert_eq!(outcome.written, b"", "{}", outcome.said);
    assert!(outcome.said.starts_with("dusterteal: "), "{}", outcome.said);
    expect_words(&outcome.said, words);
}

fn expect_words(said: &str, words: &[&str]) {
    for part in words {
        assert!(said.contains(part), "{part:?} is not in: {said}");
    }
}

/// An empty folder of the test's own.
pub fn folder(name: &str) -> PathBuf {
    let folder = Path::new(env!("CARGO_TARGET_TMPDIR")).join(name);
    // It is there from an earlier run.
    let _ = fs::remove_dir_all(&folder);
    fs::create_dir_all(&folder).expect("the folder is made");
    folder
}

/// A file with this content in a folder; its path as text.
pub fn file(folder: &Path, name: &str, content: impl AsRef<[u8]>) -> String {
    let path = folder.join(name);
    fs::write(&path, content).expect("the file is written");
    text(&path)
}

/// A path as text.
pub fn text(path: &Path) -> String {
    path.to_str().expect("the path is text").to_owned()
}
