//! Why the tool stops, by its exit status.
use std::fmt;
use std::io::Write;

use slp::Refusal;

/// What keeps the tool from its work, in words for the user.
#[derive(Debug, Clone, PartialEq, Eq)]
pub enum Failure {
    /// What it was given is refused or not accepted.
    Refused(String),
    /// The arguments are not understood.
    NotUnderstood(String),
    /// Something could not be read or written.
    Unusable(String),
}

impl Failure {
    /// A refusal by a question: what was found, and the question's number and place behind it.
    pub fn by_question(what: &str, refusal: Refusal) -> Failure {
        let (number, place) = (refusal.kind.number(), refusal.place);
        Failure::Refused(format!("{what} (question {number}, place {place})"))
    }

    /// The exit status.
    pub fn status(&self) -> u8 {
        match self {
            Failure::Refused(_) => 1,
            Failure::NotUnderstood(_) => 2,
            Failure::Unusable(_) => 3,
        }
    }
}

impl fmt::Display for Failure {
    fn fmt(&self, f: &mut fmt::Formatter) -> fmt::Result {
        match self {
            Failure::Refused(what) | Failure::NotUnderstood(what) | Failure::Unusable(what) => {
                f.write_str(what)
            }
        }
    }
}

/// Says something on standard error that does not stop the tool.
pub fn warn(what: &str) {
    say(&format!("warning: {what}"));
}

/// Says something on standard error. Where that cannot be written, the exit status is all that is left.
pub fn say(what: &str) {
    let _ = writeln!(std::io::stderr(), "dusterteal: {what}");
}
