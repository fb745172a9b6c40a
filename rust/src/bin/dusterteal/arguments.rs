//! The words and options of a command line.
use std::ffi::{OsStr, OsString};
use std::os::unix::ffi::OsStrExt;

use crate::failure::Failure;
use crate::text::quoted;

/// What may follow the name of an option.
#[derive(Debug, Clone, Copy, PartialEq, Eq)]
enum Takes {
    /// Nothing.
    Nothing,
    /// One value.
    One,
    /// One value or more, up to the next option.
    Several,
}

/// An option of a subcommand.
#[derive(Debug, Clone, Copy)]
pub struct Choice {
    /// The name, with its hyphens.
    pub name: &'static str,
    takes: Takes,
}

impl Choice {
    /// An option without a value.
    pub const fn alone(name: &'static str) -> Choice {
        Choice {
            name,
            takes: Takes::Nothing,
        }
    }

    /// An option with a value.
    pub const fn with_value(name: &'static str) -> Choice {
        Choice {
            name,
            takes: Takes::One,
        }
    }

    /// An option with one value or more.
    pub const fn with_values(name: &'static str) -> Choice {
        Choice {
            name,
            takes: Takes::Several,
        }
    }
}

/// What a subcommand takes.
#[derive(Debug)]
pub struct Grammar {
    /// The subcommand's name.
    pub name: &'static str,
    /// The names of its words, in order.
    pub words: &'static [&'static str],
    /// How many words are needed.
    pub least: usize,
    /// Whether the last word may stand several times.
    pub many: bool,
    /// Its options.
    pub choices: &'static [Choice],
}

/// A command line's words and options.
#[derive(Debug, Default)]
pub struct Arguments {
    /// The whole of it, from the subcommand's name on.
    pub line: Vec<OsString>,
    /// The words, as many as the grammar asks for.
    pub words: Vec<OsString>,
    options: Vec<(&'static str, Vec<OsString>)>,
}

impl Arguments {
    /// A word as text.
    pub fn word(&self, index: usize) -> Option<String> {
        self.words
            .get(index)
            .map(|word| word.to_string_lossy().into_owned())
    }

    /// The values of an option; none where it is not given.
    pub fn values(&self, name: &str) -> &[OsString] {
        let option = self.options.iter().find(|(option, _)| *option == name);
        option.map_or(&[], |(_, values)| values)
    }

    /// Whether an option is given.
    pub fn has(&self, name: &str) -> bool {
        self.options.iter().any(|(option, _)| *option == name)
    }

    /// The only value of an option.
    pub fn value(&self, name: &str) -> Option<&OsStr> {
        self.values(name).first().map(OsString::as_os_str)
    }

    /// Where the output goes: the value of `-o`, else `-`, standard output.
    pub fn target(&self) -> &OsStr {
        self.value("-o").unwrap_or(OsStr::new("-"))
    }

    /// The only value of an option as text.
    pub fn text(&self, name: &str) -> Option<String> {
        self.value(name)
            .map(|value| value.to_string_lossy().into_owned())
    }
}

/// A word of the command line that is no option, and whether it stands among the values of an option that takes several.
struct Word {
    text: OsString,
    follows: Option<&'static str>,
}

/// The words and options of a command line, in any order.
pub fn parse(grammar: &Grammar, given: &[OsString]) -> Result<Arguments, Failure> {
    let mut words = Vec::new();
    let mut arguments = Arguments::default();
    arguments.line.push(grammar.name.into());
    arguments.line.extend_from_slice(given);
    let mut given = given.iter();
    let mut follows = None;
    while let Some(word) = given.next() {
        if word == "--" {
            words.extend(given.by_ref().map(|text| plain(text, None)));
        } else if is_option(word) {
            let (name, value) = split(word);
            let choice = grammar.choice(&name)?;
            follows = None;
            let value = match (choice.takes, value) {
                (Takes::Nothing, None) => None,
                (Takes::Nothing, Some(_)) => {
                    return Err(grammar.fault(&format!("{name} takes no value")))
                }
                (Takes::One, None) => {
                    let value = given.next().filter(|value| !is_option(value));
                    let missing = || grammar.fault(&format!("{name} needs a value"));
                    Some(value.ok_or_else(missing)?.clone())
                }
                (Takes::Several, None) => {
                    follows = Some(choice.name);
                    None
                }
                (_, value) => value,
            };
            arguments.add(grammar, choice, value)?;
        } else {
            words.push(plain(word, follows));
        }
    }
    grammar.share(words, &mut arguments);
    grammar.expect_whole(&arguments)?;
    Ok(arguments)
}

fn plain(text: &OsStr, follows: Option<&'static str>) -> Word {
    Word {
        text: text.to_owned(),
        follows,
    }
}

/// Whether a word names an option. `-` is a file, and `-1` a number that is not allowed.
fn is_option(word: &OsStr) -> bool {
    matches!(word.as_bytes(), [b'-', second, ..] if !second.is_ascii_digit())
}

/// The name of an option, and the value behind its `=`.
fn split(word: &OsStr) -> (String, Option<OsString>) {
    let bytes = word.as_bytes();
    let (name, value) = match bytes.iter().position(|&byte| byte == b'=') {
        Some(at) => (
            &bytes[..at],
            Some(OsStr::from_bytes(&bytes[at + 1..]).to_owned()),
        ),
        None => (bytes, None),
    };
    (String::from_utf8_lossy(name).into_owned(), value)
}

impl Arguments {
    fn add(
        &mut self,
        grammar: &Grammar,
        choice: Choice,
        value: Option<OsString>,
    ) -> Result<(), Failure> {
        match self
            .options
            .iter_mut()
            .find(|(name, _)| *name == choice.name)
        {
            None => self
                .options
                .push((choice.name, value.into_iter().collect())),
            Some((_, values)) if choice.takes == Takes::Several => values.extend(value),
            Some(_) => return Err(grammar.fault(&format!("{} is given twice", choice.name))),
        }
        Ok(())
    }
}

impl Grammar {
    /// That of a subcommand for a run: GROUP PERIOD KWH.
    pub const fn of_run(name: &'static str, choices: &'static [Choice]) -> Grammar {
        Grammar {
            name,
            words: &["GROUP", "PERIOD", "KWH"],
            least: 3,
            many: false,
            choices,
        }
    }

    /// A fault of the arguments, with the subcommand's name and where to read on.
    pub fn fault(&self, what: &str) -> Failure {
        let name = self.name;
        Failure::NotUnderstood(format!("{name}: {what}\nSee `dusterteal {name} --help`."))
    }

    fn choice(&self, name: &str) -> Result<Choice, Failure> {
        let name = if name == "--output" { "-o" } else { name };
        let found = self.choices.iter().find(|choice| choice.name == name);
        found.copied().ok_or_else(|| {
            let names: Vec<&str> = self.choices.iter().map(|choice| choice.name).collect();
            let known = match names[..] {
                [] => "it has none".to_owned(),
                _ => format!("its options are {}", names.join(", ")),
            };
            let hint = match name {
                "--state" | "--regional" if names.contains(&"--holidays") => {
                    "; `dusterteal holidays` takes it and writes a list, which --holidays reads"
                }
                _ => "",
            };
            self.fault(&format!("{} is no option: {known}{hint}", quoted(name)))
        })
    }

    /// Gives each word to the option that it follows, or to the subcommand. Where words of the subcommand are missing, the last
    /// ones behind an option that takes several are meant: `--profiles a.csv G0 2026 3500`.
    fn share(&self, mut words: Vec<Word>, arguments: &mut Arguments) {
        let own = words.iter().filter(|word| word.follows.is_none()).count();
        let missing = self.least.saturating_sub(own);
        let last = words.iter().rposition(|word| word.follows.is_some());
        if let Some(last) = last {
            let run = words[..=last].iter().rev();
            let following = run.take_while(|word| word.follows.is_some()).count();
            if following > missing {
                for word in &mut words[last + 1 - missing..=last] {
                    word.follows = None;
                }
            }
        }
        for word in words {
            match word.follows {
                None => arguments.words.push(word.text),
                Some(name) => {
                    let option = arguments
                        .options
                        .iter_mut()
                        .find(|(option, _)| *option == name);
                    option.expect("the option is given").1.push(word.text);
                }
            }
        }
    }

    fn expect_whole(&self, arguments: &Arguments) -> Result<(), Failure> {
        let found = arguments.words.len();
        if found < self.least {
            return Err(self.fault(&format!("{} is missing", self.words[found])));
        }
        if found > self.words.len() && !self.many {
            let given: Vec<String> = arguments
                .words
                .iter()
                .map(|word| quoted(&word.to_string_lossy()))
                .collect();
            let hint = match self.words {
                [_, "PERIOD", ..] | ["PERIOD"] => {
                    "; a period is one word, as 2026-01-15..2026-02-14, and a value with blanks stands in quotes"
                }
                [_, _, "TIME", ..] => "; time and offset are one word, as 02:15+01:00",
                ["GROUP", "KWH"] => "; the periods are those of --readings and --until",
                _ => "",
            };
            let (takes, given) = (self.words.join(" "), given.join(" "));
            let what = format!("it takes {takes}, and {found} words are given: {given}{hint}");
            return Err(self.fault(&what));
        }
        for choice in self.choices {
            let empty = arguments.has(choice.name) && arguments.values(choice.name).is_empty();
            if choice.takes == Takes::Several && empty {
                return Err(self.fault(&format!("{} needs a value", choice.name)));
            }
        }
        Ok(())
    }
}

#[cfg(test)]
mod tests {
    use super::*;

    const SERIES: Grammar = Grammar::of_run(
        "series",
        &[
            Choice::with_values("--profiles"),
            Choice::with_value("--holidays"),
            Choice::alone("--wide"),
            Choice::with_value("-o"),
        ],
    );

    fn parsed(line: &str) -> Result<Arguments, Failure> {
        let words: Vec<OsString> = line.split_whitespace().map(OsString::from).collect();
        parse(&SERIES, &words)
    }

    fn expect_usual(line: &str) {
        let arguments = parsed(line).unwrap_or_else(|what| panic!("{line}: {what}"));
        assert_eq!(arguments.words, ["G0", "2026", "3500"], "{line}");
        assert_eq!(arguments.values("--profiles"), ["a.csv", "b.csv"], "{line}");
        assert_eq!(
            arguments.text("--holidays").as_deref(),
            Some("none"),
            "{line}"
        );
        assert!(arguments.has("--wide") && !arguments.has("-o"), "{line}");
    }

    #[test]
    fn words_and_options_stand_in_any_order() {
        for line in [
            "G0 2026 3500 --profiles a.csv b.csv --holidays none --wide",
            "--wide --holidays none --profiles a.csv b.csv G0 2026 3500",
            "--profiles a.csv b.csv --holidays none --wide G0 2026 3500",
            "G0 --profiles a.csv b.csv 2026 3500 --wide --holidays none",
            "G0 2026 --profiles=a.csv --profiles=b.csv --holidays=none 3500 --wide",
            "G0 --profiles a.csv --wide --profiles b.csv 2026 3500 --holidays none",
            "--profiles a.csv b.csv --wide --holidays none -- G0 2026 3500",
        ] {
            expect_usual(line);
        }
    }

    #[test]
    fn an_option_has_its_value_behind_a_space_or_an_equals_sign() {
        assert_eq!(
            parsed("a b c -o x").unwrap().text("-o").as_deref(),
            Some("x")
        );
        assert_eq!(
            parsed("a b c --output=x=y").unwrap().text("-o").as_deref(),
            Some("x=y")
        );
        assert_eq!(
            parsed("a b c --output -").unwrap().text("-o").as_deref(),
            Some("-")
        );
    }

    fn fault_of(line: &str) -> String {
        parsed(line).unwrap_err().to_string()
    }

    #[test]
    fn what_is_wrong_is_named() {
        assert!(fault_of("G0 2026").starts_with("series: KWH is missing"));
        assert!(fault_of("").starts_with("series: GROUP is missing"));
        assert!(fault_of("a b c d").starts_with(
            "series: it takes GROUP PERIOD KWH, and 4 words are given: \"a\" \"b\" \"c\" \"d\""
        ));
        assert!(fault_of("a b c --high")
            .starts_with("series: \"--high\" is no option: its options are --profiles,"));
        assert!(fault_of("a b c -x").starts_with("series: \"-x\" is no option"));
        assert!(fault_of("a b c --wide=1").starts_with("series: --wide takes no value"));
        assert!(fault_of("a b c -o").starts_with("series: -o needs a value"));
        assert!(fault_of("a b c -o --wide").starts_with("series: -o needs a value"));
        assert!(fault_of("a b c --profiles").starts_with("series: --profiles needs a value"));
        assert!(fault_of("a b c --wide --wide").starts_with("series: --wide is given twice"));
        assert!(fault_of("a b --profiles c").starts_with("series: KWH is missing"));
        assert!(fault_of("").ends_with("See `dusterteal series --help`."));
    }
}
