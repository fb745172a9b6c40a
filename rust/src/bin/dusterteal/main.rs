//! The schedule desk's tool: one command from a spreadsheet's table to a series that can be trusted. The figures, the calendar and
//! every refusal come from the proved library; the tool reads what people write, and says in their terms what it was told.
mod about;
mod amounts;
mod arguments;
mod check;
mod clock;
mod compare;
mod date;
mod day;
mod days;
mod deliveries;
mod explain;
mod failure;
mod files;
mod german;
mod heading;
mod help;
mod holiday_list;
mod holidays;
mod names;
mod pack;
mod page;
mod plausibility;
mod profiles;
mod quarter_hours;
mod readings;
mod regional;
mod request;
mod run;
mod series;
mod sheet;
mod states;
mod sums;
mod table;
mod text;

use std::ffi::{OsStr, OsString};
use std::process::ExitCode;

use failure::Failure;
use files::Made;

/// Makes what the arguments behind a subcommand's name ask for.
type Maker = fn(&[OsString]) -> Result<Made, Failure>;

/// The subcommands.
const SUBCOMMANDS: [(&str, Maker); 13] = [
    ("series", series::make),
    ("sums", sums::make),
    ("deliveries", deliveries::make),
    ("days", days::make),
    ("page", page::make),
    ("explain", explain::make),
    ("day", day::make),
    ("holidays", holiday_list::make),
    ("check", check::make),
    ("compare", compare::make),
    ("pack", pack::pack),
    ("unpack", pack::unpack),
    ("request", request::make),
];

fn main() -> ExitCode {
    let arguments: Vec<OsString> = std::env::args_os().skip(1).collect();
    match make(&arguments).and_then(|made| files::write(&made)) {
        Ok(()) => ExitCode::SUCCESS,
        Err(failure) => {
            failure::say(&failure.to_string());
            ExitCode::from(failure.status())
        }
    }
}

fn make(arguments: &[OsString]) -> Result<Made, Failure> {
    let Some((first, rest)) = arguments.split_first() else {
        return Ok(Made::text(help::OVERVIEW));
    };
    let first = first.to_string_lossy();
    match (&*first, rest) {
        ("--help" | "-h" | "help", rest) => return overview(rest),
        ("--version" | "-V", []) => return Ok(Made::text(format!("{}\n", about::VERSION))),
        ("--version" | "-V", [surplus, ..]) => return Err(too_many(surplus)),
        _ => {}
    }
    let subcommand = SUBCOMMANDS.into_iter().find(|(name, _)| *name == first);
    let Some((name, make)) = subcommand else {
        return Err(unknown(&first));
    };
    let own = rest.iter().take_while(|word| *word != "--");
    if own.into_iter().any(|word| word == "--help" || word == "-h") {
        return Ok(Made::text(help::of(name).unwrap_or_default()));
    }
    make(rest)
}

/// The first help, or more of it: `--help all`, `--help series`.
fn overview(words: &[OsString]) -> Result<Made, Failure> {
    let word = match words {
        [] => return Ok(Made::text(help::OVERVIEW)),
        [word] => word,
        [_, surplus, ..] => return Err(too_many(surplus)),
    };
    let word = word.to_string_lossy();
    match help::of(&word) {
        Some(text) => Ok(Made::text(text)),
        None if word == "all" => Ok(Made::text(format!("{}{}", help::OVERVIEW, help::MORE))),
        None => Err(unknown(&word)),
    }
}

fn too_many(word: &OsStr) -> Failure {
    let word = text::quoted(&word.to_string_lossy());
    Failure::NotUnderstood(format!(
        "{word} is one argument too many\nSee `dusterteal --help`."
    ))
}

fn unknown(word: &str) -> Failure {
    let names = SUBCOMMANDS.map(|(name, _)| name).join(", ");
    let word = text::quoted(word);
    Failure::NotUnderstood(format!(
        "{word} is no subcommand: they are {names}\nSee `dusterteal --help`."
    ))
}

#[cfg(test)]
mod tests {
    use super::*;

    #[test]
    fn every_subcommand_has_a_help_that_begins_with_its_name() {
        for (name, _) in SUBCOMMANDS {
            let text = help::of(name).unwrap();
            assert!(text.starts_with(&format!("dusterteal {name} ")), "{name}");
            let listed = |text: &str| text.contains(&format!("\n  {name} "));
            assert!(listed(help::OVERVIEW) || listed(help::MORE), "{name}");
        }
        assert_eq!(help::of("other"), None);
    }

    /// A subcommand's help names each of its options.
    #[test]
    fn every_option_is_explained() {
        let grammars = [
            &series::GRAMMAR,
            &sums::GRAMMAR,
            &deliveries::GRAMMAR,
            &days::GRAMMAR,
            &page::GRAMMAR,
            &explain::GRAMMAR,
            &day::GRAMMAR,
            &holiday_list::GRAMMAR,
            &check::GRAMMAR,
            &compare::GRAMMAR,
            &pack::PACK,
            &pack::UNPACK,
            &request::GRAMMAR,
        ];
        assert_eq!(grammars.len(), SUBCOMMANDS.len());
        for grammar in grammars {
            let text = help::of(grammar.name).unwrap();
            for choice in grammar.choices {
                let line = format!("\n  {} ", choice.name);
                assert!(text.contains(&line), "{} {}", grammar.name, choice.name);
            }
        }
    }
}
