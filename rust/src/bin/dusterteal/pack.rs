//! `pack` and `unpack`: tables to a profile file, and back.
use std::ffi::OsString;

use crate::arguments::{self, Grammar};
use crate::failure::Failure;
use crate::files::{Made, Output};
use crate::plausibility;
use crate::profiles::Profiles;
use crate::run::{self, OUTPUT};
use crate::table;

/// What `pack` takes.
pub const PACK: Grammar = Grammar {
    name: "pack",
    words: &["TABLE.csv"],
    least: 1,
    many: true,
    choices: &[OUTPUT],
};

/// What `unpack` takes.
pub const UNPACK: Grammar = Grammar {
    name: "unpack",
    words: &["FILE.slp", "GROUP"],
    least: 2,
    many: false,
    choices: &[OUTPUT],
};

/// Makes a profile file of tables.
pub fn pack(given: &[OsString]) -> Result<Made, Failure> {
    let arguments = arguments::parse(&PACK, given)?;
    if arguments.words.iter().filter(|word| *word == "-").count() > 1 {
        return Err(PACK.fault("standard input can be read only once"));
    }
    let profiles = Profiles::load_tables(&arguments.words)?;
    for group in profiles.groups()? {
        plausibility::warn_of_energy(&profiles, group);
    }
    Ok(Made::of(
        Output::binary(arguments.target(), profiles.file),
        arguments.words,
    ))
}

/// Makes a table of a profile file's group.
pub fn unpack(given: &[OsString]) -> Result<Made, Failure> {
    let arguments = arguments::parse(&UNPACK, given)?;
    let group = run::group(&UNPACK, &arguments.word(1).unwrap_or_default())?;
    let profiles = Profiles::load(&arguments.words[..1])?;
    let text = table::format(group, &profiles.values(group)?);
    Ok(Made::of(
        Output::text(arguments.target(), text),
        arguments.words[..1].to_vec(),
    ))
}
