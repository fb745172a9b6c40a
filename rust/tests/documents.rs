//! The documents name what is there: the must-fail edits, functions and paths that README.md, docs/*.md and docs/changes/*.md cite exist, definitions
//! stand in the files that docs/TRACE.md names, docs/TRACE.md cites every must-fail edit, and docs/ARCHITECTURE.md every crate.
mod repository;

use std::collections::BTreeSet;
use std::fs;
use std::path::{Path, PathBuf};

/// Folders in the root; a path that begins with one of them is cited from there.
const FOLDERS: [&str; 7] = [
    "crates", "rust", "docs", "examples", "include", "bench", "tools",
];

/// Folders of a crate.
const FOLDERS_OF_A_CRATE: [&str; 4] = ["src", "specs", "proofs", "must-fail"];

/// Crates that are not in this repository: Rust's and the kit's.
const OTHER_CRATES: [&str; 4] = ["std", "core", "io", "libc"];

// The repository.

/// The names in a folder, sorted.
fn names_in(folder: &Path) -> Vec<String> {
    let entries = fs::read_dir(folder).unwrap_or_else(|e| panic!("{}: {e}", folder.display()));
    let mut names: Vec<String> = entries
        .map(|entry| entry.unwrap().file_name().into_string().unwrap())
        .collect();
    names.sort();
    names
}

fn crates() -> Vec<String> {
    names_in(&repository::path("crates"))
}

fn is_crate(name: &str) -> bool {
    crates().iter().any(|known| known == name)
}

/// Whether the crate has this must-fail edit, or a file or folder of this name.
fn has(name: &str, edit_or_path: &str) -> bool {
    let folder = repository::path("crates").join(name);
    let edit = folder.join(format!("must-fail/{edit_or_path}.edit"));
    edit.is_file() || folder.join(edit_or_path).exists()
}

/// The source of what stands before `::`: a crate, the Rust package, its tool, its reference, or one of its tests, which is a file
/// or a folder with a `main.rs`.
fn source_of(home: &str) -> Option<String> {
    let test = format!("rust/tests/{home}");
    let is_test = repository::path(&test).join("main.rs").is_file();
    let folders = [
        (is_crate(home), format!("crates/{home}/src")),
        (home == "slp", "rust/src".to_owned()),
        (home == "dusterteal", "rust/src/bin/dusterteal".to_owned()),
        (home == "reference", "rust/reference/src".to_owned()),
        (is_test, test),
    ];
    let mut files = vec![repository::path(&format!("rust/tests/{home}.rs"))];
    for (_, folder) in folders.iter().filter(|(is_home, _)| *is_home) {
        let folder = repository::path(folder);
        if folder.is_dir() {
            files.extend(names_in(&folder).iter().map(|name| folder.join(name)));
        }
    }
    files.retain(|path| path.is_file() && is_source(path));
    let read = |path: &PathBuf| fs::read_to_string(path).unwrap();
    (!files.is_empty()).then(|| files.iter().map(read).collect())
}

/// Whether a file's name is that of Rust's or Rattle's source.
fn is_source(path: &Path) -> bool {
    let extension = path.extension();
    extension.is_some_and(|extension| extension == "rs" || extension == "rt")
}

/// Whether a source declares this name, or with `put_..` one that begins so.
fn declares(source: &str, name: &str) -> bool {
    let words: Vec<&str> = source
        .split(|c: char| !(c.is_alphanumeric() || c == '_'))
        .filter(|word| !word.is_empty())
        .collect();
    words.windows(2).any(|pair| {
        ["fn", "struct", "enum", "trait", "type", "const", "mod"].contains(&pair[0])
            && match name.strip_suffix("..") {
                Some(beginning) => pair[1].starts_with(beginning),
                None => pair[1] == name,
            }
    })
}

// What the documents cite.

/// A word of a document.
struct Cited {
    document: String,
    line: usize,
    word: String,
}

impl Cited {
    fn fault(&self, what: &str) -> String {
        let Cited {
            document,
            line,
            word,
        } = self;
        format!("{document}, line {line}: `{word}`: {what}")
    }
}

/// README.md and the documents below docs/, by their paths.
fn documents() -> Vec<String> {
    let mut documents = vec!["README.md".to_owned()];
    for folder in ["docs", "docs/changes"] {
        let mut names = names_in(&repository::path(folder));
        names.retain(|name| name.ends_with(".md"));
        documents.extend(names.iter().map(|name| format!("{folder}/{name}")));
    }
    documents
}

/// What `words` takes out of each line of the documents.
fn cited(words: fn(&str) -> Vec<String>) -> Vec<Cited> {
    let mut found = Vec::new();
    for document in documents() {
        let text = fs::read_to_string(repository::path(&document)).unwrap();
        for (line, text) in (1..).zip(text.lines()) {
            found.extend(words(text).into_iter().map(|word| Cited {
                document: document.clone(),
                line,
                word,
            }));
        }
    }
    found
}

/// The words in backticks, without arguments: of `f(x, y)` the word is `f`.
fn quoted_words(line: &str) -> Vec<String> {
    let quoted = line.split('`').skip(1).step_by(2);
    quoted
        .flat_map(str::split_whitespace)
        .filter_map(|word| word.split(['(', ',', ';']).next())
        .map(str::to_owned)
        .collect()
}

/// The paths from the root, in backticks or not.
fn paths(line: &str) -> Vec<String> {
    line.split(|c: char| !(c.is_alphanumeric() || "_-./*".contains(c)))
        .filter(|word| {
            word.split_once('/')
                .is_some_and(|(first, _)| FOLDERS.contains(&first))
        })
        .map(|word| word.trim_end_matches(['.', '/']).to_owned())
        .collect()
}

/// Whether a part of the path stands for any name, as `CRATE` and `*.md` do.
fn stands_for_any(path: &str) -> bool {
    let in_capitals = |part: &str| part.chars().all(|c| c.is_ascii_uppercase());
    path.split('/')
        .any(|part| part.contains('*') || (!part.is_empty() && in_capitals(part)))
}

/// Fails where there are faults, and says all of them.
fn expect_none(faults: &[String]) {
    assert!(faults.is_empty(), "\n{}\n", faults.join("\n"));
}

/// `carry/bound_only_above` and `carry/specs/Carry.antt`.
#[test]
fn edits_and_files_of_crates_exist() {
    let mut faults = Vec::new();
    for cited in cited(quoted_words) {
        let Some((name, rest)) = cited.word.split_once('/') else {
            continue;
        };
        if FOLDERS.contains(&name) || stands_for_any(&cited.word) {
            continue;
        }
        let of_a_crate = rest
            .split('/')
            .next()
            .is_some_and(|folder| FOLDERS_OF_A_CRATE.contains(&folder));
        if is_crate(name) {
            if !has(name, rest) {
                faults.push(cited.fault(&format!("crate {name} has no such edit or file")));
            }
        } else if of_a_crate {
            faults.push(cited.fault(&format!("there is no crate {name}")));
        }
    }
    expect_none(&faults);
}

/// `call_expand::expand`, and `extremes::the_greatest_uses` of the Rust tests.
#[test]
fn functions_exist() {
    let mut faults = Vec::new();
    for cited in cited(quoted_words) {
        let mut parts = cited.word.split("::");
        let (Some(home), Some(name)) = (parts.next(), parts.next()) else {
            continue;
        };
        let is_type = !home.starts_with(|c: char| c.is_ascii_lowercase());
        if is_type || OTHER_CRATES.contains(&home) {
            continue;
        }
        match source_of(home) {
            None => faults.push(cited.fault(&format!("there is no crate or test {home}"))),
            Some(source) if !declares(&source, name) => {
                faults.push(cited.fault(&format!("{home} has no {name}")));
            }
            Some(_) => {}
        }
    }
    expect_none(&faults);
}

/// `docs/TRACE.md`. What cargo builds below `target` need not be there.
#[test]
fn paths_exist() {
    let mut faults = Vec::new();
    for cited in cited(paths) {
        let built = cited.word.split('/').any(|part| part == "target");
        if !built && !stands_for_any(&cited.word) && !repository::path(&cited.word).exists() {
            faults.push(cited.fault("no such path"));
        }
    }
    expect_none(&faults);
}

#[test]
fn the_trace_names_every_edit() {
    let text = fs::read_to_string(repository::path("docs/TRACE.md")).unwrap();
    let named: BTreeSet<String> = text.lines().flat_map(quoted_words).collect();
    let mut edits = Vec::new();
    for name in crates() {
        let folder = repository::path(&format!("crates/{name}/must-fail"));
        if folder.is_dir() {
            let files = names_in(&folder);
            let stems = files.iter().filter_map(|file| file.strip_suffix(".edit"));
            edits.extend(stems.map(|edit| format!("{name}/{edit}")));
        }
    }
    assert!(!edits.is_empty(), "no must-fail edits are found");
    let missing = edits.iter().filter(|edit| !named.contains(*edit));
    let faults: Vec<String> = missing
        .map(|edit| format!("docs/TRACE.md: `{edit}` is not named"))
        .collect();
    expect_none(&faults);
}

/// The rows "file | definitions" of docs/TRACE.md: each definition is declared in one of the row's files.
#[test]
fn definitions_stand_where_the_trace_says() {
    let text = fs::read_to_string(repository::path("docs/TRACE.md")).unwrap();
    let mut rows = 0;
    let mut faults = Vec::new();
    for (line, row) in (1..).zip(text.lines()) {
        let cells: Vec<&str> = row.trim_matches('|').split(" | ").collect();
        let [files, definitions] = cells[..] else {
            continue;
        };
        let files = quoted_words(files);
        if files.is_empty() || !files.iter().all(|file| file.ends_with(".antt")) {
            continue;
        }
        rows += 1;
        let declarations: String = files
            .iter()
            .filter_map(|file| fs::read_to_string(repository::path("crates").join(file)).ok())
            .collect();
        let missing = quoted_words(definitions)
            .into_iter()
            .filter(|name| !defines(&declarations, name));
        faults.extend(missing.map(|name| {
            format!("docs/TRACE.md, line {line}: `{name}` is not declared in {files:?}")
        }));
    }
    assert!(rows > 0, "docs/TRACE.md has no row of definitions");
    expect_none(&faults);
}

/// Whether a file of definitions declares this name: `abbrev pub NAME :`, `pub record NAME (..)`, `pub data NAME :`.
fn defines(declarations: &str, name: &str) -> bool {
    declarations.lines().any(|line| {
        let mut words = line.split_whitespace();
        let declared = words
            .by_ref()
            .find(|word| !["abbrev", "unfoldable", "pub", "record", "data"].contains(word));
        line.contains("pub ") && declared == Some(name)
    })
}

#[test]
fn the_architecture_names_every_crate() {
    let text = fs::read_to_string(repository::path("docs/ARCHITECTURE.md")).unwrap();
    let named: BTreeSet<String> = text.lines().flat_map(quoted_words).collect();
    let faults: Vec<String> = crates()
        .iter()
        .filter(|name| !named.contains(*name))
        .map(|name| format!("docs/ARCHITECTURE.md: crate `{name}` is not named"))
        .collect();
    expect_none(&faults);
}
