//! What the tool reads, and what it writes: whole or not at all. `-` is standard input or standard output.
use std::ffi::{OsStr, OsString};
use std::fs::{self, File, OpenOptions};
use std::io::{self, ErrorKind, IsTerminal, Read, Write};
use std::os::fd::AsFd;
use std::path::{Path, PathBuf};

use crate::failure::Failure;

/// The most bytes of a file that are read. A table has 10,000 and a profile file 20,000 at most.
const MOST: u64 = 1 << 20;

/// A file that was read.
#[derive(Debug, Clone, PartialEq, Eq)]
pub struct Input {
    /// Its path, or `-`.
    pub path: OsString,
    /// What messages call it.
    pub name: String,
    /// Its content.
    pub bytes: Vec<u8>,
}

impl Input {
    /// Reads a file.
    pub fn read(path: &OsStr) -> Result<Input, Failure> {
        let name = name_of(path, "standard input");
        let mut bytes = Vec::new();
        let done = match path {
            path if path == "-" => io::stdin().take(MOST + 1).read_to_end(&mut bytes),
            path => File::open(path).and_then(|file| file.take(MOST + 1).read_to_end(&mut bytes)),
        };
        done.map_err(|error| Failure::Unusable(format!("cannot read {name}: {error}")))?;
        if bytes.len() as u64 > MOST {
            let what = format!(
                "{name} has more than {MOST} bytes: that is no table, list or profile file"
            );
            return Err(Failure::Refused(what));
        }
        let path = path.to_owned();
        Ok(Input { path, name, bytes })
    }
}

/// What messages call a path, where `-` is this.
fn name_of(path: &OsStr, standard: &str) -> String {
    match path.to_str() {
        Some("-") => standard.to_owned(),
        Some("") => "\"\"".to_owned(),
        _ => Path::new(path).display().to_string(),
    }
}

/// Something to be written.
#[derive(Debug, Clone, PartialEq, Eq)]
pub struct Output {
    path: OsString,
    /// Its content.
    pub bytes: Vec<u8>,
    binary: bool,
}

impl Output {
    /// Text for a file, or for standard output where `path` is `-`.
    pub fn text(path: &OsStr, text: impl Into<Vec<u8>>) -> Output {
        Output {
            path: path.to_owned(),
            bytes: text.into(),
            binary: false,
        }
    }

    /// Bytes that are no text.
    pub fn binary(path: &OsStr, bytes: Vec<u8>) -> Output {
        Output {
            binary: true,
            ..Output::text(path, bytes)
        }
    }

    /// What messages call the file.
    pub fn name(&self) -> String {
        match self.is_standard() {
            true => name_of(OsStr::new("-"), "standard output"),
            false => name_of(&self.path, ""),
        }
    }

    /// Whether it goes to standard output, also by one of that file's own names.
    fn is_standard(&self) -> bool {
        let names = ["-", "/dev/stdout", "/dev/fd/1", "/proc/self/fd/1"];
        names.iter().any(|name| self.path == *name)
    }

    fn unusable(&self, error: &io::Error) -> Failure {
        Failure::Unusable(format!("cannot write {}: {error}", self.name()))
    }

    /// What is open already or is no regular file, as a device or a pipe, is written to as it is, behind what it has.
    fn as_it_is(&self) -> io::Result<Option<File>> {
        if self.is_standard() {
            // Unlike `io::stdout`, this tells of every error.
            return Ok(Some(io::stdout().as_fd().try_clone_to_owned()?.into()));
        }
        let path = Path::new(&self.path);
        let is_open = ["/dev/fd", "/dev/stderr", "/proc/self/fd"]
            .iter()
            .any(|open| path.starts_with(open));
        match fs::metadata(path) {
            Ok(found) if is_open || !(found.is_file() || found.is_dir()) => {
                OpenOptions::new().append(true).open(path).map(Some)
            }
            _ => Ok(None),
        }
    }

    /// Where a regular file is to be put: what a link leads to, or the path where nothing is yet.
    fn place(&self) -> io::Result<PathBuf> {
        let path = Path::new(&self.path);
        match fs::metadata(path) {
            Ok(found) if found.is_dir() => Err(io::Error::other("it is a folder")),
            Ok(_) => fs::canonicalize(path),
            Err(error) if error.kind() == ErrorKind::NotFound => {
                let place = end_of_links(path);
                match folder_of(&place).is_dir() {
                    true => Ok(place),
                    false => Err(io::Error::other("its folder does not exist")),
                }
            }
            Err(error) => Err(error),
        }
    }

    /// Makes the output ready: opens what is written to as it is, or writes a file beside its place, with this number in its name.
    fn stage(&self, number: usize) -> Result<Staged, Failure> {
        let open = self.as_it_is().map_err(|error| self.unusable(&error))?;
        if let Some(file) = open {
            if self.binary && file.is_terminal() {
                let what =
                    "the output is binary and not for a terminal: name a file with -o, or pipe it";
                return Err(Failure::NotUnderstood(what.to_owned()));
            }
            return Ok(Staged::Open(file));
        }
        let place = self.place().map_err(|error| self.unusable(&error))?;
        let name = format!(".dusterteal.{}.{number}.new", std::process::id());
        let beside = place.with_file_name(name);
        let staged = Staged::Beside { beside, place };
        staged
            .fill(&self.bytes)
            .map_err(|error| self.unusable(&error))?;
        Ok(staged)
    }

    /// Writes or renames. A reader that has closed the pipe has what it wanted.
    fn finish(&self, mut staged: Staged) -> Result<(), Failure> {
        let done = match &mut staged {
            Staged::Open(file) => file.write_all(&self.bytes),
            Staged::Beside { beside, place } => fs::rename(beside, place),
        };
        match done {
            Err(error) if error.kind() == ErrorKind::BrokenPipe => Ok(()),
            done => done.map_err(|error| self.unusable(&error)),
        }
    }
}

/// An output on its way: open, or as a file beside its place, which goes where it is dropped and not renamed.
enum Staged {
    Open(File),
    Beside { beside: PathBuf, place: PathBuf },
}

impl Staged {
    fn fill(&self, bytes: &[u8]) -> io::Result<()> {
        let Staged::Beside { beside, place } = self else {
            return Ok(());
        };
        let mut file = File::create_new(beside)?;
        if let Ok(old) = fs::metadata(place) {
            file.set_permissions(old.permissions())?;
        }
        file.write_all(bytes)?;
        file.sync_all()
    }
}

impl Drop for Staged {
    fn drop(&mut self) {
        if let Staged::Beside { beside, .. } = self {
            // After the renaming it is not there any more.
            let _ = fs::remove_file(beside);
        }
    }
}

/// Where links lead to whose end is not there yet. They do not go in a circle, which is another error than that.
fn end_of_links(path: &Path) -> PathBuf {
    let mut path = path.to_owned();
    while let Ok(target) = fs::read_link(&path) {
        path = path.with_file_name(target);
    }
    path
}

/// The folder that a path lies in.
fn folder_of(path: &Path) -> &Path {
    match path.parent() {
        Some(folder) if folder != Path::new("") => folder,
        _ => Path::new("."),
    }
}

/// The one path of a file that is there, or of one that can be made; else the path as it stands.
fn real(path: &OsStr) -> PathBuf {
    let path = match fs::canonicalize(path) {
        Ok(real) => return real,
        Err(error) if error.kind() == ErrorKind::NotFound => end_of_links(Path::new(path)),
        Err(_) => return path.into(),
    };
    match (fs::canonicalize(folder_of(&path)), path.file_name()) {
        (Ok(folder), Some(name)) => folder.join(name),
        _ => path,
    }
}

/// What a subcommand has made, and the files that it made it from.
#[derive(Debug)]
pub struct Made {
    /// What is to be written.
    pub outputs: Vec<Output>,
    /// The paths of what was read.
    pub read: Vec<OsString>,
}

impl Made {
    /// One output, made from the files with these paths.
    pub fn of(output: Output, read: Vec<OsString>) -> Made {
        Made {
            outputs: vec![output],
            read,
        }
    }

    /// One text for standard output.
    pub fn text(text: impl Into<Vec<u8>>) -> Made {
        Made::of(Output::text(OsStr::new("-"), text), Vec::new())
    }

    /// Two outputs have not the same place, and none that of a file that was read.
    fn expect_apart(&self) -> Result<(), Failure> {
        let mut taken: Vec<PathBuf> = self
            .read
            .iter()
            .filter(|path| *path != "-")
            .map(|path| real(path))
            .collect();
        for output in &self.outputs {
            let place = match output.is_standard() {
                true => PathBuf::from("-"),
                false => real(&output.path),
            };
            if taken.contains(&place) {
                let what = format!(
                    "{} is read or written already: name another file",
                    output.name()
                );
                return Err(Failure::Refused(what));
            }
            taken.push(place);
        }
        Ok(())
    }
}

/// Writes all outputs. Those that are regular files are made ready before the first of them takes its place, so that what
/// cannot be written leaves every old file as it was.
pub fn write(made: &Made) -> Result<(), Failure> {
    made.expect_apart()?;
    let mut staged = Vec::new();
    for (number, output) in made.outputs.iter().enumerate() {
        staged.push((output, output.stage(number)?));
    }
    let (open, beside): (Vec<_>, Vec<_>) = staged
        .into_iter()
        .partition(|(_, staged)| matches!(staged, Staged::Open(_)));
    for (output, staged) in open.into_iter().chain(beside) {
        output.finish(staged)?;
    }
    Ok(())
}

#[cfg(test)]
mod tests {
    use super::*;

    /// An empty folder of the test's own.
    fn folder(name: &str) -> PathBuf {
        let folder = std::env::temp_dir().join(format!("dusterteal_{name}_{}", std::process::id()));
        fs::create_dir(&folder).unwrap();
        folder
    }

    fn text(path: &Path, text: &str) -> Output {
        Output::text(path.as_os_str(), text)
    }

    fn write(outputs: &[Output]) -> Result<(), Failure> {
        super::write(&Made {
            outputs: outputs.to_vec(),
            read: Vec::new(),
        })
    }

    #[test]
    fn a_file_is_replaced_whole_and_nothing_is_left_beside() {
        let folder = folder("replaced");
        let (path, link) = (folder.join("a.csv"), folder.join("link"));
        write(&[text(&path, "old content")]).unwrap();
        write(&[text(&path, "new")]).unwrap();
        assert_eq!(fs::read(&path).unwrap(), b"new");
        std::os::unix::fs::symlink(&path, &link).unwrap();
        write(&[text(&link, "through the link")]).unwrap();
        assert_eq!(fs::read(&path).unwrap(), b"through the link");
        assert!(fs::symlink_metadata(&link).unwrap().is_symlink());
        assert_eq!(fs::read_dir(&folder).unwrap().count(), 2);
        fs::remove_dir_all(folder).unwrap();
    }

    #[test]
    fn where_one_cannot_be_written_all_stay_as_they_were() {
        let folder = folder("stays");
        let (path, nowhere) = (folder.join("a.csv"), folder.join("b").join("c.csv"));
        fs::write(&path, "old").unwrap();
        for other in [&nowhere, &folder] {
            let failure = write(&[text(&path, "new"), text(other, "new")]).unwrap_err();
            assert!(
                matches!(&failure, Failure::Unusable(what) if what.starts_with("cannot write "))
            );
            assert_eq!(fs::read(&path).unwrap(), b"old");
            assert_eq!(fs::read_dir(&folder).unwrap().count(), 1);
        }
        fs::remove_dir_all(folder).unwrap();
    }

    #[test]
    fn what_is_read_is_not_overwritten_and_no_file_is_written_twice() {
        let folder = folder("apart");
        let path = folder.join("a.csv");
        fs::write(&path, "old").unwrap();
        let (output, same) = (text(&path, "new"), folder.join(".").join("a.csv"));
        let made = |read: &[&Path], outputs: &[Output]| Made {
            outputs: outputs.to_vec(),
            read: read
                .iter()
                .map(|path| path.as_os_str().to_owned())
                .collect(),
        };
        for made in [
            made(&[&same], std::slice::from_ref(&output)),
            made(&[], &[output.clone(), text(&same, "other")]),
        ] {
            assert!(matches!(super::write(&made), Err(Failure::Refused(_))));
            assert_eq!(fs::read(&path).unwrap(), b"old");
        }
        fs::remove_file(&path).unwrap();
        assert!(write(&[output, text(&same, "other")]).is_err_and(|failure| failure.status() == 1));
        let standard = || Output::text(OsStr::new("-"), "");
        assert!(matches!(
            write(&[standard(), standard()]),
            Err(Failure::Refused(_))
        ));
        fs::remove_dir_all(folder).unwrap();
    }

    #[test]
    fn an_endless_file_is_not_read_to_its_end() {
        assert!(matches!(
            Input::read(OsStr::new("/dev/zero")),
            Err(Failure::Refused(_))
        ));
    }
}
