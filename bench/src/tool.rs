//! The tool's own run for the longest series to a file, beside the library's call and the writing of the same bytes.
use std::fs::{self, File};
use std::io::{self, Write};
use std::path::{Path, PathBuf};
use std::process::Command;
use std::time::Instant;

use crate::calls::Work;
use crate::inputs::Inputs;
use crate::timing::median;

const RUNS: usize = 51;

/// The period and the yearly use that are asked for, as the library and as the tool take them.
const DATES: [u32; 2] = [20000101, 20031231];
const PERIOD: &str = "2000..2003";

fn program() -> PathBuf {
    Path::new(env!("CARGO_MANIFEST_DIR")).join("../rust/target/release/dusterteal")
}

/// A folder with a profile file and a list of holidays, gone when it is dropped.
struct Folder(PathBuf);

impl Folder {
    fn new(inputs: &Inputs) -> io::Result<Folder> {
        let folder =
            Folder(std::env::temp_dir().join(format!("dusterteal_bench_{}", std::process::id())));
        fs::create_dir(&folder.0)?;
        fs::write(folder.path("profiles.slp"), &inputs.file)?;
        let line = |date: &u32| {
            format!(
                "{}-{:02}-{:02}\n",
                date / 10_000,
                date / 100 % 100,
                date % 100
            )
        };
        fs::write(
            folder.path("holidays.txt"),
            inputs.holidays.iter().map(line).collect::<String>(),
        )?;
        Ok(folder)
    }

    fn path(&self, name: &str) -> PathBuf {
        self.0.join(name)
    }

    fn command(&self, yearly: u32) -> Command {
        let mut command = Command::new(program());
        command.args([
            "series",
            "H0",
            PERIOD,
            &yearly.to_string(),
            "--profiles",
            "profiles.slp",
        ]);
        command
            .args(["--holidays", "holidays.txt", "-o", "series.csv"])
            .current_dir(&self.0);
        command
    }
}

impl Drop for Folder {
    fn drop(&mut self) {
        // What is left of it lies among the system's temporary files.
        let _ = fs::remove_dir_all(&self.0);
    }
}

fn microseconds(start: Instant) -> f64 {
    start.elapsed().as_nanos() as f64 / 1_000.0
}

/// Writes a new file down to the disk, as the tool does.
fn write(path: &Path, bytes: &[u8]) -> io::Result<()> {
    let mut file = File::create_new(path)?;
    file.write_all(bytes)?;
    file.sync_all()?;
    fs::remove_file(path)
}

pub fn measure(inputs: &Inputs) -> Result<(), String> {
    if !program().is_file() {
        let program = program();
        return Err(format!(
            "{} is missing: run examples/set_up first",
            program.display()
        ));
    }
    let failed = |error: io::Error| format!("the tool's line: {error}");
    let request = inputs.request(slp::Group::H0, DATES[0], DATES[1]);
    let folder = Folder::new(inputs).map_err(failed)?;
    let mut work = Work::longest();
    let (mut whole, mut call, mut writing) = (Vec::new(), Vec::new(), Vec::new());
    for _ in 0..RUNS {
        let start = Instant::now();
        // It warns of the list, which is made for the measuring: what it says is shown where it fails.
        let output = folder.command(request.yearly).output().map_err(failed)?;
        whole.push(microseconds(start));
        if !output.status.success() {
            let said = String::from_utf8_lossy(&output.stderr);
            return Err(format!("dusterteal: {}: {said}", output.status));
        }
        let bytes = fs::read(folder.path("series.csv")).map_err(failed)?;
        let start = Instant::now();
        let made = slp::expand(&request, &mut work.out).map_err(|refusal| refusal.to_string())?;
        call.push(microseconds(start));
        let lines = bytes.iter().filter(|byte| **byte == b'\n').count();
        if lines != made.count + 1 {
            return Err(format!(
                "dusterteal wrote {lines} lines for {} figures",
                made.count
            ));
        }
        let start = Instant::now();
        write(&folder.path("bytes"), &bytes).map_err(failed)?;
        writing.push(microseconds(start));
    }
    report(median(&mut whole), median(&mut call), median(&mut writing));
    Ok(())
}

fn report(whole: f64, call: f64, writing: f64) {
    println!("\nThe tool, `series` of 1,461 days of H0 to a file: microseconds, the median of {RUNS} runs");
    println!("{:<42}{:>10}{:>20}", "", "", "/ call and writing");
    let line =
        |title, time: f64| println!("{title:<42}{time:>10.0}{:>20.2}", time / (call + writing));
    line("the whole run, process started and ended", whole);
    line("the library call", call);
    line("the writing of the same bytes", writing);
}
