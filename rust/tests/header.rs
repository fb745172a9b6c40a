//! `include/slp.h` compiles as C and as C++ without a warning, and a program calls every function through it.
mod repository;

use std::path::{Path, PathBuf};
use std::process::Command;

/// The first of these compilers that can be run.
fn compiler(names: &[&'static str]) -> &'static str {
    let runs = |name: &&&str| Command::new(name).arg("--version").output().is_ok();
    names.iter().find(runs).unwrap_or_else(|| {
        panic!("a compiler is needed to test include/slp.h: none of {names:?} can be run")
    })
}

/// Compiles `header.c`.
fn compiled(compiler: &str, language: &str, standard: &str) -> PathBuf {
    let program = Path::new(env!("CARGO_TARGET_TMPDIR")).join(format!("header_{standard}"));
    let output = Command::new(compiler)
        .args([format!("-x{language}"), format!("-std={standard}")])
        .args(["-Wall", "-Wextra", "-Wpedantic", "-Werror", "-I"])
        .arg(repository::path("include"))
        .arg(repository::path("rust/tests/header.c"))
        .arg("-xnone")
        .arg(repository::path("target/staticlib/libexports.a"))
        .arg("-o")
        .arg(&program)
        .output()
        .expect("the compiler runs");
    assert!(
        output.status.success(),
        "tests/header.c does not compile as {standard}:\n{}",
        String::from_utf8_lossy(&output.stderr)
    );
    program
}

fn expect_no_differences(program: &Path) {
    let ran = Command::new(program).output().expect("the program runs");
    assert!(
        ran.status.success(),
        "tests/header.c found differences:\n{}",
        String::from_utf8_lossy(&ran.stdout)
    );
}

#[test]
fn a_c_program_calls_every_function() {
    expect_no_differences(&compiled(compiler(&["cc", "gcc"]), "c", "c99"));
}

#[test]
fn a_cpp_program_calls_every_function() {
    expect_no_differences(&compiled(compiler(&["c++", "g++"]), "c++", "c++11"));
}
