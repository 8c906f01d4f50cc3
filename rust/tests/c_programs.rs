//! The C header: programs built with it plan job A and on a cold store's
//! house, explain why a floor has no route, call every function, meet every
//! refusal number and measure the stack; it is C++ too.

use std::ffi::OsStr;
use std::fs;
use std::path::{Path, PathBuf};
use std::process::{Command, Output};

/// The repository's root.
fn root() -> PathBuf {
    Path::new(env!("CARGO_MANIFEST_DIR")).join("..")
}

/// A command's words where it fails.
fn must_succeed(command: &mut Command) {
    let output = command.output().expect("a compiler runs");
    let words = String::from_utf8_lossy(&output.stderr);
    assert!(output.status.success(), "{words}");
}

/// Builds a C or C++ program with all warnings as errors.
fn build(source: &Path) -> PathBuf {
    // With its ending: a C and a C++ source may have the same name else.
    let mut name = source.file_name().expect("a source has a name").to_owned();
    name.push(".program");
    let program = Path::new(env!("CARGO_TARGET_TMPDIR")).join(name);
    let (compiler, standard) = match source.extension().and_then(OsStr::to_str) {
        Some("cpp") => ("c++", "-std=c++98"),
        _ => ("cc", "-std=c11"),
    };
    let mut compiler = Command::new(compiler);
    compiler
        .args([standard, "-Wall", "-Wextra", "-Werror", "-I"])
        .arg(root().join("include"))
        .arg(source)
        .arg(env!("SECONDCOOP_NUMBERS_ARCHIVE"))
        .arg(env!("SECONDCOOP_PLANS_ARCHIVE"))
        .arg(env!("SECONDCOOP_PLANNER_ARCHIVE"))
        .arg("-o")
        .arg(&program);
    must_succeed(&mut compiler);
    program
}

fn build_and_run(source: &str) -> Output {
    let program = build(&root().join(source));
    Command::new(program).output().expect("the program runs")
}

/// A program of the tests that must find nothing wrong.
fn finds_nothing(source: &str) {
    let output = build_and_run(&format!("rust/tests/{source}"));
    let text = String::from_utf8_lossy(&output.stdout);
    assert!(output.status.success(), "wrong: {text}");
}

#[test]
fn job_a_is_planned() {
    let output = build_and_run("examples/plan_job_a.c");
    let text = String::from_utf8_lossy(&output.stdout);
    assert!(output.status.success(), "{text}");
    assert_eq!(
        text,
        "route 0 1 2 3\nend cost 6 rounds 2 turns 4 bound 10000\n"
    );
}

/// An example's program prints what stands beside it.
fn prints_what_is_expected(name: &str) {
    let output = build_and_run(&format!("examples/{name}.c"));
    let text = String::from_utf8_lossy(&output.stdout);
    assert!(output.status.success(), "{text}");
    let expected = fs::read_to_string(root().join(format!("examples/{name}.out")));
    assert_eq!(text, expected.expect("an example"));
}

#[test]
fn a_cold_store_is_planned() {
    prints_what_is_expected("cold_store");
}

#[test]
fn no_route_is_explained() {
    prints_what_is_expected("explain");
}

#[test]
fn every_function_is_declared_as_it_is() {
    finds_nothing("header.c");
}

#[test]
fn every_function_links_in_cpp() {
    finds_nothing("header.cpp");
}

#[test]
fn every_alignment_will_do() {
    finds_nothing("alignment.c");
}

/// Rejected sheets, refused calls and lists where nothing is listed: nothing
/// is written, not even what stands there.
#[test]
fn refusals_write_nothing() {
    finds_nothing("read_only.c");
}

#[test]
fn the_header_is_c99_and_cpp() {
    for (compiler, standard) in [("cc", "c99"), ("c++", "c++98"), ("c++", "c++17")] {
        let language = if compiler == "cc" { "c" } else { "c++" };
        must_succeed(
            Command::new(compiler)
                .arg(format!("-std={standard}"))
                .args(["-Wall", "-Wextra", "-Werror", "-pedantic", "-fsyntax-only"])
                .arg("-include")
                .arg(root().join("include/secondcoop.h"))
                .args(["-x", language, "/dev/null"]),
        );
    }
}

/// No function goes deeper than the header says; with a third of the figures
/// four of them do.
#[test]
fn the_stack_suffices() {
    let program = build(&root().join("rust/tests/stack.c"));
    for (part, deeper) in [("1", 0), ("3", 4)] {
        let output = Command::new(&program).arg(part).output().expect("it runs");
        let text = String::from_utf8_lossy(&output.stdout);
        assert_eq!(text.lines().count(), 12, "{text}");
        assert_eq!(output.status.code(), Some(deeper), "{text}");
    }
}
