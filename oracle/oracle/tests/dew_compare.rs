//! The comparison command: the oracle beside itself, beside document 01's
//! planner, and beside programs that are wrong.

#![cfg(dew)]

use std::path::{Path, PathBuf};
use std::process::Command;

const ORACLE: &str = env!("CARGO_BIN_EXE_oracle");

/// A directory of the test's own.
fn directory(test: &str) -> PathBuf {
    let directory = Path::new(env!("CARGO_TARGET_TMPDIR")).join(test);
    std::fs::create_dir_all(&directory).expect("a directory for the test");
    directory
}

/// Whether `compare` found no difference, and what it printed.
fn compare(test: &str, program: &str, arguments: &[&str], options: &[&str]) -> (bool, String) {
    let mut command = Command::new(ORACLE);
    command.args(["compare", "--program", program]);
    for argument in arguments {
        command.args(["--arg", argument]);
    }
    let output = command
        .args(options)
        .arg("--out")
        .arg(directory(test))
        .output()
        .expect("the oracle runs");
    (
        output.status.success(),
        String::from_utf8(output.stdout).expect("text"),
    )
}

#[test]
fn the_oracle_is_like_itself_one_by_one() {
    let options = ["--kind", "pages", "--seeds", "0..40"];
    let (alike, text) = compare("itself", ORACLE, &["plan"], &options);
    assert!(alike, "{text}");
    assert_eq!(text, "pages: 40 cases of seeds 0..40 alike\n");
}

#[test]
fn the_oracle_is_like_itself_in_batches() {
    for kind in ["pages", "edges", "damage", "tiny"] {
        let options = ["--kind", kind, "--seeds", "100..3000", "--batch"];
        let (alike, text) = compare("batches", ORACLE, &["batch"], &options);
        assert!(alike, "{text}");
        assert_eq!(
            text,
            format!("{kind}: 2900 cases of seeds 100..3000 alike\n")
        );
    }
    let options = ["--kind", "limits", "--seeds", "0..26", "--batch"];
    let (alike, text) = compare("batches", ORACLE, &["batch"], &options);
    assert!(alike, "{text}");
}

#[test]
fn the_oracle_is_like_itself_in_calls() {
    for kind in ["pages", "first", "frames", "candidates"] {
        let options = ["--kind", kind, "--seeds", "0..500", "--calls"];
        let (alike, text) = compare("calls", ORACLE, &["calls"], &options);
        assert!(alike, "{text}");
        assert!(text.ends_with(" cases of seeds 0..500 alike\n"), "{text}");
    }
}

/// The input that a report names, and the program's answer to it.
fn named_input(text: &str) -> Vec<u8> {
    let line = text.lines().last().expect("a report");
    let path = line.strip_prefix("input in ").expect("the input's place");
    std::fs::read(path).expect("the input")
}

#[test]
fn a_wrong_program_is_reported_with_its_input() {
    let wrong = ["--mistake", "NewMinusOldForgotten"];
    let options = ["--kind", "pages", "--seeds", "0..5000", "--batch"];
    let arguments = ["batch", wrong[0], wrong[1]];
    let (alike, text) = compare("wrong", ORACLE, &arguments, &options);
    assert!(!alike);
    assert!(text.starts_with("pages: difference at seed "), "{text}");
    let seed: u64 = text["pages: difference at seed ".len()..]
        .lines()
        .next()
        .and_then(|seed| seed.parse().ok())
        .expect("a seed");
    let input = named_input(&text);
    let generated = oracle::generate::input(oracle::generate::Kind::Pages, seed);
    assert_eq!(generated, Some(input));
}

#[test]
fn a_wrong_program_is_reported_one_by_one() {
    let options = ["--kind", "edges", "--seeds", "0..100"];
    let arguments = ["plan", "--mistake", "RowOfTheHighEdge"];
    let (alike, text) = compare("one", ORACLE, &arguments, &options);
    assert!(!alike);
    assert!(text.starts_with("edges: difference at seed "), "{text}");
    assert!(text.contains("\nfound:\ndirty"), "{text}");
    assert!(!named_input(&text).is_empty());
}

#[test]
fn a_program_that_says_nothing_is_reported() {
    let options = ["--kind", "tiny", "--seeds", "0..10", "--batch"];
    // `plan` takes the batch for one input and prints no marker.
    let (alike, text) = compare("silent", ORACLE, &["plan"], &options);
    assert!(!alike);
    assert!(text.contains("found: no answer"), "{text}");
}

#[test]
fn a_wrong_row_is_reported_in_calls() {
    let options = ["--kind", "frames", "--seeds", "0..2000", "--calls"];
    let arguments = ["calls", "--mistake", "AboveTheScreenLeftOut"];
    let (alike, text) = compare("rows", ORACLE, &arguments, &options);
    assert!(!alike);
    assert!(text.contains("difference at seed "), "{text}");
}
