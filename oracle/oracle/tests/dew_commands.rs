//! The other commands, on document 01's example.

#![cfg(dew)]

use std::io::Write;
use std::process::{Command, Stdio};

use oracle::batch;
use oracle::calls::candidates_input;
use oracle::generate::{self, Kind};
use oracle::header::Header;

const ORACLE: &str = env!("CARGO_BIN_EXE_oracle");

/// The exit code and standard output of a command.
fn run(arguments: &[&str], input: &[u8]) -> (Option<i32>, Vec<u8>) {
    let mut process = Command::new(ORACLE)
        .args(arguments)
        .stdin(Stdio::piped())
        .stdout(Stdio::piped())
        .stderr(Stdio::null())
        .spawn()
        .expect("the oracle runs");
    let mut stdin = process.stdin.take().expect("standard input is a pipe");
    // A command that reads nothing closes the pipe, and that is no fault here.
    let _ = stdin.write_all(input);
    drop(stdin);
    let output = process.wait_with_output().expect("the oracle ends");
    (output.status.code(), output.stdout)
}

fn printed(arguments: &[&str], input: &[u8]) -> String {
    let (code, output) = run(arguments, input);
    assert_eq!(code, Some(0));
    String::from_utf8(output).expect("text")
}

fn example() -> Vec<u8> {
    generate::input(Kind::Document, 0).expect("the program takes the example")
}

const PLAN: &str =
    "dirty 1\nregion 10 14 7 2 draw 0 1\nregion 10 16 7 2 draw 0\nregions 2 pixels 28\n";

#[test]
fn plan_prints_the_example() {
    assert_eq!(printed(&["plan"], &example()), PLAN);
    assert_eq!(printed(&["plan", "--model"], &example()), PLAN);
}

#[test]
fn full_says_everything() {
    // 10.5, 14, 16.5 and 18.
    let text = "accepted\ncommands 2\nrectangles 1\n\
        rectangle 4025000000000000 402c000000000000 4030800000000000 4032000000000000\n\
        regions 2 pixels 28\nregion 10 14 7 2\nregion 10 16 7 2\n\
        words 7\nstarts 0 2 3 3\nentries 0 1 0\nspace 4 0 0 1 2 7\n";
    assert_eq!(printed(&["full"], &example()), text);
    assert_eq!(
        printed(&["full", "--space", "4,0,0,1,2,7"], &example()),
        text
    );
    for short in ["3,0,0,1,2,7", "4,0,0,0,2,7", "4,0,0,1,1,7", "4,0,0,1,2,6"] {
        assert_eq!(
            printed(&["full", "--space", short], &example()),
            "refused 10 at 0\n"
        );
    }
    // The first-frame entry takes one strip: the second one's first byte is past END.
    assert_eq!(
        printed(&["full", "--first"], &example()),
        "refused 8 at 207\n"
    );
}

#[test]
fn candidates_hands_a_row_out() {
    let header = Header {
        width: 40,
        height: 40,
        band_height: 16,
    };
    let row = |y| candidates_input(header, y, &[0, 2, 3, 3, 0, 1, 0]);
    assert_eq!(printed(&["candidates"], &row(14)), "draw 0 1\n");
    assert_eq!(printed(&["candidates"], &row(16)), "draw 0\n");
    assert_eq!(printed(&["candidates"], &row(47)), "draw\n");
    assert_eq!(printed(&["candidates"], &row(48)), "refused 11 at 0\n");
}

#[test]
fn generate_and_batch_fit_together() {
    let (code, inputs) = run(&["generate", "--kind", "document", "--seeds", "0..2"], &[]);
    assert_eq!(code, Some(0));
    assert_eq!(batch::inputs(&inputs).map(|inputs| inputs.len()), Some(2));
    let answers = batch::answers(&printed(&["batch"], &inputs));
    assert_eq!(
        answers,
        [
            PLAN,
            "dirty 1\nregion 6 0 4 8 draw 0\nregion 6 8 4 2 draw 0\nregions 2 pixels 40\n"
        ]
    );
}

#[test]
fn unknown_words_are_an_error() {
    for arguments in [
        &["plan", "--fast"][..],
        &["paint"],
        &[],
        &["compare"],
        &["full", "--space", "1,2"],
        &["plan", "--mistake", "None"],
        &["generate", "--kind", "frames", "--seeds", "0..1"],
    ] {
        assert_eq!(run(arguments, &[]).0, Some(2), "{arguments:?}");
    }
}
