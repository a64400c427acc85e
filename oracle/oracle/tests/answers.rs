//! The stored answers, replayed by document 01's planner: no dew is needed.

use std::collections::BTreeSet;
use std::fs;
use std::path::Path;

use oracle::batch;
use oracle::calls::Call;
use oracle::generate::{self, Kind};
use oracle::planners::document;
use oracle::print::plan_form;
use oracle::program;

fn stored(name: &str) -> Vec<u8> {
    let path = Path::new(env!("CARGO_MANIFEST_DIR"))
        .join("../answers")
        .join(name);
    fs::read(&path).unwrap_or_else(|error| panic!("{}: {error}", path.display()))
}

fn stored_answers(name: &str) -> Vec<String> {
    batch::answers(&String::from_utf8(stored(name)).expect("answers are text"))
}

#[test]
fn the_program_prints_the_stored_answers() {
    let batch = stored("plan.in");
    let inputs = batch::inputs(&batch).expect("a whole batch");
    let answers = stored_answers("plan.out");
    assert_eq!(inputs.len(), answers.len());
    for (input, answer) in inputs.into_iter().zip(answers) {
        assert_eq!(plan_form(&program::answer(&document, input)), answer);
    }
}

#[test]
fn the_entries_give_the_stored_answers() {
    let batch = stored("calls.in");
    let calls = batch::inputs(&batch).expect("a whole batch");
    let answers = stored_answers("calls.out");
    assert_eq!(calls.len(), answers.len());
    for (call, answer) in calls.into_iter().zip(answers) {
        let call = Call::read(call).expect("a call");
        assert_eq!(call.answer(&document), answer);
    }
}

#[test]
fn the_replay_program_is_held_to_the_stored_calls() {
    let replay = Path::new(env!("CARGO_MANIFEST_DIR")).join("../../crates/replay");
    for (name, file) in [("calls.in", "stdin"), ("calls.out", "stdout")] {
        let path = replay.join(file);
        let held = fs::read(&path).unwrap_or_else(|error| panic!("{}: {error}", path.display()));
        assert!(held == stored(name), "{file} is stale: copy answers/{name}");
    }
}

#[test]
fn the_bundled_example_is_planned_as_it_says() {
    let examples = Path::new(env!("CARGO_MANIFEST_DIR")).join("../../examples");
    let read = |name: &str| {
        let path = examples.join(name);
        fs::read(&path).unwrap_or_else(|error| panic!("{}: {error}", path.display()))
    };
    let input = generate::input(Kind::Table, 0).expect("tables are the program's");
    assert!(read("districts.bin") == input, "districts.bin is stale");
    let printed = plan_form(&program::answer(&document, &input));
    assert_eq!(read("districts.plan"), printed.into_bytes());
}

#[test]
fn every_number_is_among_the_stored_answers() {
    let mut numbers = BTreeSet::new();
    let answers = [stored_answers("plan.out"), stored_answers("calls.out")].concat();
    assert!(answers.len() > 300, "a few hundred answers");
    for answer in &answers {
        let mut words = answer.split_whitespace();
        if words.next() == Some("refused") {
            let number: u8 = words
                .next()
                .and_then(|number| number.parse().ok())
                .expect("a refusal has a number");
            numbers.insert(number);
        } else {
            numbers.insert(0);
        }
    }
    assert_eq!(numbers, (0..=11).collect());
}
