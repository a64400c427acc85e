//! Dew's code and document 01's text, in our words, over every kind of input.

#![cfg(dew)]

use oracle::generate::{self, Kind};
use oracle::model::{self, mistake::Mistake};
use oracle::planners;
use oracle::print::plan_form;
use oracle::program;

/// Compares both forms of the answers; the number of calls.
fn compare(kind: Kind, seeds: u64) -> usize {
    let dew = planners::dew().expect("these tests are compiled with dew");
    let mut calls = 0;
    for seed in 0..seeds {
        if let Some(input) = generate::input(kind, seed) {
            assert_eq!(
                plan_form(&program::answer(&dew, &input)),
                plan_form(&program::answer(&planners::document, &input)),
                "{} {seed}",
                kind.name()
            );
        }
        for call in generate::calls(kind, seed, &dew) {
            assert_eq!(
                call.answer(&dew),
                call.answer(&planners::document),
                "{} {seed}",
                kind.name()
            );
            calls += 1;
        }
    }
    calls
}

#[test]
fn dew_is_as_the_document_says_on_pages() {
    assert_eq!(compare(Kind::Pages, 20_000), 20_000);
}

#[test]
fn dew_is_as_the_document_says_on_edges() {
    assert_eq!(compare(Kind::Edges, 20_000), 20_000);
}

#[test]
fn dew_is_as_the_document_says_on_damage() {
    assert_eq!(compare(Kind::Damage, 20_000), 20_000);
}

#[test]
fn dew_is_as_the_document_says_on_limits() {
    assert_eq!(compare(Kind::Limits, 260), 260);
}

#[test]
fn dew_is_as_the_document_says_on_tiny_strips() {
    assert_eq!(compare(Kind::Tiny, 20_000), 20_000);
}

#[test]
fn dew_is_as_the_document_says_on_first_frames() {
    assert_eq!(compare(Kind::First, 10_000), 10_000);
}

#[test]
fn dew_is_as_the_document_says_on_lists_of_frames() {
    assert!(compare(Kind::Frames, 3_000) > 12_000);
}

/// What an entry answers is enough to find every mistake in planning, those
/// included that no panel sees.
#[test]
fn every_mistake_in_planning_shows_in_an_answer() {
    let dew = planners::dew().expect("these tests are compiled with dew");
    let calls_alone = [
        Mistake::CandidatesOfTheNextRow,
        Mistake::AgainstThePreviousFrame,
        Mistake::EveryStripRefused,
    ];
    for &mistake in Mistake::ALL {
        if calls_alone.contains(&mistake) {
            continue;
        }
        let wrong =
            |header: &_, old: Option<&[_]>, new: &[_]| model::plan(header, old, new, Some(mistake));
        let found = (0..20_000).any(|seed| {
            generate::calls(Kind::Pages, seed, &dew)
                .iter()
                .chain(&generate::calls(Kind::Edges, seed, &dew))
                .any(|call| call.answer(&dew) != call.answer(&wrong))
        });
        assert!(found, "{mistake:?} was not found in 20,000 seeds");
    }
}
