//! Generated calls of every kind, the library beside dew; and that planted mistakes are found.
#![cfg(dew)]

#[path = "../examples/compare/calls.rs"]
mod calls;

use calls::{Tally, compare};
use oracle::command::Op;
use oracle::generate::Kind;
use oracle::header::Header;
use oracle::model::{self, mistake::Mistake};
use oracle::planners;

#[test]
fn calls_of_every_kind() {
    let dew = planners::dew().expect("dew's source is here");
    let mut total = Tally::default();
    for (_, kind) in Kind::ALL {
        let seeds = match kind {
            Kind::Document => 18,
            Kind::Limits => 60,
            _ => 1_500,
        };
        match compare(kind, 0..seeds, &dew) {
            Ok(tally) => total.add(&tally),
            Err(difference) => panic!("{difference}"),
        }
    }
    assert!(
        total.refused[1..].iter().all(|count| *count > 0),
        "every number: {total}"
    );
    println!("sovdringa_dew: {total}");
}

#[test]
fn planted_mistakes_are_found() {
    // These three are mistakes in feeding calls, not in a plan.
    let of_calls = [
        Mistake::CandidatesOfTheNextRow,
        Mistake::AgainstThePreviousFrame,
        Mistake::EveryStripRefused,
    ];
    for mistake in Mistake::ALL {
        if of_calls.contains(mistake) {
            continue;
        }
        let wrong = |header: &Header, old: Option<&[Op]>, new: &[Op]| {
            model::plan(header, old, new, Some(*mistake))
        };
        let kinds = [Kind::Document, Kind::Pages, Kind::Edges];
        let found = kinds.iter().any(|kind| {
            compare(
                *kind,
                0..if *kind == Kind::Document { 18 } else { 3_000 },
                &wrong,
            )
            .is_err()
        });
        assert!(found, "{mistake:?} was not found");
    }
}
