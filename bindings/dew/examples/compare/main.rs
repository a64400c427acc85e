//! Runs generated calls through the proved library and through dew, in one process, and compares number, position, rectangles by
//! the bits of their edges, regions, index words, counters, rows, and every word of the space lent.
//!
//! `compare A..B [KIND].. [--mistake NAME]`: seeds A to B (not included) of the kinds named, or of all. With a mistake, document 01's
//! planner with that mistake stands in dew's place, and the comparison has to fail.

mod calls;

use std::ops::Range;
use std::process::ExitCode;

use oracle::command::Op;
use oracle::generate::Kind;
use oracle::header::Header;
use oracle::model::{self, mistake::Mistake};
use oracle::planners;

use calls::{Tally, compare};

/// Kinds with few seeds of their own: the document's 18 cases, and inputs of megabytes.
const DOCUMENT_SEEDS: u64 = 18;
const LIMIT_SEEDS: u64 = 2_600;

fn seeds(kind: Kind, seeds: &Range<u64>) -> Range<u64> {
    let end = match kind {
        Kind::Document => seeds.end.min(DOCUMENT_SEEDS),
        Kind::Limits => seeds.end.min(LIMIT_SEEDS),
        _ => seeds.end,
    };
    seeds.start.min(end)..end
}

fn main() -> ExitCode {
    match run(std::env::args().skip(1).collect()) {
        Ok(()) => ExitCode::SUCCESS,
        Err(message) => {
            eprintln!("compare: {message}");
            ExitCode::FAILURE
        }
    }
}

fn run(mut words: Vec<String>) -> Result<(), String> {
    let mistake = match words.iter().position(|word| word == "--mistake") {
        None => None,
        Some(place) => {
            let name = words
                .get(place + 1)
                .ok_or("--mistake is followed by nothing")?;
            let mistake = Mistake::named(name).ok_or_else(|| format!("{name} is no mistake"))?;
            words.drain(place..place + 2);
            Some(mistake)
        }
    };
    let range = words
        .first()
        .and_then(|word| word.split_once(".."))
        .and_then(|(start, end)| Some(start.parse().ok()?..end.parse().ok()?))
        .ok_or("compare A..B [KIND].. [--mistake NAME]")?;
    let kinds: Vec<Kind> = match &words[1..] {
        [] => Kind::ALL.iter().map(|(_, kind)| *kind).collect(),
        names => names
            .iter()
            .map(|name| Kind::named(name).ok_or_else(|| format!("{name} is no kind")))
            .collect::<Result<_, _>>()?,
    };
    let with_mistake =
        |header: &Header, old: Option<&[Op]>, new: &[Op]| model::plan(header, old, new, mistake);
    let dew = planners::dew();
    let planner: oracle::plan::Planner = match (&mistake, &dew) {
        (Some(_), _) => &with_mistake,
        (None, Some(dew)) => dew,
        (None, None) => {
            println!(
                "compare: dew's source is not beside the repository: nothing is compared and nothing counted"
            );
            return Ok(());
        }
    };
    let mut total = Tally::default();
    for kind in kinds {
        let seeds = seeds(kind, &range);
        match compare(kind, seeds.clone(), planner) {
            Ok(tally) => {
                println!(
                    "{}: seeds {}..{} alike: {tally}",
                    kind.name(),
                    seeds.start,
                    seeds.end
                );
                total.add(&tally);
            }
            Err(difference) => return Err(difference.to_string()),
        }
    }
    println!("alike: {total}");
    Ok(())
}
