//! Inputs by kind and seed: the same everywhere, so a difference is named by
//! two words.

pub mod coordinates;
pub mod damage;
pub mod document;
pub mod edges;
pub mod edits;
pub mod frames;
pub mod limits;
pub mod pages;
pub mod table;
pub mod tiny;

use crate::calls::{Call, Request};
use crate::entry::{Entry, call};
use crate::header;
use crate::plan::Planner;
use crate::random::Random;
use crate::space::Space;

#[derive(Debug, Clone, Copy, PartialEq, Eq)]
pub enum Kind {
    /// Document 01's example and its edges to hold, one a seed.
    Document,
    /// Screens full of cells, text, rules and scenes, edited here and there.
    Pages,
    /// Boxes at and beside band edges to the last bit.
    Edges,
    /// Valid inputs with bytes flipped, cut, inserted and appended.
    Damage,
    /// One past each limit, and at it.
    Limits,
    /// A table of districts and its next release.
    Table,
    /// A few bytes, meant to be refused for every reason.
    Tiny,
    /// First frames.
    First,
    /// Lists of frames under one header, each with its space.
    Frames,
    /// `candidates` with words as planned, and damaged.
    Candidates,
}

impl Kind {
    pub const ALL: [(&'static str, Self); 10] = [
        ("document", Self::Document),
        ("pages", Self::Pages),
        ("edges", Self::Edges),
        ("damage", Self::Damage),
        ("limits", Self::Limits),
        ("table", Self::Table),
        ("tiny", Self::Tiny),
        ("first", Self::First),
        ("frames", Self::Frames),
        ("candidates", Self::Candidates),
    ];

    #[must_use]
    pub fn named(name: &str) -> Option<Self> {
        Self::ALL
            .iter()
            .find(|(known, _)| *known == name)
            .map(|(_, kind)| *kind)
    }

    #[must_use]
    pub fn name(self) -> &'static str {
        Self::ALL
            .iter()
            .find(|(_, kind)| *kind == self)
            .map_or("", |(name, _)| name)
    }
}

/// An input for the plan program, or nothing for the kinds that it cannot take.
#[must_use]
pub fn input(kind: Kind, seed: u64) -> Option<Vec<u8>> {
    let mut random = Random::new(kind.name(), seed);
    match kind {
        Kind::Document => Some(document::input(seed)),
        Kind::Pages => Some(pages::input(&mut random)),
        Kind::Edges => Some(edges::input(&mut random)),
        Kind::Damage => Some(damage::input(&mut random)),
        Kind::Limits => Some(limits::input(seed, &mut random)),
        Kind::Table => Some(table::input(&mut random)),
        Kind::Tiny => Some(tiny::input(&mut random)),
        Kind::First | Kind::Frames | Kind::Candidates => None,
    }
}

/// The same as calls of the entries, with space lent. The planner says how much
/// space a frame needs, so that just enough and just too little are lent too.
#[must_use]
pub fn calls(kind: Kind, seed: u64, planner: Planner) -> Vec<Call> {
    let mut random = Random::new("space", seed);
    match kind {
        Kind::Frames => frames::calls(seed, planner),
        Kind::First => {
            let input = first(&mut Random::new(kind.name(), seed));
            vec![lent(Entry::First, input, planner, &mut random)]
        }
        Kind::Candidates => {
            vec![words(&mut Random::new(kind.name(), seed), planner)]
        }
        Kind::Document => vec![enough(document::input(seed), planner)],
        Kind::Pages | Kind::Edges | Kind::Damage | Kind::Limits | Kind::Table | Kind::Tiny => {
            let input = input(kind, seed).expect("these kinds are the program's");
            vec![lent(Entry::Later, input, planner, &mut random)]
        }
    }
}

/// A call with just enough space.
fn enough(input: Vec<u8>, planner: Planner) -> Call {
    let accepted = call(planner, Entry::Later, &input, Space::AMPLE)
        .expect("the document's cases are accepted");
    Call {
        request: Request::Frame {
            entry: Entry::Later,
            space: accepted.used,
        },
        input,
    }
}

/// A call with space that is more than enough, just enough, or one item short.
fn lent(entry: Entry, input: Vec<u8>, planner: Planner, random: &mut Random) -> Call {
    let space = space(entry, &input, planner, random);
    Call {
        request: Request::Frame { entry, space },
        input,
    }
}

/// Space for a frame: what it needs, sometimes more, sometimes less by one in one
/// place. A frame that is refused before its space is looked at gets any.
#[must_use]
pub fn space(entry: Entry, input: &[u8], planner: Planner, random: &mut Random) -> Space {
    let Ok(accepted) = call(planner, entry, input, Space::AMPLE) else {
        return Space::of_items(std::array::from_fn(|_| random.below(40)));
    };
    let needed = accepted.used.items();
    let more = random.pick(&[0, 0, 1, 40]);
    let mut items = needed.map(|items| items + more);
    if random.one_in(4) {
        let short = random.below(items.len());
        items[short] = needed[short].saturating_sub(1);
    }
    Space::of_items(items)
}

fn first(random: &mut Random) -> Vec<u8> {
    match random.below(4) {
        0 => tiny::first(random),
        1 => {
            let mut input = pages::first(random);
            damage::damage(&mut input, header::LENGTH, random);
            input
        }
        _ => pages::first(random),
    }
}

/// A row of a plan's words, which are whole, damaged or cut.
fn words(random: &mut Random, planner: Planner) -> Call {
    let input = pages::input(random);
    let accepted = call(planner, Entry::Later, &input, Space::AMPLE).expect("pages are accepted");
    let (mut header, mut words) = (accepted.header, accepted.plan.words);
    let beyond = i64::from(header.height) + 2 * i64::from(header.band_height);
    let y = match random.below(8) {
        0 => random.word() as u32,
        _ => random.between(0, beyond) as u32,
    };
    match random.below(6) {
        0 => words.truncate(random.below(words.len() + 1)),
        1 => {
            let starts = header.rows() as usize + 1;
            let place = random.below(starts);
            words[place] = random.pick(&[0, 1, words[place] + 1, u32::MAX]);
        }
        2 => {
            let wrong = random.pick(&[0, 32_769, u32::MAX]);
            match random.below(3) {
                0 => header.width = wrong,
                1 => header.height = wrong,
                _ => header.band_height = wrong,
            }
        }
        _ => {}
    }
    Call {
        request: Request::Candidates,
        input: crate::calls::candidates_input(header, y, &words),
    }
}
