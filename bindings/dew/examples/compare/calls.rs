//! Generated calls through the library and through another planner, compared in all that they answer and leave behind.

use std::fmt;
use std::ops::Range;

use oracle::calls::{Call, Request};
use oracle::entry::{Accepted, Entry, call};
use oracle::generate::{self, Kind};
use oracle::header::Header;
use oracle::plan::Planner;
use sovdringa::Limits;

#[path = "../../../rust/tests/common/slices.rs"]
mod slices;

use slices::Slices;

/// How many calls were alike, and how they were answered: with a plan or row, or with a number.
#[derive(Debug, Default, Clone, PartialEq, Eq)]
pub struct Tally {
    pub calls: u64,
    pub accepted: u64,
    pub refused: [u64; 12],
}

impl Tally {
    pub fn add(&mut self, other: &Self) {
        self.calls += other.calls;
        self.accepted += other.accepted;
        for (sum, count) in self.refused.iter_mut().zip(other.refused) {
            *sum += count;
        }
    }

    fn count(&mut self, number: u32) {
        self.calls += 1;
        match number {
            0 => self.accepted += 1,
            _ => self.refused[number as usize] += 1,
        }
    }
}

impl fmt::Display for Tally {
    fn fmt(&self, f: &mut fmt::Formatter<'_>) -> fmt::Result {
        write!(f, "{} calls, {} accepted", self.calls, self.accepted)?;
        for (number, count) in self.refused.iter().enumerate() {
            if *count > 0 {
                write!(f, ", {count} refused {number}")?;
            }
        }
        Ok(())
    }
}

/// A call on which the two differ.
#[derive(Debug)]
pub struct Difference {
    kind: Kind,
    seed: u64,
    what: String,
    call: Call,
}

impl fmt::Display for Difference {
    fn fmt(&self, f: &mut fmt::Formatter<'_>) -> fmt::Result {
        writeln!(f, "{} seed {}: {}", self.kind.name(), self.seed, self.what)?;
        write!(f, "{}", self.call.described().join("\n"))
    }
}

/// All calls of a kind and some seeds.
pub fn compare(kind: Kind, seeds: Range<u64>, planner: Planner) -> Result<Tally, Box<Difference>> {
    let mut tally = Tally::default();
    for seed in seeds {
        for call in generate::calls(kind, seed, planner) {
            match one(&call, planner) {
                Ok(number) => tally.count(number),
                Err(what) => {
                    return Err(Box::new(Difference {
                        kind,
                        seed,
                        what,
                        call,
                    }));
                }
            }
        }
    }
    Ok(tally)
}

/// The number of a call's answer, or in what the two differ.
fn one(call: &Call, planner: Planner) -> Result<u32, String> {
    match &call.request {
        Request::Frame { entry, space } => {
            let [commands, glyphs, clips, rectangles, regions, index_words] = space.items();
            let limits = Limits::default()
                .with_commands(commands)
                .with_glyphs(glyphs)
                .with_clips(clips)
                .with_rectangles(rectangles)
                .with_regions(regions)
                .with_index_words(index_words);
            frame(
                *entry,
                &call.input,
                limits,
                self::call(planner, *entry, &call.input, *space),
            )
        }
        Request::Candidates => {
            let mut words = call
                .input
                .chunks_exact(4)
                .map(|word| u32::from_le_bytes(word.try_into().expect("four bytes")));
            let mut next = || words.next().unwrap_or(0);
            let header = Header {
                width: next(),
                height: next(),
                band_height: next(),
            };
            let y = next();
            candidates(header, y, &words.collect::<Vec<u32>>())
        }
    }
}

fn same<T: PartialEq + fmt::Debug>(what: &str, ours: T, expected: T) -> Result<(), String> {
    if ours == expected {
        Ok(())
    } else {
        Err(format!(
            "{what}: the library has {ours:?}, expected is {expected:?}"
        ))
    }
}

/// A row of the index, from any words.
fn candidates(header: Header, y: u32, words: &[u32]) -> Result<u32, String> {
    let sizes = sovdringa::Header::new(header.width, header.height, header.band_height);
    let expected = oracle::candidates::candidates(header, y, words)
        .map_err(|refusal| (u32::from(refusal.number), refusal.at));
    let ours = sovdringa::candidates(sizes, y, words)
        .map_err(|refusal| (refusal.number(), refusal.position));
    same("candidates", ours, expected)?;
    Ok(ours.map_or_else(|(number, _)| number, |_| 0))
}

/// A frame in space of which every word is filled beforehand and looked at afterwards.
fn frame(
    entry: Entry,
    input: &[u8],
    limits: Limits,
    expected: Result<Accepted, oracle::refusal::Refusal>,
) -> Result<u32, String> {
    let mut slices = Slices::filled(limits);
    let before = slices.clone();
    let mut lent = slices.lend();
    let answer = match entry {
        Entry::First => lent.plan_first(input),
        Entry::Later => lent.plan_next(input),
    };
    same("scratch is zero", slices.scratch_is_zero(), true)?;
    let (rects, regions, words) = slices.output();
    let (old_rects, old_regions, old_words) = before.output();
    let accepted = match expected {
        Ok(accepted) => accepted,
        Err(refusal) => {
            same(
                "refusal",
                answer
                    .map_err(|refusal| (refusal.number(), refusal.position))
                    .err(),
                Some((u32::from(refusal.number), refusal.at)),
            )?;
            same(
                "output after a refusal",
                (rects, regions, words),
                before.output(),
            )?;
            return Ok(refusal.number.into());
        }
    };
    let counts = answer.map_err(|refusal| format!("the library: {refusal}; expected is a plan"))?;
    let plan = &accepted.plan;
    same("rectangles", counts.rectangles, plan.dirty.len())?;
    same("regions", counts.regions as u64, plan.regions_transferred)?;
    same("index words", counts.index_words, plan.words.len())?;
    same("pixels", counts.pixels, plan.pixels_transferred)?;
    same("commands", counts.commands, plan.commands_emitted)?;
    // By bits; which zero an edge is, is open.
    let bits = |edge: f64| (edge + 0.0).to_bits();
    let (rects, kept) = rects.split_at(4 * counts.rectangles);
    let ours: Vec<u64> = rects.iter().copied().map(bits).collect();
    let dews: Vec<u64> = plan
        .dirty
        .iter()
        .flat_map(|rect| rect.edges())
        .map(bits)
        .collect();
    same("edges", ours, dews)?;
    same(
        "words past the rectangles",
        kept,
        &old_rects[4 * counts.rectangles..],
    )?;
    let (regions, kept) = regions.split_at(4 * counts.regions);
    let dews: Vec<u32> = plan
        .regions
        .iter()
        .flat_map(|region| [region.x, region.y, region.width, region.height])
        .collect();
    same("regions", regions, &dews)?;
    same(
        "words past the regions",
        kept,
        &old_regions[4 * counts.regions..],
    )?;
    let (words, kept) = words.split_at(counts.index_words);
    same("index", words, &plan.words)?;
    same(
        "words past the index",
        kept,
        &old_words[counts.index_words..],
    )?;
    // Each region's row, and the row below the last.
    for region in &plan.regions {
        candidates(accepted.header, region.y, words)?;
    }
    candidates(
        accepted.header,
        accepted.header.rows() * accepted.header.band_height,
        words,
    )?;
    Ok(0)
}
