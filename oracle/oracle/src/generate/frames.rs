//! Lists of frames under one header, refused ones among them, each with its
//! lent space: what the two panels are fed.

use super::pages::{self, draw};
use super::{damage, edits, space};
use crate::calls::{Call, Request};
use crate::command::Op;
use crate::entry::{Entry, call};
use crate::header::Header;
use crate::plan::Planner;
use crate::random::Random;
use crate::space::Space;
use crate::write;

/// A strip of any bytes with the space lent for it.
#[derive(Debug, Clone, PartialEq, Eq)]
pub struct Frame {
    pub strip: Vec<u8>,
    pub space: Space,
}

#[derive(Debug, Clone, PartialEq, Eq)]
pub struct List {
    pub header: Header,
    pub frames: Vec<Frame>,
}

/// What an entry is given for a frame.
#[must_use]
pub fn call_input(header: &Header, last: Option<&[u8]>, strip: &[u8]) -> (Entry, Vec<u8>) {
    let mut input = header.bytes();
    let entry = match last {
        None => Entry::First,
        Some(last) => {
            input.extend(last);
            Entry::Later
        }
    };
    input.extend(strip);
    (entry, input)
}

/// The list of a seed, on a screen small enough to paint.
#[must_use]
pub fn list(seed: u64, planner: Planner) -> List {
    let mut random = Random::new("frames", seed);
    let random = &mut random;
    let header = small(random);
    let mut ops = page(random, &header);
    let mut last: Option<Vec<u8>> = None;
    let mut frames = Vec::new();
    for number in 0..3 + random.below(4) {
        if number > 0 {
            ops = match random.below(8) {
                0 => page(random, &header),
                _ => edits::edited(random, &header, &ops),
            };
        }
        let mut strip = write::strip(&ops);
        if random.one_in(8) {
            damage::damage(&mut strip, 0, random);
        }
        let (entry, input) = call_input(&header, last.as_deref(), &strip);
        let space = space(entry, &input, planner, random);
        if call(planner, entry, &input, space).is_ok() {
            last = Some(strip.clone());
        }
        frames.push(Frame { strip, space });
    }
    List { header, frames }
}

/// The calls that a list makes when refusals are as the planner says.
#[must_use]
pub fn calls(seed: u64, planner: Planner) -> Vec<Call> {
    let List { header, frames } = list(seed, planner);
    let mut last: Option<Vec<u8>> = None;
    frames
        .into_iter()
        .map(|Frame { strip, space }| {
            let (entry, input) = call_input(&header, last.as_deref(), &strip);
            if call(planner, entry, &input, space).is_ok() {
                last = Some(strip);
            }
            Call {
                request: Request::Frame { entry, space },
                input,
            }
        })
        .collect()
}

fn small(random: &mut Random) -> Header {
    Header {
        width: random.between(1, 12) as u32,
        height: random.between(1, 12) as u32,
        band_height: random.between(1, 13) as u32,
    }
}

/// A page of few commands, so that what one hides another does not paint over.
fn page(random: &mut Random, header: &Header) -> Vec<Op> {
    if random.one_in(6) {
        return pages::page(random, header);
    }
    let mut ops = Vec::new();
    let mut open = 0;
    for _ in 0..random.below(6) {
        if random.one_in(3) {
            ops.push(Op::Clip(pages::clip(random, header)));
            open += 1;
        }
        ops.push(draw(random, header));
        if open > 0 && random.one_in(2) {
            ops.push(Op::Pop);
            open -= 1;
        }
    }
    ops
}
