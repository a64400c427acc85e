//! The two entries: read, plan, compare with the space lent.

use crate::command::Op;
use crate::header::{self, Header};
use crate::plan::{Plan, Planner};
use crate::read;
use crate::refusal::{Refusal, SPACE};
use crate::space::Space;

#[derive(Debug, Clone, Copy, PartialEq, Eq)]
pub enum Entry {
    /// Header and one strip.
    First,
    /// Header, old strip, new strip.
    Later,
}

/// An input that numbers 1 to 9 let pass.
#[derive(Debug, Clone, PartialEq)]
pub struct Frame {
    pub header: Header,
    pub old: Option<Vec<Op>>,
    pub new: Vec<Op>,
    /// Commands, glyphs and clips of both strips.
    pub items: [usize; 3],
}

/// An accepted frame with the least space that would have done.
#[derive(Debug, Clone, PartialEq)]
pub struct Accepted {
    pub header: Header,
    pub plan: Plan,
    pub used: Space,
}

/// Reads an input whole.
pub fn read(entry: Entry, input: &[u8]) -> Result<Frame, Refusal> {
    let header = Header::read(input)?;
    let old = match entry {
        Entry::First => None,
        Entry::Later => Some(read::strip(input, header::LENGTH)?),
    };
    let start = old.as_ref().map_or(header::LENGTH, |old| old.end);
    let new = read::strip(input, start)?;
    read::nothing_follows(input, new.end)?;
    let items = [&new]
        .into_iter()
        .chain(&old)
        .fold([0; 3], |[commands, glyphs, clips], strip| {
            [
                commands + strip.commands,
                glyphs + strip.glyphs,
                clips + strip.clips,
            ]
        });
    Ok(Frame {
        header,
        old: old.map(|old| old.ops),
        new: new.ops,
        items,
    })
}

/// The answer of an entry.
pub fn call(
    planner: Planner,
    entry: Entry,
    input: &[u8],
    lent: Space,
) -> Result<Accepted, Refusal> {
    let Frame {
        header,
        old,
        new,
        items: [commands, glyphs, clips],
    } = read(entry, input)?;
    let plan = planner(&header, old.as_deref(), &new);
    let used = Space {
        commands,
        glyphs,
        clips,
        rectangles: plan.dirty.len(),
        regions: plan.regions.len(),
        words: plan.words.len(),
    };
    if lent.holds(&used) {
        Ok(Accepted { header, plan, used })
    } else {
        Err(Refusal::new(SPACE, 0))
    }
}
