//! The plan program: standard input in, one text out.

use crate::entry::{Accepted, Entry, call};
use crate::plan::Planner;
use crate::refusal::{Refusal, SPACE};
use crate::space::Space;

/// The most bytes the program takes.
pub const LONGEST: usize = 65_536;

/// The program's answer to an input.
pub fn answer(planner: Planner, input: &[u8]) -> Result<Accepted, Refusal> {
    if input.len() > LONGEST {
        return Err(Refusal::new(SPACE, 0));
    }
    call(planner, Entry::Later, input, Space::PROGRAM)
}
