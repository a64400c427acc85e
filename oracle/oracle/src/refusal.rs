//! Where and why a frame is turned away.

use std::fmt;

/// A number of document 01's table and a byte position in the whole input.
#[derive(Debug, Clone, Copy, PartialEq, Eq)]
pub struct Refusal {
    pub number: u8,
    pub at: usize,
}

impl Refusal {
    #[must_use]
    pub const fn new(number: u8, at: usize) -> Self {
        Self { number, at }
    }
}

impl fmt::Display for Refusal {
    fn fmt(&self, f: &mut fmt::Formatter<'_>) -> fmt::Result {
        write!(f, "refused {} at {}", self.number, self.at)
    }
}

/// The table's numbers by their meaning.
pub const SIZE: u8 = 1;
pub const CUT_OFF: u8 = 2;
pub const CODE: u8 = 3;
pub const NOT_FINITE: u8 = 4;
pub const NO_CLIP: u8 = 5;
pub const LIMIT: u8 = 6;
pub const GLYPHS_DUE: u8 = 7;
pub const BYTE_FOLLOWS: u8 = 8;
pub const OVERFLOW: u8 = 9;
pub const SPACE: u8 = 10;
pub const ROW: u8 = 11;
