//! What a strip says, as plain values. A strip is a list of operations; drawing
//! commands take the clips that stand open where they are met.

use kurbo::{Affine, Cap, Join, Rect};

/// The strip table's bytes.
pub mod code {
    pub const END: u8 = 0;
    pub const CLIP: u8 = 1;
    pub const POP: u8 = 2;
    pub const FILL: u8 = 3;
    pub const STROKE: u8 = 4;
    pub const RUN: u8 = 5;
    pub const GLYPH: u8 = 6;
    pub const SCENE: u8 = 7;

    /// A command's length in bytes, if there is such a command.
    #[must_use]
    pub const fn length(byte: u8) -> Option<usize> {
        Some(match byte {
            END | POP => 1,
            CLIP => 33,
            FILL => 97,
            STROKE => 124,
            RUN => 103,
            GLYPH => 45,
            SCENE => 105,
            _ => return None,
        })
    }
}

/// One operation of a strip, without END.
#[derive(Debug, Clone, PartialEq)]
pub enum Op {
    Clip(Rect),
    Pop,
    Draw(Draw),
}

/// A drawing command's operands. Comparison is by value, so -0 equals 0.
#[derive(Debug, Clone, PartialEq)]
pub enum Draw {
    Fill(Shape),
    Stroke(Shape, Pen),
    Run(Run),
    Scene(Scene),
}

/// A path with its box, placed and painted.
#[derive(Debug, Clone, PartialEq)]
pub struct Shape {
    pub path: u64,
    pub bounds: Rect,
    pub affine: Affine,
    pub brush: u64,
}

/// What STROKE adds to FILL.
#[derive(Debug, Clone, PartialEq)]
pub struct Pen {
    pub width: f64,
    pub join: Join,
    pub miter_limit: f64,
    pub start_cap: Cap,
    pub end_cap: Cap,
    pub dash: u64,
}

/// A RUN with its GLYPHs.
#[derive(Debug, Clone, PartialEq)]
pub struct Run {
    pub font: u64,
    pub size: f32,
    pub affine: Affine,
    pub brush: u64,
    pub bounds: Rect,
    pub glyphs: Vec<Glyph>,
}

#[derive(Debug, Clone, Copy, PartialEq)]
pub struct Glyph {
    pub id: u32,
    pub x: f32,
    pub y: f32,
    pub bounds: Rect,
}

#[derive(Debug, Clone, PartialEq)]
pub struct Scene {
    pub content: u64,
    pub generation: u64,
    pub target: u64,
    pub affine: Affine,
    pub bounds: Rect,
}

impl Pen {
    /// How far the stroke reaches beyond the path's box.
    #[must_use]
    pub fn inflation(&self) -> f64 {
        let join_scale = match self.join {
            Join::Miter => self.miter_limit.max(1.0),
            Join::Bevel | Join::Round => 1.0,
        };
        let square = self.start_cap == Cap::Square || self.end_cap == Cap::Square;
        let cap_scale = if square {
            f64::from_bits(0x3FF6_A09E_667F_3BCD)
        } else {
            1.0
        };
        self.width / 2.0 * join_scale.max(cap_scale)
    }
}
