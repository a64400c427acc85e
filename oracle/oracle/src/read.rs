//! The strip reader, from document 01's table. Checks are made in the table's
//! order, per command from left to right.

mod operands;

use kurbo::{Affine, Rect};

use crate::command::{Draw, Glyph, Op, code};
use crate::refusal::{
    BYTE_FOLLOWS, CODE, CUT_OFF, GLYPHS_DUE, LIMIT, NO_CLIP, NOT_FINITE, OVERFLOW, Refusal,
};
pub use operands::Operands;
use operands::Read;

/// Clips open at once, clips pushed, drawing commands and glyphs of one frame.
pub const OPEN_CLIPS: usize = 32;
pub const CLIPS: usize = 4_096;
pub const COMMANDS: usize = 4_096;
pub const GLYPHS: usize = 16_384;

/// A strip that was read to its END.
#[derive(Debug, Clone, PartialEq, Default)]
pub struct Strip {
    pub ops: Vec<Op>,
    /// Drawing commands, glyphs and pushed clips: what the space lent is
    /// compared with.
    pub commands: usize,
    pub glyphs: usize,
    pub clips: usize,
    /// The position after END.
    pub end: usize,
}

/// Reads one strip that begins at `start`.
pub fn strip(input: &[u8], start: usize) -> Result<Strip, Refusal> {
    let mut reader = Reader::default();
    let mut at = start;
    loop {
        let (byte, length) = command_byte(input, at, reader.due > 0)?;
        if byte == code::END {
            return Ok(Strip {
                end: at + length,
                ..reader.strip
            });
        }
        let operands = operands(input, at, byte, length)?;
        reader
            .effect(operands)
            .map_err(|number| Refusal::new(number, at))?;
        at += length;
    }
}

/// Number 8: nothing may follow the last END.
pub fn nothing_follows(input: &[u8], end: usize) -> Result<(), Refusal> {
    if input.len() > end {
        Err(Refusal::new(BYTE_FOLLOWS, end))
    } else {
        Ok(())
    }
}

/// The first command of some bytes, checked for nothing but its length: its
/// length and its operands, none for END.
#[must_use]
pub fn command_at(bytes: &[u8]) -> Option<(usize, Option<Operands>)> {
    let byte = *bytes.first()?;
    let length = code::length(byte)?;
    let operands = bytes.get(1..length)?;
    let command = (byte != code::END).then(|| Read::new(operands).operands(byte));
    Some((length, command))
}

/// The command byte with the command's length.
fn command_byte(input: &[u8], at: usize, due: bool) -> Result<(u8, usize), Refusal> {
    let Some(&byte) = input.get(at) else {
        return Err(Refusal::new(CUT_OFF, input.len()));
    };
    let Some(length) = code::length(byte) else {
        return Err(Refusal::new(CODE, at));
    };
    if (byte == code::GLYPH) == due {
        Ok((byte, length))
    } else {
        Err(Refusal::new(GLYPHS_DUE, at))
    }
}

/// The operands: whole, their codes known, their floats finite.
fn operands(input: &[u8], at: usize, byte: u8, length: usize) -> Result<Operands, Refusal> {
    let Some(bytes) = input.get(at + 1..at + length) else {
        return Err(Refusal::new(CUT_OFF, at));
    };
    let mut read = Read::new(bytes);
    let operands = read.operands(byte);
    if !read.codes_known {
        return Err(Refusal::new(CODE, at));
    }
    if !read.floats_finite {
        return Err(Refusal::new(NOT_FINITE, at));
    }
    Ok(operands)
}

/// What the commands so far have made of a frame.
#[derive(Default)]
struct Reader {
    strip: Strip,
    open: usize,
    /// Glyphs that the last RUN still lacks.
    due: u16,
    /// The union of the last RUN's glyph boxes, as given.
    united: Option<Rect>,
}

impl Reader {
    /// Applies a command, or names the number that refuses it.
    fn effect(&mut self, operands: Operands) -> Result<(), u8> {
        match operands {
            Operands::Clip(bounds) => self.clip(bounds),
            Operands::Pop => self.pop(),
            Operands::Draw(draw, count) => self.draw(draw, count),
            Operands::Glyph(glyph) => self.glyph(glyph),
        }
    }

    fn clip(&mut self, bounds: Rect) -> Result<(), u8> {
        if self.open == OPEN_CLIPS || self.strip.clips == CLIPS {
            return Err(LIMIT);
        }
        self.open += 1;
        self.strip.clips += 1;
        self.strip.ops.push(Op::Clip(bounds));
        Ok(())
    }

    fn pop(&mut self) -> Result<(), u8> {
        self.open = self.open.checked_sub(1).ok_or(NO_CLIP)?;
        self.strip.ops.push(Op::Pop);
        Ok(())
    }

    fn draw(&mut self, draw: Draw, count: u16) -> Result<(), u8> {
        if self.strip.commands == COMMANDS {
            return Err(LIMIT);
        }
        match &draw {
            Draw::Fill(shape) => finite(shape.affine, shape.bounds)?,
            Draw::Stroke(shape, pen) => {
                let inflation = pen.inflation();
                finite(shape.affine, shape.bounds.inflate(inflation, inflation))?;
            }
            Draw::Run(run) if count == 0 => finite(run.affine, run.bounds)?,
            // With glyphs the own box is not used, so it is not tested either.
            Draw::Run(_) => {}
            Draw::Scene(scene) => finite(scene.affine, scene.bounds)?,
        }
        self.strip.commands += 1;
        self.strip.ops.push(Op::Draw(draw));
        self.due = count;
        self.united = None;
        Ok(())
    }

    fn glyph(&mut self, glyph: Glyph) -> Result<(), u8> {
        if self.strip.glyphs == GLYPHS {
            return Err(LIMIT);
        }
        let Some(Op::Draw(Draw::Run(run))) = self.strip.ops.last_mut() else {
            unreachable!("a glyph is due only after a run");
        };
        finite(run.affine, glyph.bounds)?;
        let united = self
            .united
            .map_or(glyph.bounds, |united| united.union(glyph.bounds));
        if self.due == 1 {
            // Its corners mix edges of two glyphs, so it is tested by itself.
            finite(run.affine, united)?;
        }
        run.glyphs.push(glyph);
        self.united = Some(united);
        self.strip.glyphs += 1;
        self.due -= 1;
        Ok(())
    }
}

/// Number 9: every edge and every transformed corner is finite.
fn finite(affine: Affine, bounds: Rect) -> Result<(), u8> {
    let edges = bounds.edges().iter().all(|edge| edge.is_finite());
    let corners = affine
        .corners(bounds)
        .iter()
        .all(|(x, y)| x.is_finite() && y.is_finite());
    if edges && corners {
        Ok(())
    } else {
        Err(OVERFLOW)
    }
}
