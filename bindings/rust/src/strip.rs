//! Writes strips, pages as the planner reads them, and reads them back.

use std::error::Error;
use std::fmt;

use crate::geometry::{Affine, Header, Rect};

mod reader;

pub use reader::read;

/// A page's commands as bytes. Paths, brushes, fonts, dashes and scenes are content numbers of the caller's choice: equal
/// numbers have to mean equal things.
///
/// Everything that has bytes is written; whether a page can be planned is for the planner to say.
#[derive(Debug, Clone, Default, PartialEq, Eq)]
pub struct Strip {
    bytes: Vec<u8>,
}

/// A path with its box, placed and painted.
#[derive(Debug, Clone, Copy, PartialEq)]
pub struct Shape {
    /// The path's content number.
    pub path: u64,
    /// The path's box, before it is transformed.
    pub bounds: Rect,
    /// Where it is placed.
    pub affine: Affine,
    /// The paint's content number.
    pub brush: u64,
}

/// How a path is stroked.
#[derive(Debug, Clone, Copy, PartialEq)]
pub struct Stroke {
    /// Width of the line.
    pub width: f64,
    /// Its corners.
    pub join: Join,
    /// How far a mitred corner may reach.
    pub miter_limit: f64,
    /// Where it starts.
    pub start_cap: Cap,
    /// Where it ends.
    pub end_cap: Cap,
    /// The content number of the dash with its offset.
    pub dash: u64,
}

/// Corners of a stroke.
#[derive(Debug, Clone, Copy, PartialEq, Eq, Hash)]
#[allow(missing_docs)]
pub enum Join {
    Bevel = 0,
    Miter = 1,
    Round = 2,
}

/// Ends of a stroke.
#[derive(Debug, Clone, Copy, PartialEq, Eq, Hash)]
#[allow(missing_docs)]
pub enum Cap {
    Butt = 0,
    Square = 1,
    Round = 2,
}

/// A run of glyphs of one font.
#[derive(Debug, Clone, Copy, PartialEq)]
pub struct Run {
    /// The content number of the font with its index.
    pub font: u64,
    /// The font's size.
    pub size: f32,
    /// Where it is placed.
    pub affine: Affine,
    /// The paint's content number.
    pub brush: u64,
    /// The box that counts where there are no glyphs, before it is transformed.
    pub bounds: Rect,
}

/// A glyph at its place in a run.
#[derive(Debug, Clone, Copy, PartialEq)]
pub struct Glyph {
    /// Which glyph of the font.
    pub id: u32,
    /// Its place from left to right.
    pub x: f32,
    /// Its place from top to bottom.
    pub y: f32,
    /// The box of its ink, before it is transformed.
    pub bounds: Rect,
}

/// A recorded drawing.
#[derive(Debug, Clone, Copy, PartialEq)]
pub struct Scene {
    /// The recording's content number.
    pub content: u64,
    /// Which state of the recording.
    pub generation: u64,
    /// The content number of the table that its resources are looked up in.
    pub target: u64,
    /// Where it is placed.
    pub affine: Affine,
    /// The box it was recorded for, before it is transformed.
    pub bounds: Rect,
}

/// One command of a strip, as [`read`] finds it.
#[derive(Debug, Clone, PartialEq)]
#[allow(missing_docs)]
#[non_exhaustive]
pub enum Command {
    Clip(Rect),
    Pop,
    Fill(Shape),
    Stroke(Shape, Stroke),
    Run(Run, Vec<Glyph>),
    Scene(Scene),
}

/// A run with more glyphs than its count has room for: 65,535.
#[derive(Debug, Clone, Copy, PartialEq, Eq)]
pub struct TooManyGlyphs(
    /// How many there are.
    pub usize,
);

impl fmt::Display for TooManyGlyphs {
    fn fmt(&self, f: &mut fmt::Formatter<'_>) -> fmt::Result {
        write!(
            f,
            "a run of {} glyphs: a strip counts at most 65,535",
            self.0
        )
    }
}

impl Error for TooManyGlyphs {}

/// The strip table's bytes.
mod code {
    pub const END: u8 = 0;
    pub const CLIP: u8 = 1;
    pub const POP: u8 = 2;
    pub const FILL: u8 = 3;
    pub const STROKE: u8 = 4;
    pub const RUN: u8 = 5;
    pub const GLYPH: u8 = 6;
    pub const SCENE: u8 = 7;
}

impl Strip {
    /// A page without commands.
    #[must_use]
    pub fn new() -> Self {
        Self::default()
    }

    /// Opens a clip: what follows shows only within this box, until the matching [`Strip::pop`].
    pub fn clip(&mut self, bounds: Rect) -> &mut Self {
        self.bytes.push(code::CLIP);
        self.floats(bounds.edges())
    }

    /// Closes the innermost clip.
    pub fn pop(&mut self) -> &mut Self {
        self.bytes.push(code::POP);
        self
    }

    /// Fills a path.
    pub fn fill(&mut self, shape: Shape) -> &mut Self {
        self.bytes.push(code::FILL);
        self.shape(shape)
    }

    /// Strokes a path.
    pub fn stroke(&mut self, shape: Shape, stroke: Stroke) -> &mut Self {
        self.bytes.push(code::STROKE);
        self.shape(shape).floats([stroke.width]);
        self.bytes.push(stroke.join as u8);
        self.floats([stroke.miter_limit]);
        self.bytes
            .extend([stroke.start_cap as u8, stroke.end_cap as u8]);
        self.number(stroke.dash)
    }

    /// Draws a run of glyphs.
    ///
    /// # Errors
    ///
    /// Nothing is written where there are more glyphs than the count of a run has room for.
    pub fn run(&mut self, run: Run, glyphs: &[Glyph]) -> Result<&mut Self, TooManyGlyphs> {
        let count = u16::try_from(glyphs.len()).map_err(|_| TooManyGlyphs(glyphs.len()))?;
        self.bytes.push(code::RUN);
        self.number(run.font);
        self.bytes.extend(run.size.to_le_bytes());
        self.floats(run.affine.0)
            .number(run.brush)
            .floats(run.bounds.edges());
        self.bytes.extend(count.to_le_bytes());
        for glyph in glyphs {
            self.bytes.push(code::GLYPH);
            self.bytes.extend(glyph.id.to_le_bytes());
            self.bytes.extend(glyph.x.to_le_bytes());
            self.bytes.extend(glyph.y.to_le_bytes());
            self.floats(glyph.bounds.edges());
        }
        Ok(self)
    }

    /// Replays a recorded drawing.
    pub fn scene(&mut self, scene: Scene) -> &mut Self {
        self.bytes.push(code::SCENE);
        self.number(scene.content)
            .number(scene.generation)
            .number(scene.target)
            .floats(scene.affine.0)
            .floats(scene.bounds.edges())
    }

    /// Writes a command.
    ///
    /// # Errors
    ///
    /// As [`Strip::run`].
    pub fn push(&mut self, command: &Command) -> Result<&mut Self, TooManyGlyphs> {
        Ok(match command {
            Command::Clip(bounds) => self.clip(*bounds),
            Command::Pop => self.pop(),
            Command::Fill(shape) => self.fill(*shape),
            Command::Stroke(shape, stroke) => self.stroke(*shape, *stroke),
            Command::Run(run, glyphs) => return self.run(*run, glyphs),
            Command::Scene(scene) => self.scene(*scene),
        })
    }

    /// Removes all commands and keeps the memory.
    pub fn clear(&mut self) {
        self.bytes.clear();
    }

    /// The commands so far, without the end that [`Strip::end`] and [`next_input`] add.
    #[must_use]
    pub fn commands(&self) -> &[u8] {
        &self.bytes
    }

    /// Appends the commands and their END.
    pub fn end(&self, input: &mut Vec<u8>) {
        input.extend_from_slice(&self.bytes);
        input.push(code::END);
    }

    fn shape(&mut self, shape: Shape) -> &mut Self {
        self.number(shape.path)
            .floats(shape.bounds.edges())
            .floats(shape.affine.0)
            .number(shape.brush)
    }

    fn number(&mut self, number: u64) -> &mut Self {
        self.bytes.extend(number.to_le_bytes());
        self
    }

    fn floats<const N: usize>(&mut self, numbers: [f64; N]) -> &mut Self {
        for number in numbers {
            self.bytes.extend(number.to_le_bytes());
        }
        self
    }
}

/// The input of [`plan_first`](crate::plan_first).
#[must_use]
pub fn first_input(header: Header, page: &Strip) -> Vec<u8> {
    input(header, &[page])
}

/// The input of [`plan_next`](crate::plan_next).
#[must_use]
pub fn next_input(header: Header, old: &Strip, new: &Strip) -> Vec<u8> {
    input(header, &[old, new])
}

fn input(header: Header, pages: &[&Strip]) -> Vec<u8> {
    let commands: usize = pages.iter().map(|page| page.bytes.len() + 1).sum();
    let mut input = Vec::with_capacity(Header::LENGTH + commands);
    input.extend(header.bytes());
    for page in pages {
        page.end(&mut input);
    }
    input
}
