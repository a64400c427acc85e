//! Reads what [`Strip`](super::Strip) writes, for pictures and tests. The planner has a reader of its own, which is proved.

use super::{Cap, Command, Glyph, Join, Run, Scene, Shape, Stroke, code};
use crate::geometry::{Affine, Header, Rect};

/// The header of an input and the commands of its pages, one page or two; nothing where the bytes are cut off, or a byte is no
/// command. Whether the planner accepts them is for the planner to say.
#[must_use]
pub fn read(input: &[u8]) -> Option<(Header, Vec<Vec<Command>>)> {
    let header = Header::read(input)?;
    let mut reader = Reader(input.get(Header::LENGTH..)?);
    let mut pages = Vec::new();
    while !reader.0.is_empty() {
        pages.push(reader.page()?);
    }
    Some((header, pages))
}

struct Reader<'a>(&'a [u8]);

impl Reader<'_> {
    fn bytes<const N: usize>(&mut self) -> Option<[u8; N]> {
        let bytes = self.0.get(..N)?.try_into().ok()?;
        self.0 = &self.0[N..];
        Some(bytes)
    }

    fn byte(&mut self) -> Option<u8> {
        self.bytes().map(|[byte]| byte)
    }

    fn number(&mut self) -> Option<u64> {
        self.bytes().map(u64::from_le_bytes)
    }

    fn single(&mut self) -> Option<f32> {
        self.bytes().map(f32::from_le_bytes)
    }

    fn double(&mut self) -> Option<f64> {
        self.bytes().map(f64::from_le_bytes)
    }

    fn rect(&mut self) -> Option<Rect> {
        Some(Rect::new(
            self.double()?,
            self.double()?,
            self.double()?,
            self.double()?,
        ))
    }

    fn affine(&mut self) -> Option<Affine> {
        let mut affine = Affine::IDENTITY;
        for coefficient in &mut affine.0 {
            *coefficient = self.double()?;
        }
        Some(affine)
    }

    fn shape(&mut self) -> Option<Shape> {
        Some(Shape {
            path: self.number()?,
            bounds: self.rect()?,
            affine: self.affine()?,
            brush: self.number()?,
        })
    }

    fn join(&mut self) -> Option<Join> {
        let byte = usize::from(self.byte()?);
        [Join::Bevel, Join::Miter, Join::Round].get(byte).copied()
    }

    fn cap(&mut self) -> Option<Cap> {
        let byte = usize::from(self.byte()?);
        [Cap::Butt, Cap::Square, Cap::Round].get(byte).copied()
    }

    fn stroke(&mut self) -> Option<Stroke> {
        Some(Stroke {
            width: self.double()?,
            join: self.join()?,
            miter_limit: self.double()?,
            start_cap: self.cap()?,
            end_cap: self.cap()?,
            dash: self.number()?,
        })
    }

    fn run(&mut self) -> Option<Command> {
        let run = Run {
            font: self.number()?,
            size: self.single()?,
            affine: self.affine()?,
            brush: self.number()?,
            bounds: self.rect()?,
        };
        let count = self.bytes().map(u16::from_le_bytes)?;
        let glyphs = (0..count).map(|_| self.glyph()).collect::<Option<_>>()?;
        Some(Command::Run(run, glyphs))
    }

    fn glyph(&mut self) -> Option<Glyph> {
        if self.byte()? != code::GLYPH {
            return None;
        }
        Some(Glyph {
            id: self.bytes().map(u32::from_le_bytes)?,
            x: self.single()?,
            y: self.single()?,
            bounds: self.rect()?,
        })
    }

    fn scene(&mut self) -> Option<Scene> {
        Some(Scene {
            content: self.number()?,
            generation: self.number()?,
            target: self.number()?,
            affine: self.affine()?,
            bounds: self.rect()?,
        })
    }

    /// The commands up to END.
    fn page(&mut self) -> Option<Vec<Command>> {
        let mut page = Vec::new();
        loop {
            page.push(match self.byte()? {
                code::END => return Some(page),
                code::CLIP => Command::Clip(self.rect()?),
                code::POP => Command::Pop,
                code::FILL => Command::Fill(self.shape()?),
                code::STROKE => Command::Stroke(self.shape()?, self.stroke()?),
                code::RUN => self.run()?,
                code::SCENE => Command::Scene(self.scene()?),
                _ => return None,
            });
        }
    }
}
