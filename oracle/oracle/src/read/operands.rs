//! Operands, read whole. Codes and floats are noted and not refused here: all
//! codes of a command come before all its floats in the table.

use kurbo::{Affine, Cap, Join, Rect};

use crate::command::{Draw, Glyph, Pen, Run, Scene, Shape, code};

/// A command's operands; a drawing command with the glyphs it announces.
pub enum Operands {
    Clip(Rect),
    Pop,
    Draw(Draw, u16),
    Glyph(Glyph),
}

pub struct Read<'bytes> {
    bytes: &'bytes [u8],
    pub codes_known: bool,
    pub floats_finite: bool,
}

impl<'bytes> Read<'bytes> {
    pub const fn new(bytes: &'bytes [u8]) -> Self {
        Self {
            bytes,
            codes_known: true,
            floats_finite: true,
        }
    }

    /// The operands of a command whose length was checked.
    pub fn operands(&mut self, byte: u8) -> Operands {
        match byte {
            code::CLIP => Operands::Clip(self.rect()),
            code::POP => Operands::Pop,
            code::FILL => Operands::Draw(Draw::Fill(self.shape()), 0),
            code::STROKE => Operands::Draw(Draw::Stroke(self.shape(), self.pen()), 0),
            code::RUN => self.run(),
            code::GLYPH => Operands::Glyph(self.glyph()),
            code::SCENE => Operands::Draw(Draw::Scene(self.scene()), 0),
            _ => unreachable!("the command byte was checked"),
        }
    }

    fn take<const LENGTH: usize>(&mut self) -> [u8; LENGTH] {
        let (head, rest) = self
            .bytes
            .split_first_chunk()
            .expect("the command's length was checked");
        self.bytes = rest;
        *head
    }

    fn u8(&mut self) -> u8 {
        let [byte] = self.take();
        byte
    }

    fn u32(&mut self) -> u32 {
        u32::from_le_bytes(self.take())
    }

    fn u64(&mut self) -> u64 {
        u64::from_le_bytes(self.take())
    }

    fn f32(&mut self) -> f32 {
        let number = f32::from_le_bytes(self.take());
        self.floats_finite &= number.is_finite();
        number
    }

    fn f64(&mut self) -> f64 {
        let number = f64::from_le_bytes(self.take());
        self.floats_finite &= number.is_finite();
        number
    }

    fn rect(&mut self) -> Rect {
        Rect::new(self.f64(), self.f64(), self.f64(), self.f64())
    }

    fn affine(&mut self) -> Affine {
        Affine(std::array::from_fn(|_| self.f64()))
    }

    fn join(&mut self) -> Join {
        match self.u8() {
            0 => Join::Bevel,
            1 => Join::Miter,
            2 => Join::Round,
            _ => {
                self.codes_known = false;
                Join::Bevel
            }
        }
    }

    fn cap(&mut self) -> Cap {
        match self.u8() {
            0 => Cap::Butt,
            1 => Cap::Square,
            2 => Cap::Round,
            _ => {
                self.codes_known = false;
                Cap::Butt
            }
        }
    }

    fn shape(&mut self) -> Shape {
        Shape {
            path: self.u64(),
            bounds: self.rect(),
            affine: self.affine(),
            brush: self.u64(),
        }
    }

    fn pen(&mut self) -> Pen {
        Pen {
            width: self.f64(),
            join: self.join(),
            miter_limit: self.f64(),
            start_cap: self.cap(),
            end_cap: self.cap(),
            dash: self.u64(),
        }
    }

    fn run(&mut self) -> Operands {
        let run = Run {
            font: self.u64(),
            size: self.f32(),
            affine: self.affine(),
            brush: self.u64(),
            bounds: self.rect(),
            glyphs: Vec::new(),
        };
        let count = u16::from_le_bytes(self.take());
        Operands::Draw(Draw::Run(run), count)
    }

    fn glyph(&mut self) -> Glyph {
        Glyph {
            id: self.u32(),
            x: self.f32(),
            y: self.f32(),
            bounds: self.rect(),
        }
    }

    fn scene(&mut self) -> Scene {
        Scene {
            content: self.u64(),
            generation: self.u64(),
            target: self.u64(),
            affine: self.affine(),
            bounds: self.rect(),
        }
    }
}
