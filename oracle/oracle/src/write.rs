//! Writes strips: the inverse of the reader.

use kurbo::{Affine, Cap, Join, Rect};

use crate::command::{Draw, Glyph, Op, Pen, Run, Scene, Shape, code};

/// The strip of these operations, END included.
#[must_use]
pub fn strip(ops: &[Op]) -> Vec<u8> {
    let mut bytes = Vec::new();
    for op in ops {
        push(&mut bytes, op);
    }
    bytes.push(code::END);
    bytes
}

/// Appends one operation, a RUN with its GLYPHs.
pub fn push(bytes: &mut Vec<u8>, op: &Op) {
    match op {
        Op::Clip(bounds) => {
            bytes.push(code::CLIP);
            rect(bytes, *bounds);
        }
        Op::Pop => bytes.push(code::POP),
        Op::Draw(Draw::Fill(fill)) => {
            bytes.push(code::FILL);
            shape(bytes, fill);
        }
        Op::Draw(Draw::Stroke(path, with)) => {
            bytes.push(code::STROKE);
            shape(bytes, path);
            pen(bytes, with);
        }
        Op::Draw(Draw::Run(text)) => {
            run(bytes, text, text.glyphs.len());
            for glyph in &text.glyphs {
                self::glyph(bytes, glyph);
            }
        }
        Op::Draw(Draw::Scene(recorded)) => scene(bytes, recorded),
    }
}

/// A RUN alone, announcing `count` glyphs.
pub fn run(bytes: &mut Vec<u8>, text: &Run, count: usize) {
    bytes.push(code::RUN);
    bytes.extend(text.font.to_le_bytes());
    bytes.extend(text.size.to_le_bytes());
    affine(bytes, text.affine);
    bytes.extend(text.brush.to_le_bytes());
    rect(bytes, text.bounds);
    let count = u16::try_from(count).expect("a run announces at most 65,535 glyphs");
    bytes.extend(count.to_le_bytes());
}

pub fn glyph(bytes: &mut Vec<u8>, glyph: &Glyph) {
    bytes.push(code::GLYPH);
    bytes.extend(glyph.id.to_le_bytes());
    bytes.extend(glyph.x.to_le_bytes());
    bytes.extend(glyph.y.to_le_bytes());
    rect(bytes, glyph.bounds);
}

fn scene(bytes: &mut Vec<u8>, scene: &Scene) {
    bytes.push(code::SCENE);
    bytes.extend(scene.content.to_le_bytes());
    bytes.extend(scene.generation.to_le_bytes());
    bytes.extend(scene.target.to_le_bytes());
    affine(bytes, scene.affine);
    rect(bytes, scene.bounds);
}

fn shape(bytes: &mut Vec<u8>, shape: &Shape) {
    bytes.extend(shape.path.to_le_bytes());
    rect(bytes, shape.bounds);
    affine(bytes, shape.affine);
    bytes.extend(shape.brush.to_le_bytes());
}

fn pen(bytes: &mut Vec<u8>, pen: &Pen) {
    bytes.extend(pen.width.to_le_bytes());
    bytes.push(match pen.join {
        Join::Bevel => 0,
        Join::Miter => 1,
        Join::Round => 2,
    });
    bytes.extend(pen.miter_limit.to_le_bytes());
    for cap in [pen.start_cap, pen.end_cap] {
        bytes.push(match cap {
            Cap::Butt => 0,
            Cap::Square => 1,
            Cap::Round => 2,
        });
    }
    bytes.extend(pen.dash.to_le_bytes());
}

fn rect(bytes: &mut Vec<u8>, rect: Rect) {
    bytes.extend(rect.edges().iter().flat_map(|edge| edge.to_le_bytes()));
}

fn affine(bytes: &mut Vec<u8>, affine: Affine) {
    bytes.extend(affine.0.iter().flat_map(|number| number.to_le_bytes()));
}
