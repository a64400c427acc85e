//! Drawing commands with the clips that stand open where they are met.

use std::rc::Rc;

use kurbo::{Affine, Cap, Rect};

use super::mistake::Mistake;
use crate::command::{Draw, Glyph, Op, Pen, Run};

/// A drawing command of a frame.
#[derive(Debug, Clone)]
pub struct Drawn {
    pub draw: Draw,
    /// Open clips, oldest first.
    pub clips: Rc<[Rect]>,
    /// Their intersection, where any is open.
    pub clip_box: Option<Rect>,
    /// The command box.
    pub own: Rect,
}

/// The drawing commands of a strip.
#[must_use]
pub fn drawn(ops: &[Op]) -> Vec<Drawn> {
    drawn_with(ops, None)
}

/// The same by a planner with a mistake.
#[must_use]
pub fn drawn_with(ops: &[Op], mistake: Option<Mistake>) -> Vec<Drawn> {
    let mut open: Vec<Rect> = Vec::new();
    let mut commands = Vec::new();
    for op in ops {
        match op {
            Op::Clip(bounds) => open.push(*bounds),
            Op::Pop => {
                open.pop();
            }
            Op::Draw(draw) => {
                let clip_box = match mistake {
                    Some(Mistake::ClipNotApplied) => None,
                    Some(Mistake::OldestClipForgotten) => intersection(&open[open.len().min(1)..]),
                    _ => intersection(&open),
                };
                commands.push(Drawn {
                    draw: draw.clone(),
                    clips: Rc::from(open.as_slice()),
                    clip_box,
                    own: cut(unclipped(draw, mistake), clip_box),
                });
            }
        }
    }
    commands
}

/// A glyph's transformed, clipped box.
#[must_use]
pub fn glyph_box(run: &Run, clip_box: Option<Rect>, glyph: &Glyph) -> Rect {
    cut(run.affine.transform_rect_bbox(glyph.bounds), clip_box)
}

/// Positive area, by comparing edges.
#[must_use]
pub fn has_area(rect: Rect) -> bool {
    rect.x0 < rect.x1 && rect.y0 < rect.y1
}

fn cut(rect: Rect, clip_box: Option<Rect>) -> Rect {
    clip_box.map_or(rect, |clip| rect.intersect(clip))
}

/// The open boxes intersected from the oldest on; one box stays as it is.
fn intersection(open: &[Rect]) -> Option<Rect> {
    open.iter().copied().reduce(|all, next| all.intersect(next))
}

fn unclipped(draw: &Draw, mistake: Option<Mistake>) -> Rect {
    let (affine, bounds): (&Affine, Rect) = match draw {
        Draw::Fill(shape) => (&shape.affine, shape.bounds),
        Draw::Stroke(shape, pen) => {
            let inflation = inflation(pen, mistake);
            (&shape.affine, shape.bounds.inflate(inflation, inflation))
        }
        Draw::Run(run) => {
            let united = run
                .glyphs
                .iter()
                .map(|glyph| match mistake {
                    Some(Mistake::GlyphBoxesRighted) => {
                        Affine::IDENTITY.transform_rect_bbox(glyph.bounds)
                    }
                    _ => glyph.bounds,
                })
                .reduce(|all, next| all.union(next))
                .filter(|_| mistake != Some(Mistake::RunByItsOwnBox));
            (&run.affine, united.unwrap_or(run.bounds))
        }
        Draw::Scene(scene) => (&scene.affine, scene.bounds),
    };
    affine.transform_rect_bbox(bounds)
}

fn inflation(pen: &Pen, mistake: Option<Mistake>) -> f64 {
    let mut pen = pen.clone();
    match mistake {
        Some(Mistake::MiterLimitIgnored) => pen.miter_limit = 1.0,
        Some(Mistake::SquareCapIgnored) => {
            pen.start_cap = Cap::Butt;
            pen.end_cap = Cap::Butt;
        }
        _ => {}
    }
    pen.inflation()
}
