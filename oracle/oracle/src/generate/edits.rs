//! Small edits between two frames: moved, clipped and recoloured commands,
//! changed and added glyphs, added and removed commands, signs of zeros.

use kurbo::Rect;

use super::coordinates::{x, y};
use super::pages::{bounds, clip, draw, glyph, pen, ruled};
use crate::command::{Draw, Op, Run, Scene, Shape};
use crate::header::Header;
use crate::random::Random;

/// The operations after a few edits; now and then after none.
#[must_use]
pub fn edited(random: &mut Random, header: &Header, ops: &[Op]) -> Vec<Op> {
    let mut ops = ops.to_vec();
    let edits = match random.below(12) {
        0 => 0,
        _ => 1 + random.below(4),
    };
    for _ in 0..edits {
        edit(random, header, &mut ops);
    }
    ops
}

fn edit(random: &mut Random, header: &Header, ops: &mut Vec<Op>) {
    if ops.is_empty() {
        ops.push(draw(random, header));
        return;
    }
    let place = random.below(ops.len());
    match random.below(10) {
        0 => ops.insert(place, draw(random, header)),
        1 => ops.push(draw(random, header)),
        2 => remove(ops, place),
        3 => wrap(ops, place, clip(random, header)),
        4 => repeat_clip(ops, place),
        _ => change(random, header, &mut ops[place]),
    }
}

/// Removes an operation, a clip together with its pop.
pub fn remove(ops: &mut Vec<Op>, place: usize) {
    match ops[place] {
        Op::Clip(_) => {
            if let Some(pop) = matching_pop(ops, place) {
                ops.remove(pop);
            }
            ops.remove(place);
        }
        Op::Pop => {}
        Op::Draw(_) => {
            ops.remove(place);
        }
    }
}

fn matching_pop(ops: &[Op], clip: usize) -> Option<usize> {
    let mut depth = 0;
    for (place, op) in ops.iter().enumerate().skip(clip) {
        match op {
            Op::Clip(_) => depth += 1,
            Op::Pop => depth -= 1,
            Op::Draw(_) => {}
        }
        if depth == 0 {
            return Some(place);
        }
    }
    None
}

/// Puts one operation under a clip of its own.
fn wrap(ops: &mut Vec<Op>, place: usize, bounds: Rect) {
    if let Op::Draw(_) = ops[place] {
        ops.insert(place + 1, Op::Pop);
        ops.insert(place, Op::Clip(bounds));
    }
}

/// Another list of clips with the same intersection.
fn repeat_clip(ops: &mut Vec<Op>, place: usize) {
    if let Op::Clip(bounds) = ops[place] {
        if let Some(pop) = matching_pop(ops, place) {
            ops.insert(pop, Op::Pop);
        }
        ops.insert(place, Op::Clip(bounds));
    }
}

fn change(random: &mut Random, header: &Header, op: &mut Op) {
    match op {
        Op::Clip(bounds) => *bounds = changed_rect(random, header, *bounds),
        Op::Pop => {}
        Op::Draw(Draw::Fill(shape)) => change_shape(random, header, shape),
        Op::Draw(Draw::Stroke(shape, line)) => match random.below(3) {
            0 => *line = pen(random),
            1 => line.dash ^= 1,
            _ => change_shape(random, header, shape),
        },
        Op::Draw(Draw::Run(run)) => change_run(random, header, run),
        Op::Draw(Draw::Scene(scene)) => change_scene(random, header, scene),
    }
}

fn change_shape(random: &mut Random, header: &Header, shape: &mut Shape) {
    match random.below(6) {
        0 => shape.brush += 1,
        1 => shape.path += 1,
        2 => shape.bounds = changed_rect(random, header, shape.bounds),
        3 => shape.bounds = bounds(random, header),
        _ => shift(random, header, &mut shape.affine.0),
    }
}

fn change_scene(random: &mut Random, header: &Header, scene: &mut Scene) {
    match random.below(5) {
        0 => scene.generation += 1,
        1 => scene.content ^= 1,
        2 => scene.target ^= 1,
        3 => scene.bounds = changed_rect(random, header, scene.bounds),
        _ => shift(random, header, &mut scene.affine.0),
    }
}

fn change_run(random: &mut Random, header: &Header, run: &mut Run) {
    let count = run.glyphs.len();
    match random.below(12) {
        0 => run.brush += 1,
        1 => shift(random, header, &mut run.affine.0),
        2 => run.bounds = bounds(random, header),
        3 => {
            // Both zeros are one size by value and two by bits.
            run.size = if run.size == 0.0 { -run.size } else { 0.0 };
            let size = run.clone();
            for glyph in &mut run.glyphs {
                *glyph = ruled(&size, glyph.id, glyph.x, glyph.y);
            }
        }
        4 | 5 => {
            let added = glyph(random, run, count);
            run.glyphs.push(added);
        }
        6 => {
            run.glyphs.pop();
        }
        _ if count > 0 => {
            let place = random.below(count);
            let old = run.glyphs[place];
            run.glyphs[place] = match random.below(4) {
                0 => ruled(run, old.id + 1, old.x, old.y),
                1 => ruled(run, old.id, old.x + random.pick(&[0.25, 1.0, -2.0]), old.y),
                2 => ruled(run, old.id, old.x, old.y + random.pick(&[0.5, -1.0])),
                _ => glyph(random, run, place),
            };
        }
        _ => run.font ^= 1,
    }
}

/// One edge elsewhere, or one zero with the other sign.
fn changed_rect(random: &mut Random, header: &Header, rect: Rect) -> Rect {
    let mut edges = rect.edges();
    let edge = random.below(4);
    edges[edge] = match random.below(4) {
        0 if edges[edge] == 0.0 => -edges[edge],
        1 => edges[edge] + random.pick(&[0.5, 1.0, -1.0, 2.0]),
        2 => edges[edge].next_up(),
        _ if edge.is_multiple_of(2) => x(random, header),
        _ => y(random, header),
    };
    let [x0, y0, x1, y1] = edges;
    Rect::new(x0, y0, x1, y1)
}

/// Moves, or turns a zero's sign, which moves nothing.
fn shift(random: &mut Random, header: &Header, affine: &mut [f64; 6]) {
    match random.below(5) {
        0 => {
            for number in affine.iter_mut().filter(|number| **number == 0.0) {
                *number = -*number;
            }
        }
        1 => affine[4] = x(random, header),
        2 => affine[5] = y(random, header),
        3 => affine[4] += random.pick(&[0.5, 1.0, -1.0]),
        _ => affine[5] += random.pick(&[0.5, 1.0, -1.0]),
    }
}
