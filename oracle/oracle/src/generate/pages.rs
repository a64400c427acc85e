//! Screens as a program would draw them: grids of cells under nested clips, text,
//! rules and scenes; then the same with a few edits.

use kurbo::{Cap, Join, Rect};

use super::coordinates::{affine, cell, rect, x, y};
use super::edits;
use crate::command::{Draw, Glyph, Op, Pen, Run, Scene, Shape};
use crate::header::Header;
use crate::random::{Random, mix};
use crate::write;

/// A page and its edited next frame, under one header.
#[must_use]
pub fn input(random: &mut Random) -> Vec<u8> {
    let header = header(random);
    let old = page(random, &header);
    let new = edits::edited(random, &header, &old);
    let mut input = header.bytes();
    input.extend(write::strip(&old));
    input.extend(write::strip(&new));
    input
}

/// A page alone, for the first-frame entry.
#[must_use]
pub fn first(random: &mut Random) -> Vec<u8> {
    let header = header(random);
    let mut input = header.bytes();
    input.extend(write::strip(&page(random, &header)));
    input
}

/// Screens from one pixel up, mostly small, with bands that divide them or not.
#[must_use]
pub fn header(random: &mut Random) -> Header {
    let mut size = || match random.below(10) {
        0 => random.between(1, 4),
        1..=6 => random.between(5, 48),
        7 | 8 => random.between(49, 320),
        _ => random.between(321, 32_768),
    };
    let (width, height) = (size(), size());
    let band_height = match random.below(8) {
        0 => 1.max(height / 200),
        1 => height,
        2 => random.between(height, 32_768),
        3 => 16,
        _ => random.between(1.max(height / 60), 1.max(height / 2)),
    };
    Header {
        width: width as u32,
        height: height as u32,
        band_height: band_height as u32,
    }
}

/// A page of a few groups.
#[must_use]
pub fn page(random: &mut Random, header: &Header) -> Vec<Op> {
    let mut ops = Vec::new();
    let groups = match random.below(12) {
        0 => 0,
        _ => 1 + random.below(4),
    };
    for _ in 0..groups {
        group(random, header, &mut ops, 0);
    }
    if random.one_in(6) {
        // END may stand while clips are open.
        ops.push(Op::Clip(rect(random, header)));
        ops.push(draw(random, header));
    }
    ops
}

fn group(random: &mut Random, header: &Header, ops: &mut Vec<Op>, depth: usize) {
    let clipped = random.below(3) > 0;
    if clipped {
        ops.push(Op::Clip(clip(random, header)));
    }
    match random.below(3) {
        0 => grid(random, header, ops),
        _ => {
            for _ in 0..=random.below(3) {
                ops.push(draw(random, header));
            }
        }
    }
    if depth < 4 && random.one_in(2) {
        group(random, header, ops, depth + 1);
    }
    if clipped {
        ops.push(Op::Pop);
    }
}

/// A clip: often most of the screen, or what is drawn would rarely show.
#[must_use]
pub fn clip(random: &mut Random, header: &Header) -> Rect {
    match random.below(6) {
        0 => rect(random, header),
        1 => cell(random, header),
        _ => {
            let (width, height) = (f64::from(header.width), f64::from(header.height));
            let inset = |random: &mut Random| random.between(-2, 6) as f64 / 2.0;
            Rect::new(
                inset(random),
                inset(random),
                width - inset(random),
                height - inset(random),
            )
        }
    }
}

/// Cells side by side, all of one path.
fn grid(random: &mut Random, header: &Header, ops: &mut Vec<Op>) {
    let path = random.below(3) as u64;
    let part = random.pick(&[1.0, 2.0, 4.0]);
    let width = random.between(1, 12) as f64 / part;
    let height = random.between(1, 12) as f64 / part;
    let (columns, rows) = (1 + random.below(3), 1 + random.below(3));
    let (left, top) = (x(random, header), y(random, header));
    for row in 0..rows {
        for column in 0..columns {
            let mut affine = kurbo::Affine::IDENTITY;
            affine.0[4] = left + column as f64 * width;
            affine.0[5] = top + row as f64 * height;
            ops.push(Op::Draw(Draw::Fill(Shape {
                path,
                bounds: Rect::new(0.0, 0.0, width, height),
                affine,
                brush: random.below(4) as u64,
            })));
        }
    }
}

/// Any drawing command.
#[must_use]
pub fn draw(random: &mut Random, header: &Header) -> Op {
    Op::Draw(match random.below(8) {
        0..=2 => Draw::Fill(shape(random, header)),
        3 | 4 => Draw::Stroke(shape(random, header), pen(random)),
        5 | 6 => Draw::Run(run(random, header)),
        _ => Draw::Scene(scene(random, header)),
    })
}

fn shape(random: &mut Random, header: &Header) -> Shape {
    Shape {
        path: random.below(3) as u64,
        bounds: bounds(random, header),
        affine: affine(random, header),
        brush: random.below(3) as u64,
    }
}

/// A box for a command.
#[must_use]
pub fn bounds(random: &mut Random, header: &Header) -> Rect {
    match random.below(3) {
        0 => rect(random, header),
        _ => cell(random, header),
    }
}

/// Rules and outlines; widths and limits of all signs.
#[must_use]
pub fn pen(random: &mut Random) -> Pen {
    Pen {
        width: random.pick(&[0.0, -0.0, 0.5, 1.0, 2.0, 3.0, -1.0, 1e-300]),
        join: random.pick(&[Join::Bevel, Join::Miter, Join::Round]),
        miter_limit: random.pick(&[4.0, 1.0, 0.25, 10.0, -3.0, 0.0]),
        start_cap: random.pick(&[Cap::Butt, Cap::Square, Cap::Round]),
        end_cap: random.pick(&[Cap::Butt, Cap::Square, Cap::Round]),
        dash: random.below(2) as u64,
    }
}

fn run(random: &mut Random, header: &Header) -> Run {
    let font = random.below(2) as u64;
    let size = random.pick(&[12.0, 8.5, 0.0, -0.0, -1.0]);
    let mut run = Run {
        font,
        size,
        affine: affine(random, header),
        brush: random.below(3) as u64,
        bounds: bounds(random, header),
        glyphs: Vec::new(),
    };
    for place in 0..random.below(6) {
        let glyph = glyph(random, &run, place);
        run.glyphs.push(glyph);
    }
    run
}

/// A glyph at a place of a run, with the box that the glyph rule asks for.
#[must_use]
pub fn glyph(random: &mut Random, run: &Run, place: usize) -> Glyph {
    let id = random.below(5) as u32;
    let x = place as f32 * 3.0 + random.pick(&[0.0, 0.0, 0.25, -0.5]);
    let y = random.pick(&[0.0, 0.0, -0.0, 2.5]);
    ruled(run, id, x, y)
}

/// The glyph rule: font, size, id, x and y decide the box, floats by value.
#[must_use]
pub fn ruled(run: &Run, id: u32, x: f32, y: f32) -> Glyph {
    let value = |number: f32| u64::from((number + 0.0).to_bits());
    let hash = [run.font, value(run.size), u64::from(id), value(x), value(y)]
        .into_iter()
        .fold(0, |hash, part| mix(hash ^ part));
    let quarters = |shift: u32, most: u64| ((hash >> shift) % most) as f64 / 4.0;
    let (left, top) = (
        f64::from(x) - quarters(0, 4),
        f64::from(y) - quarters(8, 24),
    );
    let (right, bottom) = (left + quarters(16, 20), top + quarters(24, 28));
    let bounds = match (hash >> 40) % 16 {
        0 => Rect::new(right, top, left, bottom),
        1 => Rect::new(left, bottom, right, top),
        _ => Rect::new(left, top, right, bottom),
    };
    Glyph { id, x, y, bounds }
}

fn scene(random: &mut Random, header: &Header) -> Scene {
    Scene {
        content: random.below(2) as u64,
        generation: random.below(2) as u64,
        target: random.below(2) as u64,
        affine: affine(random, header),
        bounds: bounds(random, header),
    }
}
