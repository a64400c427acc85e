//! Boxes, corners and inflations aimed at band edges to the last bit.

use kurbo::{Affine, Cap, Join, Rect};

use super::pages::{glyph, pen};
use crate::command::{Draw, Glyph, Op, Pen, Run, Scene, Shape};
use crate::header::Header;
use crate::random::Random;
use crate::write;

#[must_use]
pub fn input(random: &mut Random) -> Vec<u8> {
    let header = header(random);
    let count = 1 + random.below(4);
    let old: Vec<Op> = (0..count).map(|_| draw(random, &header)).collect();
    let mut new = old.clone();
    for _ in 0..=random.below(3) {
        let place = random.below(count);
        match random.below(3) {
            0 => new[place.min(old.len() - 1)] = draw(random, &header),
            1 => new.push(draw(random, &header)),
            _ => new.insert(0, Op::Clip(on_an_edge(random, &header))),
        }
    }
    let mut input = header.bytes();
    input.extend(write::strip(&old));
    input.extend(write::strip(&new));
    input
}

fn header(random: &mut Random) -> Header {
    let band_height = random.pick(&[1, 2, 3, 5, 7, 16, 17, 31, 40, 100]);
    let bands = random.between(1, 9);
    let over = random.between(0, i64::from(band_height) - 1);
    Header {
        width: random.between(1, 40) as u32,
        height: (bands * i64::from(band_height) + over) as u32,
        band_height,
    }
}

/// A band edge, or a number beside it by one or two bits.
fn edge(random: &mut Random, header: &Header) -> f64 {
    let rows = i64::from(header.rows());
    let edge = (random.between(-1, rows + 1) * i64::from(header.band_height)) as f64;
    match random.below(8) {
        0 => edge.next_up(),
        1 => edge.next_down(),
        2 => edge.next_up().next_up(),
        3 => edge.next_down().next_down(),
        4 => f64::from(header.height),
        5 => f64::from(header.height).next_up(),
        _ => edge,
    }
}

fn column(random: &mut Random, header: &Header) -> f64 {
    let column = random.between(-1, i64::from(header.width) + 1) as f64;
    match random.below(5) {
        0 => column.next_up(),
        1 => column.next_down(),
        _ => column,
    }
}

fn on_an_edge(random: &mut Random, header: &Header) -> Rect {
    let (a, b) = (column(random, header), column(random, header));
    let c = edge(random, header);
    let d = match random.below(3) {
        0 => c.next_up(),
        _ => edge(random, header),
    };
    Rect::new(a.min(b), c.min(d), a.max(b), c.max(d))
}

/// A box so wide that the difference of its edges is no finite number, or so
/// thin that it is the least.
fn extreme(random: &mut Random) -> Rect {
    let least = f64::from_bits(1);
    let mut side = || {
        let edges = [f64::MIN, -1e300, -least, 0.0, least, 1.0, 1e300, f64::MAX];
        let (a, b) = (random.pick(&edges), random.pick(&edges));
        (a.min(b), a.max(b))
    };
    let ((x0, x1), (y0, y1)) = (side(), side());
    Rect::new(x0, y0, x1, y1)
}

/// An affine whose image of `rect` falls on or beside `rect` again: scaled up
/// what was scaled down, or moved there and back, with what rounding leaves.
fn there_and_back(random: &mut Random, rect: Rect) -> (Rect, Affine) {
    let [x0, y0, x1, y1] = rect.edges();
    match random.below(4) {
        0 => {
            let scale = random.pick(&[3.0, 10.0, 0.1, 7.0, 1.0 / 3.0, 49.0]);
            let small = Rect::new(x0, y0 / scale, x1, y1 / scale);
            (small, Affine([1.0, 0.0, 0.0, scale, 0.0, 0.0]))
        }
        1 => {
            let away = random.pick(&[0.1, 1e9, 1.0 / 3.0, 1e15]);
            let moved = Rect::new(x0, y0 - away, x1, y1 - away);
            (moved, Affine([1.0, 0.0, 0.0, 1.0, 0.0, away]))
        }
        2 => (
            Rect::new(y0, -x1, y1, -x0),
            Affine([0.0, 1.0, -1.0, 0.0, 0.0, 0.0]),
        ),
        _ => (rect, Affine::IDENTITY),
    }
}

fn draw(random: &mut Random, header: &Header) -> Op {
    let (bounds, affine) = if random.one_in(20) {
        (extreme(random), Affine::IDENTITY)
    } else {
        let rect = on_an_edge(random, header);
        there_and_back(random, rect)
    };
    let shape = Shape {
        path: random.below(2) as u64,
        bounds,
        affine,
        brush: random.below(2) as u64,
    };
    Op::Draw(match random.below(6) {
        0 | 1 => Draw::Fill(shape),
        2 | 3 => stroke(random, header),
        4 => Draw::Run(run(random, shape)),
        _ => Draw::Scene(Scene {
            content: 1,
            generation: random.below(2) as u64,
            target: 0,
            affine,
            bounds,
        }),
    })
}

/// A stroke whose inflated box is aimed at band edges: the box is the aim
/// drawn in by the inflation, so that rounding decides on which side it falls.
fn stroke(random: &mut Random, header: &Header) -> Draw {
    let aim = on_an_edge(random, header);
    let pen = Pen {
        width: random.pick(&[0.1, 1.0 / 3.0, 2.0, 0.7, 1e-9, -0.2]),
        join: random.pick(&[Join::Miter, Join::Round]),
        miter_limit: random.pick(&[4.0, 1.1, 0.5]),
        end_cap: random.pick(&[Cap::Square, Cap::Butt]),
        ..pen(random)
    };
    let inflation = pen.inflation();
    Draw::Stroke(
        Shape {
            path: 5,
            bounds: aim.inflate(-inflation, -inflation),
            affine: Affine::IDENTITY,
            brush: 0,
        },
        pen,
    )
}

/// A run of glyphs whose boxes end on band edges.
fn run(random: &mut Random, shape: Shape) -> Run {
    let mut run = Run {
        font: 0,
        size: 9.0,
        affine: shape.affine,
        brush: shape.brush,
        bounds: shape.bounds,
        glyphs: Vec::new(),
    };
    for place in 0..random.below(4) {
        let glyph = glyph(random, &run, place);
        run.glyphs.push(Glyph {
            bounds: shape.bounds,
            ..glyph
        });
    }
    run
}
