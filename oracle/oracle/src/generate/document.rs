//! Document 01's example, its edges to hold and the cases that look right and
//! are wrong. Seeds past the last begin again.

use kurbo::{Affine, Cap, Join, Rect};

use crate::command::{Draw, Glyph, Op, Pen, Run, Shape};
use crate::header::Header;
use crate::write;

/// How many cases there are.
pub const COUNT: u64 = 18;

/// The input of a seed.
#[must_use]
pub fn input(seed: u64) -> Vec<u8> {
    let mut cases = cases();
    let place = (seed % COUNT) as usize;
    let (header, old, new) = cases.swap_remove(place);
    let mut input = header.bytes();
    input.extend(write::strip(&old));
    input.extend(write::strip(&new));
    input
}

type Case = (Header, Vec<Op>, Vec<Op>);

/// All cases, the example first.
#[must_use]
pub fn cases() -> Vec<Case> {
    let mut cases = vec![example()];
    cases.extend(clipped_fills());
    cases.extend(rounded());
    cases.extend(joined());
    cases.extend(rows());
    cases.push(stroked());
    cases.extend(runs());
    cases
}

fn screen(width: u32, height: u32, band_height: u32) -> Header {
    Header {
        width,
        height,
        band_height,
    }
}

fn fill(x0: f64, y0: f64, x1: f64, y1: f64) -> Op {
    moved(1, Rect::new(x0, y0, x1, y1), 0.0, 0.0)
}

fn moved(number: u64, bounds: Rect, x: f64, y: f64) -> Op {
    Op::Draw(Draw::Fill(Shape {
        path: number,
        bounds,
        affine: Affine([1.0, 0.0, 0.0, 1.0, x, y]),
        brush: number,
    }))
}

/// 402 bytes, printed in four lines.
fn example() -> Case {
    let strip = |x: f64| {
        vec![
            moved(1, Rect::new(0.0, 0.0, 4.0, 4.0), x, 14.0),
            moved(2, Rect::new(0.0, 0.0, 40.0, 16.0), 0.0, 0.0),
        ]
    };
    (screen(40, 40, 16), strip(10.5), strip(12.5))
}

/// A FILL cut by a clip, then let out again.
fn clipped_fills() -> [Case; 2] {
    let header = screen(16, 16, 8);
    let ten = fill(0.0, 0.0, 10.0, 10.0);
    let clip = Op::Clip(Rect::new(0.0, 0.0, 6.0, 10.0));
    let cut = vec![clip, ten.clone()];
    [
        (header, vec![ten.clone()], cut.clone()),
        (header, cut, vec![ten]),
    ]
}

/// Rounded outwards; without area to nothing, or to a region all the same.
fn rounded() -> [Case; 3] {
    [
        fill(-1.5, 2.25, 3.5, 4.0),
        fill(3.0, 3.0, 3.0, 5.0),
        fill(2.5, 3.0, 2.5, 5.0),
    ]
    .map(|op| (screen(8, 8, 8), vec![], vec![op]))
}

/// Joined along x alone; ordered by y.
fn joined() -> [Case; 3] {
    let corner = fill(0.0, 0.0, 4.0, 4.0);
    [
        vec![corner.clone(), fill(4.0, 8.0, 8.0, 12.0)],
        vec![corner, fill(5.0, 8.0, 9.0, 12.0)],
        vec![fill(0.0, 5.0, 2.0, 7.0), fill(8.0, 0.0, 10.0, 2.0)],
    ]
    .map(|ops| (screen(16, 16, 16), vec![], ops))
}

/// Rows at band edges, below the screen and above it.
fn rows() -> [Case; 5] {
    [
        (0.0, 16.0),
        (0.0, 16.0_f64.next_up()),
        (0.0, 16.0_f64.next_down()),
        (100.0, 120.0),
        (-8.0, -2.0),
    ]
    .map(|(y0, y1)| {
        let over = fill(0.0, 0.0, 40.0, 40.0);
        (
            screen(40, 40, 16),
            vec![],
            vec![fill(0.0, y0, 4.0, y1), over],
        )
    })
}

/// Width 2, miter, limit 4, butt, box 10 10 20 20.
fn stroked() -> Case {
    let shape = Shape {
        path: 1,
        bounds: Rect::new(10.0, 10.0, 20.0, 20.0),
        affine: Affine::IDENTITY,
        brush: 1,
    };
    let pen = Pen {
        width: 2.0,
        join: Join::Miter,
        miter_limit: 4.0,
        start_cap: Cap::Butt,
        end_cap: Cap::Butt,
        dash: 0,
    };
    let stroke = Op::Draw(Draw::Stroke(shape, pen));
    (screen(40, 40, 16), vec![], vec![stroke])
}

/// Empty runs alike but for their own box; sizes of both zeros with glyphs that
/// are equal, and that differ.
fn runs() -> [Case; 3] {
    let run = |size: f32, right: f64, ids: &[u32]| {
        let glyphs = ids.iter().enumerate().map(|(place, id)| {
            let x = 8.0 * place as f32;
            let left = f64::from(x);
            Glyph {
                id: *id,
                x,
                y: 0.0,
                bounds: Rect::new(left, 0.0, left + 5.0, 5.0),
            }
        });
        vec![Op::Draw(Draw::Run(Run {
            font: 1,
            size,
            affine: Affine::IDENTITY,
            brush: 1,
            bounds: Rect::new(0.0, 0.0, right, 9.0),
            glyphs: glyphs.collect(),
        }))]
    };
    [
        (run(9.0, 5.0, &[]), run(9.0, 6.0, &[])),
        (run(0.0, 5.0, &[1, 2]), run(-0.0, 5.0, &[1, 2])),
        (run(0.0, 5.0, &[1, 2]), run(-0.0, 5.0, &[1, 3])),
    ]
    .map(|(old, new)| (screen(16, 16, 8), old, new))
}

#[cfg(test)]
mod tests {
    use super::{COUNT, cases, input};

    #[test]
    fn each_case_is_one_seeds() {
        assert_eq!(cases().len() as u64, COUNT);
        assert_eq!(input(0).len(), 402);
        assert_eq!(input(COUNT), input(0));
    }
}
