//! Coordinates where mistakes hide: whole, half and quarter pixels, band edges
//! and their neighbours, screen edges, beyond the screen, and zeros of both signs.

use kurbo::{Affine, Rect};

use crate::header::Header;
use crate::random::Random;

/// A coordinate along an axis of `length`, in steps of `step` where edges lie.
fn coordinate(random: &mut Random, length: u32, step: u32) -> f64 {
    let (length, step) = (i64::from(length), i64::from(step));
    let whole = random.between(-2, length + 2) as f64;
    let edge = (random.between(0, length / step + 1) * step) as f64;
    match random.below(20) {
        0..=6 => whole,
        7 => whole + 0.5,
        8 => whole + 0.25,
        9 => whole + random.between(1, 9) as f64 / 10.0,
        10 => whole.next_up(),
        11 => whole.next_down(),
        12 | 13 => edge,
        14 => edge.next_up(),
        15 => edge.next_down(),
        16 => random.pick(&[0.0, -0.0, length as f64]),
        17 => edge + random.pick(&[-0.5, 0.5, -1.0, 1.0]),
        18 => random.pick(&[-7.5, -1.0, length as f64 + 9.0, f64::MIN_POSITIVE, 5e-324]),
        _ => random.pick(&[-40_000.0, 40_000.0, 1e9, -1e9, 1.0 / 3.0, 1e18]),
    }
}

#[must_use]
pub fn x(random: &mut Random, header: &Header) -> f64 {
    coordinate(random, header.width, 4)
}

#[must_use]
pub fn y(random: &mut Random, header: &Header) -> f64 {
    coordinate(random, header.height, header.band_height)
}

/// A box on or about the screen, now and then reversed or without area.
#[must_use]
pub fn rect(random: &mut Random, header: &Header) -> Rect {
    let (a, b) = (x(random, header), x(random, header));
    let (c, d) = (y(random, header), y(random, header));
    if random.one_in(10) {
        Rect::new(a, c, b, d)
    } else {
        Rect::new(a.min(b), c.min(d), a.max(b), c.max(d))
    }
}

/// A small box inside the screen, on whole, half or quarter pixels.
#[must_use]
pub fn cell(random: &mut Random, header: &Header) -> Rect {
    let part = random.pick(&[1.0, 1.0, 2.0, 4.0]);
    let along = |random: &mut Random, length: u32| {
        let start = random.between(0, i64::from(length) - 1) as f64;
        let extent = random.between(1, i64::from(length.min(12)) * part as i64) as f64 / part;
        (start, start + extent)
    };
    let (x0, x1) = along(random, header.width);
    let (y0, y1) = along(random, header.height);
    Rect::new(x0, y0, x1, y1)
}

/// Mostly moves; sometimes scales, turns and slants.
#[must_use]
pub fn affine(random: &mut Random, header: &Header) -> Affine {
    let [mut a, mut b, mut c, mut d] = [1.0, 0.0, 0.0, 1.0];
    match random.below(12) {
        0 => {
            a = random.pick(&[2.0, 0.5, 0.1, -1.0, 0.0, 1.0 / 3.0]);
            d = random.pick(&[2.0, 0.5, 0.1, -1.0, 1.0]);
        }
        1 => [a, b, c, d] = [0.0, 1.0, -1.0, 0.0],
        2 => {
            b = random.pick(&[0.25, -0.0, 0.7]);
            c = random.pick(&[-0.25, 0.125, 0.3]);
        }
        _ => {}
    }
    let (e, f) = match random.below(8) {
        0..=2 => (0.0, 0.0),
        3 => (x(random, header), y(random, header)),
        4..=6 => (
            random.between(-2, 6) as f64 / 2.0,
            random.between(-4, 12) as f64 / 4.0,
        ),
        _ => (
            random.between(-2, i64::from(header.width)) as f64,
            random.between(-8, 2 * i64::from(header.height)) as f64 / 2.0,
        ),
    };
    Affine([a, b, c, d, e, f])
}
