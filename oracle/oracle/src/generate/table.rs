//! A table of districts, as a table viewer draws it: a title, a row a district
//! with its name, two figures and a bar, and rules between the rows; then its
//! next release, with a few figures revised.

use kurbo::{Affine, Cap, Join, Rect};

use crate::command::{Draw, Glyph, Op, Pen, Run, Shape};
use crate::header::Header;
use crate::random::Random;
use crate::write;

const HEADER: Header = Header {
    width: 320,
    height: 200,
    band_height: 32,
};

const DISTRICTS: [&str; 6] = ["Askim", "Elvdal", "Halden", "Norrvik", "Sundby", "Torsund"];

/// A district's line: inhabitants and, of a thousand, how many voted.
#[derive(Debug, Clone, Copy)]
struct Line {
    inhabitants: u32,
    voted: u32,
}

/// A table and its next release.
#[must_use]
pub fn input(random: &mut Random) -> Vec<u8> {
    let old: [Line; 6] = std::array::from_fn(|_| Line {
        inhabitants: random.between(1_000, 99_999) as u32,
        voted: random.between(300, 900) as u32,
    });
    let mut new = old;
    for _ in 0..=random.below(3) {
        let line = &mut new[random.below(DISTRICTS.len())];
        line.inhabitants += random.between(1, 90) as u32;
        line.voted = random.between(300, 900) as u32;
    }
    let mut input = HEADER.bytes();
    input.extend(write::strip(&page("Turnout, first count", &old)));
    input.extend(write::strip(&page("Turnout, final count", &new)));
    input
}

fn page(title: &str, lines: &[Line]) -> Vec<Op> {
    let mut ops = vec![
        fill(1, Rect::new(0.0, 0.0, 320.0, 200.0), 0.0, 0.0, 0),
        text(2, title, 8.0, 20.0),
        Op::Clip(Rect::new(4.0, 28.0, 316.0, 196.0)),
    ];
    for (place, (name, line)) in DISTRICTS.iter().zip(lines).enumerate() {
        let top = 30.0 + 27.0 * place as f64;
        let shade = place as u64 % 2 + 1;
        ops.push(fill(2, Rect::new(0.0, 0.0, 312.0, 26.0), 4.0, top, shade));
        ops.push(text(1, name, 8.0, top + 18.0));
        ops.push(figure(&line.inhabitants.to_string(), 120.0, top + 18.0));
        let share = format!("{}.{}", line.voted / 10, line.voted % 10);
        ops.push(figure(&share, 170.0, top + 18.0));
        let length = f64::from(line.voted) / 8.0;
        ops.push(fill(
            3,
            Rect::new(0.0, 0.0, length, 10.0),
            180.0,
            top + 8.0,
            3,
        ));
        ops.push(rule(top + 26.5));
    }
    ops.push(Op::Pop);
    ops
}

fn moved(x: f64, y: f64) -> Affine {
    Affine([1.0, 0.0, 0.0, 1.0, x, y])
}

fn fill(path: u64, bounds: Rect, x: f64, y: f64, brush: u64) -> Op {
    Op::Draw(Draw::Fill(Shape {
        path,
        bounds,
        affine: moved(x, y),
        brush,
    }))
}

/// A rule between two rows.
fn rule(y: f64) -> Op {
    let line = Shape {
        path: 4,
        bounds: Rect::new(0.0, 0.0, 312.0, 0.0),
        affine: moved(4.0, y),
        brush: 4,
    };
    let pen = Pen {
        width: 1.0,
        join: Join::Bevel,
        miter_limit: 4.0,
        start_cap: Cap::Butt,
        end_cap: Cap::Butt,
        dash: 0,
    };
    Op::Draw(Draw::Stroke(line, pen))
}

/// A figure that ends at x.
fn figure(digits: &str, x: f64, y: f64) -> Op {
    text(1, digits, x - 7.0 * digits.len() as f64, y)
}

/// A line of text whose letters are seven pixels apart.
fn text(font: u64, letters: &str, x: f64, y: f64) -> Op {
    let glyphs = letters.bytes().enumerate().map(|(place, letter)| {
        let left = place as f32 * 7.0;
        Glyph {
            id: u32::from(letter),
            x: left,
            y: 0.0,
            bounds: Rect::new(f64::from(left), -9.0, f64::from(left) + 6.0, 2.0),
        }
    });
    Op::Draw(Draw::Run(Run {
        font,
        size: 12.0,
        affine: moved(x, y),
        brush: 5,
        bounds: Rect::new(0.0, -9.0, 7.0 * letters.len() as f64, 2.0),
        glyphs: glyphs.collect(),
    }))
}
