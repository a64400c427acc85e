//! At each limit and one past it. A seed chooses the limit, in turn.

use kurbo::{Affine, Rect};

use super::pages;
use crate::command::{Draw, Glyph, Op, Run, Scene, Shape, code};
use crate::header::Header;
use crate::program::LONGEST;
use crate::random::Random;
use crate::read::{CLIPS, COMMANDS, GLYPHS, OPEN_CLIPS};
use crate::write;

/// How many limits take turns. The last four need long inputs.
pub const TURNS: u64 = 13;

#[must_use]
pub fn input(seed: u64, random: &mut Random) -> Vec<u8> {
    let past = random.below(2);
    match seed % TURNS {
        0 => in_a_strip(random, &vec![Op::Clip(UNIT); OPEN_CLIPS + past]),
        1 => overflow(random),
        2 => united_overflow(random),
        3 => not_finite(random),
        4 => wrong_code(random),
        5 => wrong_byte(random),
        6 => many_regions(random, past as u32),
        7 => many_words(random, past as u32),
        8 => size(random),
        9 => longest(random, past),
        10 => in_a_strip(
            random,
            &vec![[Op::Clip(UNIT), Op::Pop]; CLIPS + past].concat(),
        ),
        11 => in_a_strip(
            random,
            &vec![Op::Draw(Draw::Fill(fill(UNIT))); COMMANDS + past],
        ),
        _ => in_a_strip(random, &glyphs(GLYPHS + past)),
    }
}

const UNIT: Rect = Rect::new(0.0, 0.0, 1.0, 1.0);

const HEADER: Header = Header {
    width: 8,
    height: 8,
    band_height: 4,
};

const fn fill(bounds: Rect) -> Shape {
    Shape {
        path: 1,
        bounds,
        affine: Affine::IDENTITY,
        brush: 1,
    }
}

/// The operations in the old strip, in the new one, or in both: counts begin
/// anew with the second strip.
fn in_a_strip(random: &mut Random, ops: &[Op]) -> Vec<u8> {
    let (old, new): (&[Op], &[Op]) = match random.below(3) {
        0 => (ops, &[]),
        1 => (&[], ops),
        _ => (ops, ops),
    };
    two_strips(HEADER, old, new)
}

fn two_strips(header: Header, old: &[Op], new: &[Op]) -> Vec<u8> {
    let mut input = header.bytes();
    input.extend(write::strip(old));
    input.extend(write::strip(new));
    input
}

/// Runs that hold so many glyphs together.
fn glyphs(count: usize) -> Vec<Op> {
    let run = |count: usize| {
        let glyph = Glyph {
            id: 1,
            x: 0.0,
            y: 0.0,
            bounds: UNIT,
        };
        Op::Draw(Draw::Run(Run {
            font: 1,
            size: 1.0,
            affine: Affine::IDENTITY,
            brush: 1,
            bounds: UNIT,
            glyphs: vec![glyph; count],
        }))
    };
    let half = count / 2;
    vec![run(half), run(0), run(count - half)]
}

/// Finite operands whose edges or corners are not, or just are.
fn overflow(random: &mut Random) -> Vec<u8> {
    let most = random.pick(&[f64::MAX, f64::MAX / 2.0, 1e308, -1e308]);
    let mut affine = Affine::IDENTITY;
    affine.0[random.below(6)] = random.pick(&[most, 2.0, -2.0, 1.0]);
    let mut edges = [0.0, 0.0, 1.0, 1.0];
    edges[random.below(4)] = random.pick(&[most, -most, 1.0]);
    let [x0, y0, x1, y1] = edges;
    let bounds = Rect::new(x0, y0, x1, y1);
    let shape = Shape {
        affine,
        ..fill(bounds)
    };
    let draw = match random.below(4) {
        0 => Draw::Fill(shape),
        1 => {
            let mut pen = pages::pen(random);
            pen.width = random.pick(&[most, 1.0, 1e300]);
            pen.miter_limit = random.pick(&[most, 4.0, 1e10]);
            Draw::Stroke(shape, pen)
        }
        2 => Draw::Scene(Scene {
            content: 1,
            generation: 1,
            target: 1,
            affine,
            bounds,
        }),
        _ => {
            let count = random.below(3);
            let glyph = Glyph {
                id: 1,
                x: 0.0,
                y: 0.0,
                bounds: random.pick(&[UNIT, bounds]),
            };
            Draw::Run(Run {
                font: 1,
                size: 1.0,
                affine,
                brush: 1,
                bounds,
                glyphs: vec![glyph; count],
            })
        }
    };
    in_a_strip(random, &[Op::Draw(Draw::Fill(fill(UNIT))), Op::Draw(draw)])
}

/// Glyph boxes whose corners are finite each, and not together.
fn united_overflow(random: &mut Random) -> Vec<u8> {
    let far = random.pick(&[1e308, 8e307]);
    let glyph = |x: f64, y: f64| Glyph {
        id: 1,
        x: 0.0,
        y: 0.0,
        bounds: Rect::new(x, y, x, y),
    };
    let mut glyphs = vec![glyph(far, 0.0), glyph(0.0, far)];
    if random.one_in(2) {
        glyphs.insert(1, glyph(1.0, 1.0));
    }
    let run = Run {
        font: 1,
        size: 1.0,
        affine: Affine([1.0, 0.0, 1.0, 1.0, 0.0, 0.0]),
        brush: 1,
        bounds: Rect::new(far, far, far, far),
        glyphs,
    };
    in_a_strip(random, &[Op::Draw(Draw::Run(run))])
}

/// A float that is not finite, in any operand of any command.
fn not_finite(random: &mut Random) -> Vec<u8> {
    let (command, f64s, f32s) = command(random);
    let mut bytes = command;
    if random.one_in(4) && !f32s.is_empty() {
        let number: f32 = random.pick(&[f32::INFINITY, f32::NEG_INFINITY, f32::NAN]);
        let at = random.pick(&f32s);
        bytes[at..at + 4].copy_from_slice(&number.to_le_bytes());
    } else {
        let number: f64 = random.pick(&[f64::INFINITY, f64::NEG_INFINITY, f64::NAN]);
        let at = random.pick(&f64s);
        bytes[at..at + 8].copy_from_slice(&number.to_le_bytes());
    }
    around(&bytes)
}

/// A command with the places of its floats. A glyph comes with its run.
fn command(random: &mut Random) -> (Vec<u8>, Vec<usize>, Vec<usize>) {
    let places = |first: usize, count: usize| (0..count).map(move |n| first + 8 * n);
    let mut bytes = Vec::new();
    match random.below(6) {
        0 => {
            write::push(&mut bytes, &Op::Clip(UNIT));
            (bytes, places(1, 4).collect(), vec![])
        }
        1 => {
            write::push(&mut bytes, &Op::Draw(Draw::Fill(fill(UNIT))));
            (bytes, places(9, 10).collect(), vec![])
        }
        2 => {
            let pen = pages::pen(random);
            write::push(&mut bytes, &Op::Draw(Draw::Stroke(fill(UNIT), pen)));
            (bytes, places(9, 10).chain([97, 106]).collect(), vec![])
        }
        3 => {
            write::push(&mut bytes, &glyphs(0)[1]);
            (bytes, places(13, 6).chain(places(69, 4)).collect(), vec![9])
        }
        4 => {
            write::push(&mut bytes, &glyphs(2)[0]);
            let glyph = 103;
            (
                bytes,
                places(glyph + 13, 4).collect(),
                vec![glyph + 5, glyph + 9],
            )
        }
        _ => {
            let scene = Scene {
                content: 1,
                generation: 1,
                target: 1,
                affine: Affine::IDENTITY,
                bounds: UNIT,
            };
            write::push(&mut bytes, &Op::Draw(Draw::Scene(scene)));
            (bytes, places(25, 10).collect(), vec![])
        }
    }
}

/// Bytes of the new strip, after an old strip of one FILL.
fn around(bytes: &[u8]) -> Vec<u8> {
    let mut input = HEADER.bytes();
    input.extend(write::strip(&[Op::Draw(Draw::Fill(fill(UNIT)))]));
    input.extend(bytes);
    input.push(code::END);
    input
}

/// A join or cap code past 2, sometimes beside a float that is not finite.
fn wrong_code(random: &mut Random) -> Vec<u8> {
    let mut bytes = Vec::new();
    let pen = pages::pen(random);
    write::push(&mut bytes, &Op::Draw(Draw::Stroke(fill(UNIT), pen)));
    let at = random.pick(&[105, 114, 115]);
    bytes[at] = random.pick(&[2, 3, 255]);
    if random.one_in(3) {
        bytes[9..17].copy_from_slice(&f64::NAN.to_le_bytes());
    }
    around(&bytes)
}

/// Any byte for a command, while a glyph is due or not.
fn wrong_byte(random: &mut Random) -> Vec<u8> {
    let mut bytes = Vec::new();
    if random.one_in(2) {
        let Op::Draw(Draw::Run(run)) = &glyphs(0)[1] else {
            unreachable!("glyphs makes runs");
        };
        write::run(&mut bytes, run, 1);
    }
    bytes.push(match random.below(3) {
        0 => random.word() as u8,
        _ => random.below(10) as u8,
    });
    if random.one_in(2) {
        bytes.extend([0; 50]);
    }
    around(&bytes)
}

/// A box over 4,096 bands of one line, or one more.
fn many_regions(random: &mut Random, past: u32) -> Vec<u8> {
    let lines = 4_096 + past;
    let header = Header {
        width: 1,
        height: lines + random.below(3) as u32,
        band_height: 1,
    };
    let bounds = Rect::new(0.0, 0.0, 1.0, f64::from(lines));
    two_strips(header, &[Op::Draw(Draw::Fill(fill(bounds)))], &[])
}

/// Index words for 16,384, or one more: starts alone, or with entries.
fn many_words(random: &mut Random, past: u32) -> Vec<u8> {
    let entries = random.pick(&[0, 1, 100]);
    let header = Header {
        width: 1,
        height: 16_383 - entries + past,
        band_height: 1,
    };
    let bounds = Rect::new(0.0, 0.0, 1.0, f64::from(entries));
    let ops = [Op::Draw(Draw::Fill(fill(bounds)))];
    two_strips(header, &ops, &ops)
}

/// Sizes at and past their limit, and headers cut short.
fn size(random: &mut Random) -> Vec<u8> {
    let mut size = || random.pick(&[1, 32_768, 32_769, 0, 7, 65_536]);
    let header = Header {
        width: size(),
        height: size(),
        band_height: size(),
    };
    let mut input = two_strips(header, &[], &[]);
    if random.one_in(3) {
        input.truncate(random.below(13));
    }
    input
}

/// The longest input that the program takes, or one byte more; or the same with
/// a byte after the last END.
fn longest(random: &mut Random, past: usize) -> Vec<u8> {
    // 12 bytes of header and two ENDs leave 65,522: 97 bytes a FILL, 34 a clip
    // pushed and popped.
    let (fills, clips) = (6, 1_910);
    let mut ops = vec![[Op::Clip(UNIT), Op::Pop]; clips].concat();
    ops.extend(vec![Op::Draw(Draw::Fill(fill(UNIT))); fills]);
    let mut input = two_strips(HEADER, &[], &ops);
    if random.one_in(2) {
        input.resize(LONGEST, 0);
    }
    input.resize(input.len() + past, 0);
    input
}
