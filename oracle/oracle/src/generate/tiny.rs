//! A few bytes, meant to be refused for every reason.

use super::pages;
use crate::command::{Draw, Op, Run, code};
use crate::header::Header;
use crate::random::Random;
use crate::read::OPEN_CLIPS;
use crate::write;

#[must_use]
pub fn input(random: &mut Random) -> Vec<u8> {
    let (header, mut input) = header(random);
    for _ in 0..2 {
        strip(random, &header, &mut input);
    }
    finish(random, &mut input);
    input
}

#[must_use]
pub fn first(random: &mut Random) -> Vec<u8> {
    let (header, mut input) = header(random);
    strip(random, &header, &mut input);
    finish(random, &mut input);
    input
}

/// Sizes at and beside their limits.
fn header(random: &mut Random) -> (Header, Vec<u8>) {
    let mut size = || match random.below(90) {
        0 => 0,
        1 => 32_769,
        2 => u32::MAX,
        3 => 1,
        4 => 32_768,
        _ => random.between(2, 20) as u32,
    };
    let header = Header {
        width: size(),
        height: size(),
        band_height: size(),
    };
    (header, header.bytes())
}

fn strip(random: &mut Random, header: &Header, input: &mut Vec<u8>) {
    let sizes = header.checked().unwrap_or(Header {
        width: 4,
        height: 4,
        band_height: 2,
    });
    for _ in 0..random.below(4) {
        piece(random, &sizes, input);
    }
    if !random.one_in(16) {
        input.push(code::END);
    }
}

fn piece(random: &mut Random, header: &Header, input: &mut Vec<u8>) {
    let start = input.len();
    if random.one_in(150) {
        // The last clip that may stand open, or one more.
        for _ in 0..OPEN_CLIPS + random.below(2) {
            write::push(input, &Op::Clip(pages::clip(random, header)));
        }
        return;
    }
    match random.below(12) {
        0 | 1 => write::push(input, &Op::Clip(pages::bounds(random, header))),
        2 => input.push(code::POP),
        3..=6 => write::push(input, &pages::draw(random, header)),
        7 => run(random, header, input),
        8 => input.push(random.word() as u8),
        9 => {
            // A glyph that may or may not be due.
            let run = text(random, header);
            write::glyph(input, &pages::glyph(random, &run, 0));
        }
        10 => {
            write::push(input, &pages::draw(random, header));
            spoil(random, input, start);
        }
        _ => {
            write::push(input, &pages::draw(random, header));
            let kept = start + random.below(input.len() - start);
            input.truncate(kept);
        }
    }
}

/// A run that announces one glyph too few or too many, or just enough.
fn run(random: &mut Random, header: &Header, input: &mut Vec<u8>) {
    let text = text(random, header);
    let glyphs = random.below(3);
    let announced = (glyphs + random.below(3)).saturating_sub(1);
    write::run(input, &text, announced);
    for place in 0..glyphs {
        write::glyph(input, &pages::glyph(random, &text, place));
    }
}

fn text(random: &mut Random, header: &Header) -> Run {
    loop {
        if let Op::Draw(Draw::Run(run)) = pages::draw(random, header) {
            return run;
        }
    }
}

/// A float that is not finite, or as large as floats go; or a code past 2.
fn spoil(random: &mut Random, input: &mut [u8], start: usize) {
    let length = input.len() - start;
    let place = start + 1 + random.below(length - 1);
    match random.below(3) {
        0 => input[place] = random.below(9) as u8,
        _ => {
            let number: f64 = random.pick(&[
                f64::INFINITY,
                f64::NEG_INFINITY,
                f64::NAN,
                f64::MAX,
                f64::MIN,
                1e308,
            ]);
            // Floats of a command begin 9, 13 or 25 bytes in, eight apart.
            let first = random.pick(&[9, 13, 25]);
            let at = start + first + 8 * random.below(10);
            if let Some(bytes) = input.get_mut(at..at + 8) {
                bytes.copy_from_slice(&number.to_le_bytes());
            }
        }
    }
}

fn finish(random: &mut Random, input: &mut Vec<u8>) {
    match random.below(20) {
        0 => input.push(random.word() as u8),
        1 => input.truncate(random.below(13)),
        _ => {}
    }
}
