//! Commands and inputs for tests, short to write.

#![allow(dead_code, reason = "each test file takes what it needs")]

use kurbo::{Affine, Cap, Join, Rect};
use oracle::command::{Draw, Glyph, Op, Pen, Run, Scene, Shape};
use oracle::entry::{Accepted, Entry, call};
use oracle::header::Header;
use oracle::planners;
use oracle::print::{full_form, plan_form};
use oracle::program;
use oracle::refusal::Refusal;
use oracle::space::Space;
use oracle::write;

pub const UNIT: Rect = Rect::new(0.0, 0.0, 1.0, 1.0);

pub fn header(width: u32, height: u32, band_height: u32) -> Header {
    Header {
        width,
        height,
        band_height,
    }
}

pub fn shape(bounds: Rect) -> Shape {
    Shape {
        path: 1,
        bounds,
        affine: Affine::IDENTITY,
        brush: 1,
    }
}

pub fn fill(x0: f64, y0: f64, x1: f64, y1: f64) -> Op {
    Op::Draw(Draw::Fill(shape(Rect::new(x0, y0, x1, y1))))
}

pub fn pen(width: f64) -> Pen {
    Pen {
        width,
        join: Join::Bevel,
        miter_limit: 4.0,
        start_cap: Cap::Butt,
        end_cap: Cap::Butt,
        dash: 0,
    }
}

pub fn run(glyphs: Vec<Glyph>) -> Run {
    Run {
        font: 1,
        size: 10.0,
        affine: Affine::IDENTITY,
        brush: 1,
        bounds: UNIT,
        glyphs,
    }
}

pub fn glyph(id: u32, bounds: Rect) -> Glyph {
    Glyph {
        id,
        x: 0.0,
        y: 0.0,
        bounds,
    }
}

pub fn scene(bounds: Rect) -> Scene {
    Scene {
        content: 1,
        generation: 1,
        target: 1,
        affine: Affine::IDENTITY,
        bounds,
    }
}

/// A strip's bytes without END, for inputs that are cut or spoiled.
pub fn bytes(ops: &[Op]) -> Vec<u8> {
    let mut bytes = write::strip(ops);
    bytes.pop();
    bytes
}

pub fn two_strips(header: Header, old: &[Op], new: &[Op]) -> Vec<u8> {
    let mut input = header.bytes();
    input.extend(write::strip(old));
    input.extend(write::strip(new));
    input
}

/// A header of 8 by 8 in bands of 4, an empty old strip, then these bytes.
pub fn new_strip(bytes: &[u8]) -> Vec<u8> {
    let mut input = header(8, 8, 4).bytes();
    input.push(0);
    input.extend(bytes);
    input
}

/// Where the bytes of `new_strip` begin.
pub const NEW: usize = 13;

/// The answer that all planners at hand give.
pub fn answer(entry: Entry, input: &[u8], space: Space) -> Result<Accepted, Refusal> {
    let mut answers = planners::all()
        .into_iter()
        .map(|planner| call(&planner, entry, input, space));
    let first = answers.next().expect("one planner is always at hand");
    for other in answers {
        assert_eq!(full_form(&other), full_form(&first), "two planners differ");
    }
    first
}

pub fn later(input: &[u8]) -> Result<Accepted, Refusal> {
    answer(Entry::Later, input, Space::AMPLE)
}

pub fn first(input: &[u8]) -> Result<Accepted, Refusal> {
    answer(Entry::First, input, Space::AMPLE)
}

/// Number and position; 0 at 0 when accepted.
pub fn number(answer: &Result<Accepted, Refusal>) -> (u8, usize) {
    match answer {
        Ok(_) => (0, 0),
        Err(refusal) => (refusal.number, refusal.at),
    }
}

pub fn refused(input: &[u8]) -> (u8, usize) {
    number(&later(input))
}

/// What the plan program prints, by all planners at hand.
pub fn printed(input: &[u8]) -> String {
    let mut texts = planners::all()
        .into_iter()
        .map(|planner| plan_form(&program::answer(&planner, input)));
    let first = texts.next().expect("one planner is always at hand");
    assert!(texts.all(|text| text == first), "two planners differ");
    first
}

/// The plan's rectangles between two strips on a large screen.
pub fn dirty(old: &[Op], new: &[Op]) -> Vec<Rect> {
    let input = two_strips(header(100, 100, 10), old, new);
    later(&input).expect("an accepted frame").plan.dirty
}

/// The plan's regions as x, y, width, height.
pub fn regions(input: &[u8]) -> Vec<(u32, u32, u32, u32)> {
    let plan = later(input).expect("an accepted frame").plan;
    plan.regions
        .iter()
        .map(|region| (region.x, region.y, region.width, region.height))
        .collect()
}
