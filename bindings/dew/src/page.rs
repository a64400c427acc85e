//! A display list as a strip.

use std::fmt;

use dew::display_list::{ClipRegion, DisplayList, DrawCommand, PlacedCommand};
use kurbo::{Affine, BezPath, Cap, Join, Rect, Shape as _, Stroke};
use peniko::FontData;
use sovdringa::strip::{self, Strip};

use crate::planner::{Error, NotTurned};

/// A page that the planner accepted, or may.
#[derive(Debug)]
pub(crate) struct Page {
    pub list: DisplayList,
    pub strip: Strip,
    numbers: Vec<Numbers>,
}

/// The content numbers of a command, in the strip's order. Not every kind has three.
type Numbers = [u64; 3];

/// Why a list has no strip.
#[derive(Debug, Clone, Copy, PartialEq, Eq)]
pub enum Unwritten {
    /// The command of this place is clipped by an outline.
    OutlineClip(usize),
    /// The box of the command of this place is not the one that dew computes.
    PlacedBox(usize),
    /// The run of this place has more glyphs than a strip can count, or not a box for each.
    Glyphs(usize),
}

impl fmt::Display for Unwritten {
    fn fmt(&self, f: &mut fmt::Formatter<'_>) -> fmt::Result {
        match self {
            Self::OutlineClip(place) => write!(f, "command {place} is clipped by an outline"),
            Self::PlacedBox(place) => write!(f, "command {place} was pushed with a box of its own"),
            Self::Glyphs(place) => write!(
                f,
                "the run at {place} has too many glyphs, or not a box for each"
            ),
        }
    }
}

impl Page {
    /// The page of a list, numbered after the one before it. `used` is the last number given.
    pub fn new(
        list: DisplayList,
        last: Option<&Self>,
        used: &mut u64,
    ) -> Result<Self, Box<NotTurned>> {
        let mut strip = Strip::new();
        let mut open: Vec<Rect> = Vec::new();
        let mut numbers = Vec::with_capacity(list.commands().len());
        for (place, placed) in list.commands().iter().enumerate() {
            let before = last.and_then(|last| {
                let command = last.list.commands().get(place)?.command();
                Some((command, last.numbers[place]))
            });
            let number = number(placed.command(), before, used);
            let written = clip(&mut strip, &mut open, placed, place)
                .and_then(|()| draw(&mut strip, placed, number, place));
            if let Err(unwritten) = written {
                return Err(Box::new(NotTurned {
                    list,
                    error: Error::Unwritten(unwritten),
                }));
            }
            numbers.push(number);
        }
        Ok(Self {
            list,
            strip,
            numbers,
        })
    }
}

/// The command's numbers: those of the command before it where the contents are equal, new ones where not.
fn number(
    command: &DrawCommand,
    before: Option<(&DrawCommand, Numbers)>,
    used: &mut u64,
) -> Numbers {
    let equal = before.map_or([false; 3], |(before, _)| equal_contents(before, command));
    let kept = before.map_or(Numbers::default(), |(_, numbers)| numbers);
    std::array::from_fn(|place| {
        if equal[place] {
            return kept[place];
        }
        *used += 1;
        *used
    })
}

/// Which contents dew finds equal. What a kind does not have is equal.
fn equal_contents(old: &DrawCommand, new: &DrawCommand) -> [bool; 3] {
    match (old, new) {
        (
            DrawCommand::FillPath {
                path: p1,
                brush: b1,
                ..
            },
            DrawCommand::FillPath {
                path: p2,
                brush: b2,
                ..
            },
        ) => [p1 == p2, b1 == b2, true],
        (
            DrawCommand::StrokePath {
                path: p1,
                brush: b1,
                stroke: s1,
                ..
            },
            DrawCommand::StrokePath {
                path: p2,
                brush: b2,
                stroke: s2,
                ..
            },
        ) => [p1 == p2, b1 == b2, dashes_eq(s1, s2)],
        (
            DrawCommand::GlyphRun {
                font: f1,
                brush: b1,
                ..
            },
            DrawCommand::GlyphRun {
                font: f2,
                brush: b2,
                ..
            },
        ) => [fonts_eq(f1, f2), b1 == b2, true],
        (DrawCommand::Scene { scene: s1, .. }, DrawCommand::Scene { scene: s2, .. }) => {
            [s1 == s2, true, true]
        }
        _ => [false; 3],
    }
}

fn dashes_eq(a: &Stroke, b: &Stroke) -> bool {
    a.dash_pattern == b.dash_pattern && a.dash_offset == b.dash_offset
}

fn fonts_eq(a: &FontData, b: &FontData) -> bool {
    a.data.id() == b.data.id() && a.index == b.index
}

/// Closes and opens clips until those of the command are open.
fn clip(
    strip: &mut Strip,
    open: &mut Vec<Rect>,
    placed: &PlacedCommand,
    place: usize,
) -> Result<(), Unwritten> {
    let clip = placed.command().clip();
    let regions = clip.map_or(&[][..], |clip| clip.regions());
    let mut wanted = Vec::with_capacity(regions.len());
    for region in regions {
        match region {
            ClipRegion::Rect(rect) => wanted.push(*rect),
            ClipRegion::Shape { .. } => return Err(Unwritten::OutlineClip(place)),
        }
    }
    let common = open
        .iter()
        .zip(&wanted)
        .take_while(|(open, wanted)| bits(**open) == bits(**wanted))
        .count();
    for _ in common..open.len() {
        strip.pop();
    }
    for rect in &wanted[common..] {
        strip.clip(boxed(*rect));
    }
    *open = wanted;
    Ok(())
}

fn draw(
    strip: &mut Strip,
    placed: &PlacedCommand,
    numbers: Numbers,
    place: usize,
) -> Result<(), Unwritten> {
    let command = placed.command();
    if bits(placed.bounds()) != bits(command.bounds()) {
        return Err(Unwritten::PlacedBox(place));
    }
    match command {
        DrawCommand::FillPath {
            path, transform, ..
        } => {
            strip.fill(shape(path, *transform, numbers));
        }
        DrawCommand::StrokePath {
            path,
            transform,
            stroke,
            ..
        } => {
            strip.stroke(shape(path, *transform, numbers), pen(stroke, numbers[2]));
        }
        DrawCommand::GlyphRun {
            font_size,
            glyphs,
            glyph_bounds,
            transform,
            bounds,
            ..
        } => {
            let run = strip::Run {
                font: numbers[0],
                size: *font_size,
                affine: affine(*transform),
                brush: numbers[1],
                bounds: boxed(*bounds),
            };
            if glyphs.len() != glyph_bounds.len() {
                return Err(Unwritten::Glyphs(place));
            }
            let glyphs: Vec<strip::Glyph> = glyphs
                .iter()
                .zip(glyph_bounds.iter())
                .map(|(glyph, bounds)| strip::Glyph {
                    id: glyph.id,
                    x: glyph.x,
                    y: glyph.y,
                    bounds: boxed(*bounds),
                })
                .collect();
            strip
                .run(run, &glyphs)
                .map_err(|_| Unwritten::Glyphs(place))?;
        }
        // One number stands for recording, generation and target: dew finds scenes equal where all three are.
        DrawCommand::Scene {
            transform, bounds, ..
        } => {
            strip.scene(strip::Scene {
                content: numbers[0],
                generation: 0,
                target: 0,
                affine: affine(*transform),
                bounds: boxed(*bounds),
            });
        }
    }
    Ok(())
}

fn shape(path: &BezPath, transform: Affine, numbers: Numbers) -> strip::Shape {
    strip::Shape {
        path: numbers[0],
        bounds: boxed(path.bounding_box()),
        affine: affine(transform),
        brush: numbers[1],
    }
}

fn pen(stroke: &Stroke, dash: u64) -> strip::Stroke {
    let cap = |cap: Cap| match cap {
        Cap::Butt => strip::Cap::Butt,
        Cap::Square => strip::Cap::Square,
        Cap::Round => strip::Cap::Round,
    };
    strip::Stroke {
        width: stroke.width,
        join: match stroke.join {
            Join::Bevel => strip::Join::Bevel,
            Join::Miter => strip::Join::Miter,
            Join::Round => strip::Join::Round,
        },
        miter_limit: stroke.miter_limit,
        start_cap: cap(stroke.start_cap),
        end_cap: cap(stroke.end_cap),
        dash,
    }
}

/// Kurbo's `as_coeffs`.
const fn affine(transform: Affine) -> sovdringa::Affine {
    sovdringa::Affine(transform.0)
}

const fn boxed(rect: Rect) -> sovdringa::Rect {
    sovdringa::Rect::new(rect.x0, rect.y0, rect.x1, rect.y1)
}

fn bits(rect: Rect) -> [u64; 4] {
    boxed(rect).edges().map(f64::to_bits)
}
