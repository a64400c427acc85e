//! A painter that tells apart all that the four rules let it tell apart. A colour
//! is a hash chain over what was painted, so two pixels are alike only where
//! the same was painted in the same order.

use std::collections::HashMap;

use kurbo::Rect;

use crate::command::{Draw, Glyph, Pen, Run, Scene, Shape};
use crate::header::Header;
use crate::model::commands::{Drawn, glyph_box, has_area};
use crate::random::mix;

pub type Colour = u64;

pub const BACKGROUND: Colour = 0;

/// Pixel (x, y) is touched by a box of positive area.
#[must_use]
pub fn touched(rect: Rect, x: u32, y: u32) -> bool {
    let (x, y) = (f64::from(x), f64::from(y));
    has_area(rect) && rect.x0 < x + 1.0 && rect.x1 > x && rect.y0 < y + 1.0 && rect.y1 > y
}

/// A painter that takes more than the rules give it. Each must be caught: it
/// shows that the lists reach what the rule is about.
#[derive(Debug, Clone, Copy, PartialEq, Eq)]
pub enum Licence {
    /// Equal commands by bits: both zeros differ.
    ZerosByBits,
    /// A run is silent where its glyphs' boxes do not touch, not where its own
    /// does not: reversed glyph boxes reach out of it.
    RunsByTheirGlyphsAlone,
    /// FILLs paint alike only where their whole boxes are alike.
    FillsByTheirBoxes,
    /// A run without glyphs paints its own box.
    EmptyRunsPaint,
}

/// The glyphs' part of a painter is one function for the whole list, so it must
/// be known beforehand where each glyph has to be silent.
pub struct Painter {
    width: u32,
    licence: Option<Licence>,
    /// For each glyph key, the pixels that every box of it touches.
    inked: HashMap<u64, Vec<bool>>,
}

impl Painter {
    /// A painter for the commands of a list's accepted frames.
    #[must_use]
    pub fn new(header: &Header, frames: &[&[Drawn]], licence: Option<Licence>) -> Self {
        let mut painter = Self {
            width: header.width,
            licence,
            inked: HashMap::new(),
        };
        for command in frames.iter().copied().flatten() {
            let Draw::Run(run) = &command.draw else {
                continue;
            };
            for glyph in &run.glyphs {
                painter.learn(header, command, run, glyph);
            }
        }
        painter
    }

    /// A glyph is silent where its box does not touch (rule iv), and where the
    /// run's box does not (rule ii): with reversed glyph boxes they differ.
    fn learn(&mut self, header: &Header, command: &Drawn, run: &Run, glyph: &Glyph) {
        let bounds = glyph_box(run, command.clip_box, glyph);
        let pixels = (header.width * header.height) as usize;
        let key = self.glyph_key(command, run, glyph);
        let by_glyphs = self.licence == Some(Licence::RunsByTheirGlyphsAlone);
        let inked = self.inked.entry(key).or_insert_with(|| vec![true; pixels]);
        for y in 0..header.height {
            for x in 0..header.width {
                let pixel = (y * header.width + x) as usize;
                inked[pixel] &= touched(bounds, x, y) && (by_glyphs || touched(command.own, x, y));
            }
        }
    }

    /// The colour of a pixel after a command.
    #[must_use]
    pub fn paint(&self, command: &Drawn, x: u32, y: u32, below: Colour) -> Colour {
        match &command.draw {
            Draw::Run(run) if !run.glyphs.is_empty() => {
                let pixel = (y * self.width + x) as usize;
                run.glyphs.iter().fold(below, |colour, glyph| {
                    let key = self.glyph_key(command, run, glyph);
                    if self.inked[&key][pixel] {
                        self.hash(colour).number(key).value
                    } else {
                        colour
                    }
                })
            }
            _ if !touched(command.own, x, y) => below,
            Draw::Run(_) if self.licence == Some(Licence::EmptyRunsPaint) => {
                self.hash(below).number(5).rect(command.own).value
            }
            Draw::Run(_) => below,
            // Rule iii: only the part of the pixel's square tells clips apart.
            Draw::Fill(shape) => {
                let part = match self.licence {
                    Some(Licence::FillsByTheirBoxes) => command.own,
                    _ => part(command.own, x, y),
                };
                self.hash(below).number(3).shape(shape).rect(part).value
            }
            Draw::Stroke(shape, pen) => {
                let hash = self.hash(below).number(4).shape(shape).pen(pen);
                hash.clips(command).value
            }
            Draw::Scene(scene) => {
                let hash = self.hash(below).number(7).scene(scene);
                hash.clips(command).value
            }
        }
    }

    /// All that a glyph is painted by, floats by value; not its box.
    fn glyph_key(&self, command: &Drawn, run: &Run, glyph: &Glyph) -> u64 {
        self.hash(6)
            .number(run.font)
            .floats(&[f64::from(run.size), f64::from(glyph.x), f64::from(glyph.y)])
            .floats(&run.affine.0)
            .number(run.brush)
            .number(u64::from(glyph.id))
            .clips(command)
            .value
    }

    fn hash(&self, start: u64) -> Hash {
        Hash {
            value: mix(start),
            zeros_by_bits: self.licence == Some(Licence::ZerosByBits),
        }
    }
}

/// The part of a pixel's closed square inside a box.
fn part(rect: Rect, x: u32, y: u32) -> Rect {
    let (x, y) = (f64::from(x), f64::from(y));
    Rect::new(
        rect.x0.max(x),
        rect.y0.max(y),
        rect.x1.min(x + 1.0),
        rect.y1.min(y + 1.0),
    )
}

/// A chain of hashes, floats by value.
#[derive(Clone, Copy)]
struct Hash {
    value: u64,
    zeros_by_bits: bool,
}

impl Hash {
    const fn number(self, number: u64) -> Self {
        Self {
            value: mix(self.value ^ mix(number)),
            ..self
        }
    }

    fn floats(self, numbers: &[f64]) -> Self {
        // Adding 0 leaves every value and makes both zeros one.
        let zero = if self.zeros_by_bits { -0.0 } else { 0.0 };
        numbers
            .iter()
            .fold(self, |hash, number| hash.number((number + zero).to_bits()))
    }

    fn rect(self, rect: Rect) -> Self {
        self.floats(&rect.edges())
    }

    fn shape(self, shape: &Shape) -> Self {
        self.number(shape.path)
            .rect(shape.bounds)
            .floats(&shape.affine.0)
            .number(shape.brush)
    }

    fn pen(self, pen: &Pen) -> Self {
        self.floats(&[pen.width, pen.miter_limit])
            .number(pen.join as u64)
            .number(pen.start_cap as u64)
            .number(pen.end_cap as u64)
            .number(pen.dash)
    }

    fn scene(self, scene: &Scene) -> Self {
        self.number(scene.content)
            .number(scene.generation)
            .number(scene.target)
            .floats(&scene.affine.0)
            .rect(scene.bounds)
    }

    fn clips(self, command: &Drawn) -> Self {
        let hash = self.number(command.clips.len() as u64);
        command
            .clips
            .iter()
            .fold(hash, |hash, clip| hash.rect(*clip))
    }
}

#[cfg(test)]
mod tests {
    use kurbo::{Affine, Rect};

    use super::{BACKGROUND, Colour, Painter, part, touched};
    use crate::command::{Draw, Op, Shape};
    use crate::entry::{Entry, call, read};
    use crate::generate::frames::{self, call_input};
    use crate::header::Header;
    use crate::model::changes::equal;
    use crate::model::commands::{Drawn, drawn};
    use crate::planners::document;

    const SCREEN: Header = Header {
        width: 4,
        height: 3,
        band_height: 2,
    };

    /// A colour below that no painter makes.
    const BELOW: Colour = 77;

    fn pixels(header: &Header) -> impl Iterator<Item = (u32, u32)> {
        let width = header.width;
        (0..header.height).flat_map(move |y| (0..width).map(move |x| (x, y)))
    }

    /// The accepted commands of a list.
    fn accepted(list: &frames::List) -> Vec<Vec<Drawn>> {
        let mut last: Option<&[u8]> = None;
        let mut accepted = Vec::new();
        for frame in &list.frames {
            let (entry, input) = call_input(&list.header, last, &frame.strip);
            if call(&document, entry, &input, frame.space).is_ok() {
                let read = read(entry, &input).expect("an accepted frame is read");
                accepted.push(drawn(&read.new));
                last = Some(&frame.strip);
            }
        }
        accepted
    }

    /// Rules i to iii, for every pair of commands of many lists. Rule iv holds by
    /// the shape of `paint`, but for the silence that rule ii asks of a run.
    #[test]
    fn the_painter_keeps_the_rules() {
        let (mut alike, mut silent, mut cut_alike) = (0, 0, 0);
        for seed in 0..300 {
            let list = frames::list(seed, &document);
            let frames = accepted(&list);
            let frames: Vec<&[Drawn]> = frames.iter().map(Vec::as_slice).collect();
            let painter = Painter::new(&list.header, &frames, None);
            let all: Vec<&Drawn> = frames.iter().copied().flatten().collect();
            let paint = |command: &Drawn, x, y| painter.paint(command, x, y, BELOW);
            for (place, a) in all.iter().enumerate() {
                for (x, y) in pixels(&list.header) {
                    if !touched(a.own, x, y) {
                        assert_eq!(paint(a, x, y), BELOW);
                        silent += 1;
                    }
                }
                for b in &all[place + 1..] {
                    let cut_only = matches!(
                        (&a.draw, &b.draw),
                        (Draw::Fill(one), Draw::Fill(two)) if one == two
                    );
                    for (x, y) in pixels(&list.header) {
                        if equal(a, b, None) {
                            assert_eq!(paint(a, x, y), paint(b, x, y));
                            alike += 1;
                        } else if cut_only && part(a.own, x, y) == part(b.own, x, y) {
                            assert_eq!(paint(a, x, y), paint(b, x, y));
                            cut_alike += 1;
                        }
                    }
                }
            }
        }
        println!("{alike} equal, {silent} untouched, {cut_alike} cut to the same part");
        assert!(alike > 10_000 && silent > 100_000 && cut_alike > 1_000);
    }

    fn one(clips: &[Rect], draw: Draw) -> Drawn {
        let mut ops: Vec<Op> = clips.iter().map(|clip| Op::Clip(*clip)).collect();
        ops.push(Op::Draw(draw));
        drawn(&ops).remove(0)
    }

    fn shape(brush: u64) -> Shape {
        Shape {
            path: 1,
            bounds: Rect::new(0.0, 0.0, 4.0, 3.0),
            affine: Affine::IDENTITY,
            brush,
        }
    }

    /// What the rules leave open the painter tells apart: a FILL by the part of
    /// the pixel's square, other commands by their list of clips.
    #[test]
    fn the_painter_tells_apart_what_it_may() {
        let painter = Painter::new(&SCREEN, &[], None);
        let paint = |command: &Drawn, x: u32| painter.paint(command, x, 1, BACKGROUND);
        let half = Rect::new(0.0, 0.0, 1.5, 3.0);
        let whole = one(&[], Draw::Fill(shape(1)));
        let cut = one(&[half], Draw::Fill(shape(1)));
        assert_eq!(paint(&whole, 0), paint(&cut, 0));
        assert_ne!(paint(&whole, 1), paint(&cut, 1));
        assert_eq!(paint(&cut, 2), BACKGROUND);
        assert_ne!(paint(&whole, 0), paint(&one(&[], Draw::Fill(shape(2))), 0));
        let pen = crate::generate::pages::pen(&mut crate::random::Random::new("pen", 0));
        let once = one(&[half], Draw::Stroke(shape(1), pen.clone()));
        let twice = one(&[half, half], Draw::Stroke(shape(1), pen));
        assert_eq!(once.own, twice.own);
        assert_ne!(paint(&once, 0), paint(&twice, 0));
    }

    #[test]
    fn a_touch_is_of_open_sides() {
        let rect = Rect::new(1.0, 1.0, 2.0, 2.0);
        assert!(touched(rect, 1, 1));
        assert!(!touched(rect, 0, 1));
        assert!(!touched(rect, 2, 1));
        assert!(touched(Rect::new(1.0, 1.0, 2.0_f64.next_up(), 2.0), 2, 1));
        assert!(!touched(Rect::new(1.5, 1.0, 1.5, 2.0), 1, 1));
    }

    #[test]
    fn the_first_entry_is_used_until_a_frame_is_accepted() {
        let (entry, input) = call_input(&SCREEN, None, &[0]);
        assert_eq!((entry, input.len()), (Entry::First, 13));
        let (entry, input) = call_input(&SCREEN, Some(&[0]), &[0]);
        assert_eq!((entry, input.len()), (Entry::Later, 14));
    }
}
