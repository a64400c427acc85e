//! Page turns of chosen sizes, the same on every machine.

use kurbo::{Affine, Cap, Join, Rect};
use oracle::command::{Draw, Glyph, Op, Pen, Run, Scene, Shape};
use oracle::entry::{self, Entry};
use oracle::header::Header;
use oracle::random::Random;
use oracle::write;

/// Two pages under one header.
pub struct Turn {
    pub header: Header,
    pub old: Vec<Op>,
    pub new: Vec<Op>,
}

/// A panel of 800 by 480 pixels with dew's usual bands.
pub const PANEL: Header = Header {
    width: 800,
    height: 480,
    band_height: 16,
};

impl Turn {
    /// Header, old strip, new strip.
    pub fn input(&self) -> Vec<u8> {
        let mut input = self.header.bytes();
        input.extend(write::strip(&self.old));
        input.extend(write::strip(&self.new));
        input
    }
}

/// The repository's example: a table of districts and its next release.
pub fn districts() -> Turn {
    let input = include_bytes!("../../examples/districts.bin");
    let frame = entry::read(Entry::Later, input).expect("the example has a plan");
    Turn {
        header: frame.header,
        old: frame.old.expect("two strips"),
        new: frame.new,
    }
}

/// How many commands of a page change.
#[derive(Clone, Copy)]
pub enum Changes {
    /// One in fifty.
    Few,
    /// Every other one.
    Many,
}

impl Changes {
    pub const fn name(self) -> &'static str {
        match self {
            Self::Few => "few",
            Self::Many => "many",
        }
    }

    const fn every(self) -> usize {
        match self {
            Self::Few => 50,
            Self::Many => 2,
        }
    }
}

/// A page of cells over the screen: of eight commands five are fills, one a stroke, one a run of eight glyphs and one a scene.
/// Sixteen commands share a clip.
pub fn page_turn(header: Header, commands: usize, changes: Changes) -> Turn {
    let mut random = Random::new("bench", commands as u64);
    let mut old = Vec::new();
    for place in 0..commands {
        if place % 16 == 0 {
            if place > 0 {
                old.push(Op::Pop);
            }
            old.push(Op::Clip(Rect::new(
                2.0,
                2.0,
                f64::from(header.width) - 2.0,
                f64::from(header.height) - 2.0,
            )));
        }
        let at = moved(
            random.below(header.width as usize - 12) as f64 + 0.5,
            random.below(header.height as usize - 12) as f64 + 0.25,
        );
        old.push(Op::Draw(match place % 8 {
            3 => Draw::Stroke(cell(at), PEN),
            5 => Draw::Run(text(8, at)),
            7 => Draw::Scene(Scene {
                content: place as u64,
                generation: 1,
                target: 1,
                affine: at,
                bounds: CELL,
            }),
            _ => Draw::Fill(cell(at)),
        }));
    }
    let new = changed(&old, changes.every());
    Turn { header, old, new }
}

/// The page with every n-th command changed in one respect.
fn changed(page: &[Op], every: usize) -> Vec<Op> {
    let mut new = page.to_vec();
    let draws = new.iter_mut().filter_map(|op| match op {
        Op::Draw(draw) => Some(draw),
        Op::Clip(_) | Op::Pop => None,
    });
    for (place, draw) in draws.enumerate() {
        if place % every != every / 2 {
            continue;
        }
        match draw {
            Draw::Fill(shape) => shape.affine.0[4] += 1.5,
            Draw::Stroke(_, pen) => pen.width = 2.0,
            Draw::Run(run) => {
                if let Some(glyph) = run.glyphs.last_mut() {
                    glyph.id += 1;
                }
            }
            Draw::Scene(scene) => scene.generation += 1,
        }
    }
    new
}

/// One run of so many glyphs, in lines of 100 of them, of which every n-th changes.
pub fn glyph_turn(glyphs: usize, changes: Changes) -> Turn {
    let mut run = text(0, moved(2.0, 10.0));
    for place in 0..glyphs {
        let (x, y) = ((place % 100) as f32 * 7.0, (place / 100) as f32 * 2.5);
        run.glyphs.push(glyph(place as u32 % 90, x, y));
    }
    let old = run.clone();
    for glyph in run.glyphs.iter_mut().step_by(changes.every()) {
        glyph.id += 1;
    }
    Turn {
        header: PANEL,
        old: vec![Op::Draw(Draw::Run(old))],
        new: vec![Op::Draw(Draw::Run(run))],
    }
}

/// The page turn under so many clips, one within the other.
pub fn clipped_turn(depth: usize, commands: usize, changes: Changes) -> Turn {
    let mut turn = page_turn(PANEL, commands, changes);
    let (width, height) = (f64::from(PANEL.width), f64::from(PANEL.height));
    for page in [&mut turn.old, &mut turn.new] {
        page.retain(|op| matches!(op, Op::Draw(_)));
        let clips = (0..depth).map(|level| {
            let inset = level as f64 / 4.0;
            Op::Clip(Rect::new(inset, inset, width - inset, height - inset))
        });
        page.splice(0..0, clips);
    }
    turn
}

/// So many cells, all of which change their colour: a rectangle each.
pub fn rectangle_turn(header: Header, rectangles: usize) -> Turn {
    let mut random = Random::new("rectangles", rectangles as u64);
    let old: Vec<Op> = (0..rectangles)
        .map(|_| {
            let mut shape = cell(moved(
                random.below(header.width as usize - 12) as f64,
                random.below(header.height as usize - 12) as f64,
            ));
            shape.bounds = Rect::new(0.0, 0.0, 3.0, 3.0);
            Op::Draw(Draw::Fill(shape))
        })
        .collect();
    let mut new = old.clone();
    for op in &mut new {
        if let Op::Draw(Draw::Fill(shape)) = op {
            shape.brush += 1;
            shape.path += 1;
        }
    }
    Turn { header, old, new }
}

const CELL: Rect = Rect::new(0.0, 0.0, 11.0, 9.0);

const PEN: Pen = Pen {
    width: 1.0,
    join: Join::Miter,
    miter_limit: 4.0,
    start_cap: Cap::Butt,
    end_cap: Cap::Butt,
    dash: 0,
};

const fn moved(x: f64, y: f64) -> Affine {
    Affine([1.0, 0.0, 0.0, 1.0, x, y])
}

const fn cell(affine: Affine) -> Shape {
    Shape {
        path: 1,
        bounds: CELL,
        affine,
        brush: 1,
    }
}

fn text(glyphs: usize, affine: Affine) -> Run {
    Run {
        font: 1,
        size: 12.0,
        affine,
        brush: 1,
        bounds: CELL,
        glyphs: (0..glyphs)
            .map(|place| glyph(place as u32, place as f32 * 7.0, 0.0))
            .collect(),
    }
}

fn glyph(id: u32, x: f32, y: f32) -> Glyph {
    let (left, top) = (f64::from(x), f64::from(y));
    Glyph {
        id,
        x,
        y,
        bounds: Rect::new(left, top - 9.0, left + 6.0, top + 2.0),
    }
}
