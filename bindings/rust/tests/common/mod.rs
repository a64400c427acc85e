//! What the tests share.
#![allow(dead_code, unused_imports)]

mod slices;

use std::path::Path;

pub use slices::Slices;

use sovdringa::strip::{Cap, Glyph, Join, Run, Scene, Shape, Strip, Stroke};
use sovdringa::{Affine, Header, Plan, Rect};

/// A file of the repository's examples.
pub fn example(name: &str) -> Vec<u8> {
    let path = Path::new(env!("CARGO_MANIFEST_DIR"))
        .join("../../examples")
        .join(name);
    std::fs::read(&path).unwrap_or_else(|error| panic!("{}: {error}", path.display()))
}

/// A plan as the plan program prints it.
pub fn printed(plan: &Plan<'_>) -> String {
    let counts = plan.counts();
    let mut text = format!("dirty {}\n", counts.rectangles);
    for region in plan.regions() {
        text += &format!(
            "region {} {} {} {} draw",
            region.x, region.y, region.width, region.height
        );
        for place in plan.candidates(region).expect("a region of the plan") {
            text += &format!(" {place}");
        }
        text.push('\n');
    }
    text + &format!("regions {} pixels {}\n", counts.regions, counts.pixels)
}

pub const HEADER: Header = Header::new(40, 40, 16);

pub const BOX: Rect = Rect::new(1.0, 2.0, 9.0, 20.0);

pub const SHAPE: Shape = Shape {
    path: 1,
    bounds: BOX,
    affine: Affine::IDENTITY,
    brush: 2,
};

pub const STROKE: Stroke = Stroke {
    width: 2.0,
    join: Join::Miter,
    miter_limit: 4.0,
    start_cap: Cap::Butt,
    end_cap: Cap::Round,
    dash: 3,
};

pub const RUN: Run = Run {
    font: 4,
    size: 12.5,
    affine: Affine::IDENTITY,
    brush: 5,
    bounds: BOX,
};

pub const GLYPH: Glyph = Glyph {
    id: 6,
    x: 1.5,
    y: 2.5,
    bounds: BOX,
};

pub const SCENE: Scene = Scene {
    content: 7,
    generation: 8,
    target: 9,
    affine: Affine::IDENTITY,
    bounds: BOX,
};

/// A page of every command.
pub fn page() -> Strip {
    let mut page = Strip::new();
    page.clip(Rect::new(0.0, 0.0, 30.0, 30.0))
        .fill(SHAPE)
        .stroke(SHAPE, STROKE)
        .pop()
        .scene(SCENE);
    page.run(RUN, &[GLYPH, GLYPH])
        .expect("two glyphs have a count");
    page
}
