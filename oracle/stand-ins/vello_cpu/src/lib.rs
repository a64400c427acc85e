//! The one type that dew's display list takes from `vello_cpu`.

/// A glyph with its place in the run.
#[derive(Debug, Clone, Copy)]
pub struct Glyph {
    pub id: u32,
    pub x: f32,
    pub y: f32,
}
