//! Stroke geometry.

#[derive(Debug, Clone, Copy, PartialEq, Eq)]
pub enum Join {
    Bevel,
    Miter,
    Round,
}

#[derive(Debug, Clone, Copy, PartialEq, Eq)]
pub enum Cap {
    Butt,
    Square,
    Round,
}

/// A dash pattern as a content number.
#[derive(Debug, Clone, Copy, PartialEq, Eq)]
pub struct Dash(pub u64);

/// The dash's number stands for pattern and offset together, so the offset is
/// the same for all.
#[derive(Debug, Clone)]
pub struct Stroke {
    pub width: f64,
    pub join: Join,
    pub miter_limit: f64,
    pub start_cap: Cap,
    pub end_cap: Cap,
    pub dash_pattern: Dash,
    pub dash_offset: f64,
}
