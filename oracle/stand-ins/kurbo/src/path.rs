//! Paths as a content number with their box.

use crate::Rect;

/// A path: equal when number and box are equal.
#[derive(Debug, Clone, PartialEq)]
pub struct BezPath {
    pub number: u64,
    pub bounds: Rect,
}

impl BezPath {
    /// No elements: a numbered path has nothing to flatten.
    #[must_use]
    pub const fn elements(&self) -> &[()] {
        &[]
    }
}

/// What dew asks of a shape.
pub trait Shape {
    fn to_path(&self, tolerance: f64) -> BezPath;
    fn bounding_box(&self) -> Rect;
}

impl Shape for BezPath {
    fn to_path(&self, _tolerance: f64) -> BezPath {
        self.clone()
    }

    fn bounding_box(&self) -> Rect {
        self.bounds
    }
}
