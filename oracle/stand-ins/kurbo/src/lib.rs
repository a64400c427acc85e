//! Kurbo's names with document 01's meanings ("Kurbo's rectangles").

mod affine;
mod path;
mod rect;
mod stroke;

pub use affine::Affine;
pub use path::{BezPath, Shape};
pub use rect::Rect;
pub use stroke::{Cap, Dash, Join, Stroke};
