//! Dew's planner, unchanged: the display list, the compositor and the counters
//! whole, `diff_dirty`, `render_frame` and `row_of` cut out of the published
//! text. Ours are the painter and the display that `render_frame` drives, the
//! table of scenes, and what lies in `stand-ins`.
//!
//! Where the source is not beside the repository the crate is empty.

#[cfg(dew)]
include!(concat!(env!("OUT_DIR"), "/modules.rs"));

#[cfg(dew)]
pub mod display;
#[cfg(dew)]
pub mod frame;
#[cfg(dew)]
pub mod painter;
#[cfg(dew)]
pub mod rows;
#[cfg(dew)]
pub mod runtime;
#[cfg(dew)]
pub mod scenes;
#[cfg(dew)]
mod views;
