//! `row_of`, cut out of dew's `compositor.rs` a second time: it is private there,
//! and comparing it alone is thousands of times faster than through an index.

include!(concat!(env!("OUT_DIR"), "/row_of.rs"));

/// `row_of` for other crates.
#[must_use]
pub fn row(y: f64, band_height: u32, row_count: u32) -> u32 {
    row_of(y, band_height, row_count)
}
