//! `diff_dirty`, cut out of dew's `runtime.rs`.

use kurbo::Rect;

use crate::display_list::DisplayList;

include!(concat!(env!("OUT_DIR"), "/diff_dirty.rs"));

/// `diff_dirty` for other crates: dew keeps it private.
#[must_use]
pub fn dirty_between(old: &DisplayList, new: &DisplayList) -> Vec<Rect> {
    diff_dirty(old, new)
}
