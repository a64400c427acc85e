//! `render_frame`, cut out of dew's `lib.rs`.

use kurbo::Rect;

use crate::compositor::{BandIndex, BandScheduler};
use crate::display::DisplayFlush;
use crate::display_list::DisplayList;
use crate::painter::Painter;
use crate::stats::FrameWork;

include!(concat!(env!("OUT_DIR"), "/render_frame.rs"));
