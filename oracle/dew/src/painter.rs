//! A painter that paints nothing and keeps what it was asked to paint.

use crate::compositor::DeviceRegion;
use crate::display_list::DisplayList;
use crate::stats::FrameWork;

/// The regions in the order in which `render_frame` asks for them, each with
/// the candidates it was given.
#[derive(Debug, Default)]
pub struct Painter {
    pub asked: Vec<(DeviceRegion, Vec<u32>)>,
}

/// No pixels.
#[derive(Debug)]
pub struct Pixmap;

impl Painter {
    pub fn rasterize_region(
        &mut self,
        _list: &DisplayList,
        region: DeviceRegion,
        candidates: &[u32],
        _work: &mut FrameWork,
    ) -> Pixmap {
        self.asked.push((region, candidates.to_vec()));
        Pixmap
    }
}

impl Pixmap {
    #[must_use]
    pub const fn data_as_u8_slice(&self) -> &[u8] {
        &[]
    }
}
