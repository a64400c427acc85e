//! A display of a given size that keeps what is flushed to it.

use crate::compositor::DeviceRegion;

/// What `render_frame` needs of a display.
pub trait DisplayFlush {
    fn size(&self) -> (u32, u32);
    fn flush_region(&mut self, region: DeviceRegion, pixels: &[u8]);
    fn present(&mut self);
}

/// The flushed regions and the number of frames presented.
#[derive(Debug)]
pub struct Display {
    pub size: (u32, u32),
    pub flushed: Vec<DeviceRegion>,
    pub presented: u32,
}

impl DisplayFlush for Display {
    fn size(&self) -> (u32, u32) {
        self.size
    }

    fn flush_region(&mut self, region: DeviceRegion, _pixels: &[u8]) {
        self.flushed.push(region);
    }

    fn present(&mut self) {
        self.presented += 1;
    }
}
