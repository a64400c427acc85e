//! The header: the screen's size and the band height.

use crate::refusal::{CUT_OFF, Refusal, SIZE};

/// Bytes of a header.
pub const LENGTH: usize = 12;

/// The largest width, height and band height.
pub const LARGEST: u32 = 32_768;

#[derive(Debug, Clone, Copy, PartialEq, Eq)]
pub struct Header {
    pub width: u32,
    pub height: u32,
    pub band_height: u32,
}

impl Header {
    /// Reads and checks the header of an input.
    pub fn read(input: &[u8]) -> Result<Self, Refusal> {
        let word = |at: usize| {
            input
                .get(at..at + 4)
                .map(|bytes| u32::from_le_bytes(bytes.try_into().expect("four bytes")))
        };
        let (Some(width), Some(height), Some(band_height)) = (word(0), word(4), word(8)) else {
            return Err(Refusal::new(CUT_OFF, 0));
        };
        Self {
            width,
            height,
            band_height,
        }
        .checked()
    }

    /// The header, if its sizes are in range.
    pub fn checked(self) -> Result<Self, Refusal> {
        let fits = |size: u32| (1..=LARGEST).contains(&size);
        if fits(self.width) && fits(self.height) && fits(self.band_height) {
            Ok(self)
        } else {
            Err(Refusal::new(SIZE, 0))
        }
    }

    /// Band rows of the screen.
    #[must_use]
    pub const fn rows(&self) -> u32 {
        self.height.div_ceil(self.band_height)
    }

    #[must_use]
    pub fn bytes(&self) -> Vec<u8> {
        [self.width, self.height, self.band_height]
            .iter()
            .flat_map(|size| size.to_le_bytes())
            .collect()
    }
}
