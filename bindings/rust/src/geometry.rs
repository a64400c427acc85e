//! Boxes, regions and transforms.

/// The screen's size and the height of its bands, from 1 to 32,768 each. [`Header::new`] makes one: later versions may
/// say more of a screen.
#[derive(Debug, Clone, Copy, PartialEq, Eq, Hash)]
#[non_exhaustive]
pub struct Header {
    /// Pixels from left to right.
    pub width: u32,
    /// Pixels from top to bottom.
    pub height: u32,
    /// Pixel rows of a band.
    pub band_height: u32,
}

impl Header {
    /// Bytes of a header.
    pub const LENGTH: usize = 12;

    /// A screen of these sizes, whether they are in range or not.
    #[must_use]
    pub const fn new(width: u32, height: u32, band_height: u32) -> Self {
        Self {
            width,
            height,
            band_height,
        }
    }

    /// The sizes as they stand in an input, whether they are in range or not; nothing where there are fewer bytes.
    #[must_use]
    pub fn read(input: &[u8]) -> Option<Self> {
        let word = |at: usize| Some(u32::from_le_bytes(input.get(at..at + 4)?.try_into().ok()?));
        Some(Self::new(word(0)?, word(4)?, word(8)?))
    }

    /// The header as it stands in an input.
    #[must_use]
    pub fn bytes(&self) -> [u8; Self::LENGTH] {
        let mut bytes = [0; Self::LENGTH];
        let sizes = [self.width, self.height, self.band_height];
        for (place, size) in bytes.chunks_exact_mut(4).zip(sizes) {
            place.copy_from_slice(&size.to_le_bytes());
        }
        bytes
    }

    /// Bands of the screen, the last one perhaps lower than the others; 0 where the band height is.
    #[must_use]
    pub const fn rows(&self) -> u32 {
        match self.band_height {
            0 => 0,
            band_height => self.height.div_ceil(band_height),
        }
    }
}

/// A box by its edges. One that goes into a strip may be reversed.
#[derive(Debug, Clone, Copy, PartialEq)]
pub struct Rect {
    /// Left edge.
    pub x0: f64,
    /// Top edge.
    pub y0: f64,
    /// Right edge.
    pub x1: f64,
    /// Bottom edge.
    pub y1: f64,
}

impl Rect {
    /// A box from its edges.
    #[must_use]
    pub const fn new(x0: f64, y0: f64, x1: f64, y1: f64) -> Self {
        Self { x0, y0, x1, y1 }
    }

    /// The edges in the strip's order.
    #[must_use]
    pub const fn edges(&self) -> [f64; 4] {
        [self.x0, self.y0, self.x1, self.y1]
    }
}

/// Sends (x, y) to (a x + c y + e, b x + d y + f), from a, b, c, d, e, f.
#[derive(Debug, Clone, Copy, PartialEq)]
pub struct Affine(pub [f64; 6]);

impl Affine {
    /// Leaves everything where it is.
    pub const IDENTITY: Self = Self([1.0, 0.0, 0.0, 1.0, 0.0, 0.0]);

    /// Moves by (x, y).
    #[must_use]
    pub const fn translate(x: f64, y: f64) -> Self {
        Self([1.0, 0.0, 0.0, 1.0, x, y])
    }
}

/// A region of whole pixels to paint anew. It lies within one band.
#[derive(Debug, Clone, Copy, PartialEq, Eq, Hash)]
pub struct Region {
    /// Leftmost column.
    pub x: u32,
    /// Topmost row.
    pub y: u32,
    /// Columns.
    pub width: u32,
    /// Rows.
    pub height: u32,
}

impl Region {
    /// Pixels of the region.
    #[must_use]
    pub const fn area(&self) -> u64 {
        self.width as u64 * self.height as u64
    }
}
