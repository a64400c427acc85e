//! Brushes and fonts as content numbers: equal numbers are equal things.

/// A paint.
#[derive(Debug, Clone, PartialEq, Eq)]
pub struct Brush(pub u64);

/// A font file's bytes, known by their identity.
#[derive(Debug, Clone)]
pub struct Blob(pub u64);

impl Blob {
    /// The identity that dew compares.
    #[must_use]
    pub const fn id(&self) -> u64 {
        self.0
    }
}

/// A font. The content number stands for file and index together, so the index
/// is the same for all.
#[derive(Debug, Clone)]
pub struct FontData {
    pub data: Blob,
    pub index: u32,
}

impl FontData {
    /// The font that a content number stands for.
    #[must_use]
    pub const fn numbered(number: u64) -> Self {
        Self {
            data: Blob(number),
            index: 0,
        }
    }
}
