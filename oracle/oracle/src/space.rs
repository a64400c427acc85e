//! Space lent to an entry, counted in items.

/// Commands, glyphs and clips of both strips; rectangles, regions and index
/// words of the plan.
#[derive(Debug, Clone, Copy, PartialEq, Eq)]
pub struct Space {
    pub commands: usize,
    pub glyphs: usize,
    pub clips: usize,
    pub rectangles: usize,
    pub regions: usize,
    pub words: usize,
}

impl Space {
    /// More than any frame needs.
    pub const AMPLE: Self = Self {
        commands: usize::MAX,
        glyphs: usize::MAX,
        clips: usize::MAX,
        rectangles: usize::MAX,
        regions: usize::MAX,
        words: usize::MAX,
    };

    /// What the plan program lends. All that 65,536 bytes can carry fits.
    pub const PROGRAM: Self = Self {
        rectangles: 2_048,
        regions: 4_096,
        words: 16_384,
        ..Self::AMPLE
    };

    /// In the table's order.
    #[must_use]
    pub const fn items(&self) -> [usize; 6] {
        [
            self.commands,
            self.glyphs,
            self.clips,
            self.rectangles,
            self.regions,
            self.words,
        ]
    }

    #[must_use]
    pub const fn of_items(items: [usize; 6]) -> Self {
        let [commands, glyphs, clips, rectangles, regions, words] = items;
        Self {
            commands,
            glyphs,
            clips,
            rectangles,
            regions,
            words,
        }
    }

    /// Whether `needed` exceeds this space nowhere.
    #[must_use]
    pub fn holds(&self, needed: &Self) -> bool {
        self.items()
            .iter()
            .zip(needed.items())
            .all(|(lent, needed)| *lent >= needed)
    }
}
