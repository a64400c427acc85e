//! Lent space that owns its memory.

use crate::geometry::Header;
use crate::lent::Lent;

/// How many items a call may need at most. One of any kind too few, and the call is refused with number 10.
///
/// `Limits::default()` is none of anything, and each kind has a method that sets it: later versions may have more kinds.
///
/// ```
/// use sovdringa::{Limits, Space};
///
/// let limits = Limits::default().with_commands(64).with_rectangles(32).with_regions(32).with_index_words(1_024);
/// assert_eq!((limits.commands, limits.glyphs), (64, 0));
/// assert_eq!(Space::new(limits).limits(), limits);
/// ```
#[derive(Debug, Clone, Copy, PartialEq, Eq, Hash, Default)]
#[non_exhaustive]
pub struct Limits {
    /// Drawing commands of both strips.
    pub commands: usize,
    /// Glyphs of both strips.
    pub glyphs: usize,
    /// Clips of both strips.
    pub clips: usize,
    /// Changed rectangles.
    pub rectangles: usize,
    /// Regions to paint anew.
    pub regions: usize,
    /// Words of the band index.
    pub index_words: usize,
}

/// The shortest that carry each item.
const DRAWING_BYTES: usize = 97;
const GLYPH_BYTES: usize = 45;
const CLIP_BYTES: usize = 33;

/// What a strip may carry.
const STRIP_COMMANDS: usize = 4_096;
const STRIP_GLYPHS: usize = 16_384;
const STRIP_CLIPS: usize = 4_096;

impl Limits {
    /// What the plan program lends beside the commands, glyphs and clips.
    const PROGRAM_REGIONS: usize = 4_096;
    const PROGRAM_WORDS: usize = 16_384;

    /// The same with so many drawing commands.
    #[must_use]
    pub const fn with_commands(mut self, commands: usize) -> Self {
        self.commands = commands;
        self
    }

    /// The same with so many glyphs.
    #[must_use]
    pub const fn with_glyphs(mut self, glyphs: usize) -> Self {
        self.glyphs = glyphs;
        self
    }

    /// The same with so many clips.
    #[must_use]
    pub const fn with_clips(mut self, clips: usize) -> Self {
        self.clips = clips;
        self
    }

    /// The same with so many rectangles.
    #[must_use]
    pub const fn with_rectangles(mut self, rectangles: usize) -> Self {
        self.rectangles = rectangles;
        self
    }

    /// The same with so many regions.
    #[must_use]
    pub const fn with_regions(mut self, regions: usize) -> Self {
        self.regions = regions;
        self
    }

    /// The same with so many index words.
    #[must_use]
    pub const fn with_index_words(mut self, index_words: usize) -> Self {
        self.index_words = index_words;
        self
    }

    /// Enough commands, glyphs, clips and rectangles for every input of so many bytes, and the plan program's 4,096 regions
    /// and 16,384 index words, which depend on the screen more than on the bytes.
    #[must_use]
    pub fn for_len(bytes: usize) -> Self {
        let commands = (bytes / DRAWING_BYTES).min(2 * STRIP_COMMANDS);
        let glyphs = (bytes / GLYPH_BYTES).min(2 * STRIP_GLYPHS);
        Self {
            commands,
            glyphs,
            clips: (bytes / CLIP_BYTES).min(2 * STRIP_CLIPS),
            // Two fills of one path, 97 bytes each, leave at most four rectangles, one beside each edge that moved; a
            // glyph, 45 bytes, leaves one. So there is no rectangle for less than 45 bytes.
            rectangles: (bytes / GLYPH_BYTES).min(2 * commands + glyphs).max(1),
            regions: Self::PROGRAM_REGIONS,
            index_words: Self::PROGRAM_WORDS,
        }
    }

    /// Enough of everything for this input: it is never refused with number 10.
    ///
    /// A rectangle may have a region, and a command an index word, in every band. On a high screen of low bands that is far
    /// more than a plan has: 4,096 commands and 32,768 bands are 512 MB of words. [`plan_next_growing`](crate::plan_next_growing)
    /// begins with what there is. For bytes of others, set limits of your own and take number 10 for an answer.
    #[must_use]
    pub fn for_input(input: &[u8]) -> Self {
        let mut limits = Self::for_len(input.len());
        // Without a header there is no plan.
        let Some(header) = Header::read(input) else {
            return limits;
        };
        // Sizes out of range are refused before any space is looked at.
        let largest = |size: u32| size.min(32_768) as usize;
        let rows = largest(header.rows());
        // Regions of a band neither overlap nor touch.
        let across = largest(header.width).div_ceil(2);
        limits.regions = rows * limits.rectangles.min(across);
        limits.index_words = rows + 1 + rows * limits.commands.min(STRIP_COMMANDS);
        limits
    }

    /// Twice as many rectangles, regions and index words, as far as the input can need them; nothing where it cannot need
    /// more than there is.
    #[must_use]
    pub fn grown(&self, input: &[u8]) -> Option<Self> {
        let most = Self::for_input(input);
        let twice = |items: usize, most: usize| items.max(1).saturating_mul(2).min(most).max(items);
        let grown = Self {
            commands: self.commands.max(most.commands),
            glyphs: self.glyphs.max(most.glyphs),
            clips: self.clips.max(most.clips),
            rectangles: self.rectangles.max(most.rectangles),
            regions: twice(self.regions, most.regions),
            index_words: twice(self.index_words, most.index_words),
        };
        (grown != *self).then_some(grown)
    }
}

/// Space to lend, kept from call to call.
///
/// Every call clears all of the scratch, used or not: space far beyond what pages need costs time.
#[derive(Debug, Clone, Default)]
pub struct Space {
    limits: Limits,
    rects: Vec<f64>,
    regions: Vec<u32>,
    words: Vec<u32>,
    boxes: Vec<f64>,
    below: Vec<u64>,
    items: Vec<u64>,
    item_boxes: Vec<f64>,
    glyph_items: Vec<u64>,
    draft_rects: Vec<f64>,
    work: Vec<u64>,
    spare: Vec<u64>,
    draft_regions: Vec<u32>,
    draft_words: Vec<u32>,
}

impl Space {
    /// Space for so many items of each kind.
    #[must_use]
    pub fn new(limits: Limits) -> Self {
        Self {
            limits,
            rects: vec![0.0; 4 * limits.rectangles],
            regions: vec![0; 4 * limits.regions],
            words: vec![0; limits.index_words],
            boxes: vec![0.0; 8 * limits.clips],
            below: vec![0; limits.clips],
            items: vec![0; 2 * limits.commands],
            item_boxes: vec![0.0; 4 * limits.commands],
            glyph_items: vec![0; limits.glyphs],
            draft_rects: vec![0.0; 4 * limits.rectangles],
            work: vec![0; limits.rectangles],
            spare: vec![0; limits.rectangles],
            draft_regions: vec![0; 4 * limits.regions],
            draft_words: vec![0; limits.index_words],
        }
    }

    /// Space for inputs of up to so many bytes: see [`Limits::for_len`].
    #[must_use]
    pub fn for_len(bytes: usize) -> Self {
        Self::new(Limits::for_len(bytes))
    }

    /// Space in which this input is never refused for want of it: see [`Limits::for_input`].
    #[must_use]
    pub fn for_input(input: &[u8]) -> Self {
        Self::new(Limits::for_input(input))
    }

    /// The items that there is room for.
    #[must_use]
    pub const fn limits(&self) -> Limits {
        self.limits
    }

    /// The slices of a call.
    #[must_use]
    pub fn lend(&mut self) -> Lent<'_> {
        Lent {
            rects: &mut self.rects,
            regions: &mut self.regions,
            words: &mut self.words,
            boxes: &mut self.boxes,
            below: &mut self.below,
            items: &mut self.items,
            item_boxes: &mut self.item_boxes,
            glyph_items: &mut self.glyph_items,
            draft_rects: &mut self.draft_rects,
            work: &mut self.work,
            spare: &mut self.spare,
            draft_regions: &mut self.draft_regions,
            draft_words: &mut self.draft_words,
        }
    }

    pub(crate) fn output(&self) -> (&[f64], &[u32], &[u32]) {
        (&self.rects, &self.regions, &self.words)
    }
}
