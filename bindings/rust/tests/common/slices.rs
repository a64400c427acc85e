//! Lent space whose every word can be looked at. The comparison with dew (`../dew`) takes it from here.
#![allow(dead_code)]

use sovdringa::{Lent, Limits};

/// The slices of a call as vectors, each of which can be one short.
#[derive(Debug, Clone, PartialEq)]
pub struct Slices {
    pub floats: [Vec<f64>; 4],
    pub longs: [Vec<u64>; 5],
    pub words: [Vec<u32>; 4],
}

impl Slices {
    /// So many items of each kind, every word with something in it.
    pub fn filled(limits: Limits) -> Self {
        let Limits {
            commands,
            glyphs,
            clips,
            rectangles,
            regions,
            index_words,
            ..
        } = limits;
        Self {
            floats: [4 * rectangles, 8 * clips, 4 * commands, 4 * rectangles]
                .map(|length| vec![7.5; length]),
            longs: [clips, 2 * commands, glyphs, rectangles, rectangles]
                .map(|length| vec![77; length]),
            words: [4 * regions, index_words, 4 * regions, index_words]
                .map(|length| vec![777; length]),
        }
    }

    pub fn lend(&mut self) -> Lent<'_> {
        let [rects, boxes, item_boxes, draft_rects] = &mut self.floats;
        let [below, items, glyph_items, work, spare] = &mut self.longs;
        let [regions, words, draft_regions, draft_words] = &mut self.words;
        let mut lent = Lent::default();
        lent.rects = rects;
        lent.regions = regions;
        lent.words = words;
        lent.boxes = boxes;
        lent.below = below;
        lent.items = items;
        lent.item_boxes = item_boxes;
        lent.glyph_items = glyph_items;
        lent.draft_rects = draft_rects;
        lent.work = work;
        lent.spare = spare;
        lent.draft_regions = draft_regions;
        lent.draft_words = draft_words;
        lent
    }

    /// Rectangles, regions and index words.
    pub fn output(&self) -> (&[f64], &[u32], &[u32]) {
        (&self.floats[0], &self.words[0], &self.words[1])
    }

    pub fn scratch_is_zero(&self) -> bool {
        self.floats[1..]
            .iter()
            .flatten()
            .all(|word| word.to_bits() == 0)
            && self.longs.iter().flatten().all(|word| *word == 0)
            && self.words[2..].iter().flatten().all(|word| *word == 0)
    }

    /// The same with the last word of one slice missing, for each slice that has one.
    pub fn one_short(&self) -> Vec<Self> {
        let mut all = Vec::new();
        for place in 0..13 {
            let mut short = self.clone();
            let missing = match place {
                0..=3 => short.floats[place].pop().is_some(),
                4..=8 => short.longs[place - 4].pop().is_some(),
                _ => short.words[place - 9].pop().is_some(),
            };
            assert!(missing, "slice {place} has a word to lose");
            all.push(short);
        }
        all
    }
}
