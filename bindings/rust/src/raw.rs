//! The library's three functions, and the only unsafe code of this crate.
//!
//! They ask of a caller that no pointer is null, that each is aligned, and that slices do not overlap; a length counts
//! items. Everything else is theirs: any bytes and any lengths have an answer. References to slices are never null, are
//! aligned, and a mutable one overlaps no other, so that safe code cannot call wrongly.

use crate::lent::Lent;

/// Number, position, rectangles, regions, index words, pixels, commands emitted.
pub(crate) type Answer = [u64; 7];

/// Declares an entry and the safe function that calls it.
macro_rules! entry {
    ($name:ident, $symbol:ident) => {
        unsafe extern "C" {
            fn $symbol(
                input: *const u8,
                input_len: usize,
                rects: *mut f64,
                rects_len: usize,
                regions: *mut u32,
                regions_len: usize,
                words: *mut u32,
                words_len: usize,
                boxes: *mut f64,
                boxes_len: usize,
                below: *mut u64,
                below_len: usize,
                items: *mut u64,
                items_len: usize,
                item_boxes: *mut f64,
                item_boxes_len: usize,
                glyph_items: *mut u64,
                glyph_items_len: usize,
                draft_rects: *mut f64,
                draft_rects_len: usize,
                work: *mut u64,
                work_len: usize,
                spare: *mut u64,
                spare_len: usize,
                draft_regions: *mut u32,
                draft_regions_len: usize,
                draft_words: *mut u32,
                draft_words_len: usize,
                answer: *mut u64,
                answer_len: usize,
            ) -> u32;
        }

        pub(crate) fn $name(input: &[u8], lent: &mut Lent<'_>) -> Answer {
            let mut answer = Answer::default();
            // SAFETY: each pointer with its length is of a slice that is borrowed until the call returns, the thirteen of
            // `lent` and `answer` as mutable, so that none overlaps another or `input`. The library keeps none of them.
            unsafe {
                $symbol(
                    input.as_ptr(),
                    input.len(),
                    lent.rects.as_mut_ptr(),
                    lent.rects.len(),
                    lent.regions.as_mut_ptr(),
                    lent.regions.len(),
                    lent.words.as_mut_ptr(),
                    lent.words.len(),
                    lent.boxes.as_mut_ptr(),
                    lent.boxes.len(),
                    lent.below.as_mut_ptr(),
                    lent.below.len(),
                    lent.items.as_mut_ptr(),
                    lent.items.len(),
                    lent.item_boxes.as_mut_ptr(),
                    lent.item_boxes.len(),
                    lent.glyph_items.as_mut_ptr(),
                    lent.glyph_items.len(),
                    lent.draft_rects.as_mut_ptr(),
                    lent.draft_rects.len(),
                    lent.work.as_mut_ptr(),
                    lent.work.len(),
                    lent.spare.as_mut_ptr(),
                    lent.spare.len(),
                    lent.draft_regions.as_mut_ptr(),
                    lent.draft_regions.len(),
                    lent.draft_words.as_mut_ptr(),
                    lent.draft_words.len(),
                    answer.as_mut_ptr(),
                    answer.len(),
                );
            }
            answer
        }
    };
}

entry!(plan_first, sovdringa_plan_first);
entry!(plan_next, sovdringa_plan_next);

unsafe extern "C" {
    fn sovdringa_candidates(
        width: u32,
        height: u32,
        band_height: u32,
        y: u32,
        words: *const u32,
        words_len: usize,
        part: *mut u64,
        part_len: usize,
    ) -> u32;
}

/// The number, and where the row's entries begin and end within the words.
pub(crate) fn candidates(
    width: u32,
    height: u32,
    band_height: u32,
    y: u32,
    words: &[u32],
) -> (u32, [u64; 2]) {
    let mut part = [0; 2];
    // SAFETY: both pointers with their lengths are of slices that are borrowed until the call returns, `part` as mutable.
    let number = unsafe {
        sovdringa_candidates(
            width,
            height,
            band_height,
            y,
            words.as_ptr(),
            words.len(),
            part.as_mut_ptr(),
            part.len(),
        )
    };
    (number, part)
}
