//! Lent space as plain slices.

use crate::plan::Counts;
use crate::raw::{self, Answer};
use crate::refusal::{Reason, Refusal};

/// The slices of one call, for callers who keep their own memory, as arrays or parts of a pool. [`Space`](crate::Space) lends
/// vectors of its own.
///
/// What they have room for, in items, is said by document 01's rule "where these and the output differ, the least is the
/// space lent":
///
/// | Item | Room |
/// |---|---|
/// | drawing commands of both strips | the lesser of `items` / 2 and `item_boxes` / 4 |
/// | glyphs of both strips | `glyph_items` |
/// | clips of both strips | the lesser of `boxes` / 8 and `below` |
/// | rectangles | the least of `rects` / 4, `draft_rects` / 4, `work` and `spare` |
/// | regions | the lesser of `regions` / 4 and `draft_regions` / 4 |
/// | index words | the lesser of `words` and `draft_words` |
///
/// After every call the scratch is zero, and after a refusal the output is as it was.
///
/// `Lent::default()` lends nothing, and the slices are set one by one: later versions may have more of them. For items whose slice
/// was not set there is no room, and a call that needs one is refused with number 10.
///
/// ```
/// use sovdringa::strip::{next_input, Strip};
/// use sovdringa::{Header, Lent, Rect};
///
/// // Two pages that open a clip and draw nothing: no rectangle, no region, and the four starts of three bands without a command.
/// let mut clipped = Strip::new();
/// clipped.clip(Rect::new(0.0, 0.0, 8.0, 8.0));
/// let input = next_input(Header::new(40, 40, 16), &clipped, &clipped);
///
/// let (mut words, mut draft_words) = ([9; 5], [0; 5]);
/// let (mut boxes, mut below) = ([0.0; 16], [0; 2]);
/// let mut lent = Lent::default();
/// lent.words = &mut words;
/// lent.draft_words = &mut draft_words;
/// lent.boxes = &mut boxes;
/// lent.below = &mut below;
/// let counts = lent.plan_next(&input)?;
/// assert_eq!((counts.regions, counts.index_words), (0, 4));
/// assert_eq!(words, [0, 0, 0, 0, 9]);
/// # Ok::<(), sovdringa::Refusal>(())
/// ```
#[derive(Debug, Default)]
#[non_exhaustive]
pub struct Lent<'a> {
    /// Output: x0, y0, x1, y1 of each rectangle.
    pub rects: &'a mut [f64],
    /// Output: x, y, width, height of each region.
    pub regions: &'a mut [u32],
    /// Output: the band index.
    pub words: &'a mut [u32],
    /// Scratch: two boxes a clip.
    pub boxes: &'a mut [f64],
    /// Scratch: a word a clip.
    pub below: &'a mut [u64],
    /// Scratch: two words a drawing command.
    pub items: &'a mut [u64],
    /// Scratch: a box a drawing command.
    pub item_boxes: &'a mut [f64],
    /// Scratch: a word a glyph.
    pub glyph_items: &'a mut [u64],
    /// Scratch: as `rects`.
    pub draft_rects: &'a mut [f64],
    /// Scratch: a word a rectangle.
    pub work: &'a mut [u64],
    /// Scratch: a word a rectangle.
    pub spare: &'a mut [u64],
    /// Scratch: as `regions`.
    pub draft_regions: &'a mut [u32],
    /// Scratch: as `words`.
    pub draft_words: &'a mut [u32],
}

impl Lent<'_> {
    /// Plans a first frame: a header and one strip. The plan stands at the front of `rects`, `regions` and `words`.
    ///
    /// # Errors
    ///
    /// Refused where the bytes are no such input or there is too little space.
    pub fn plan_first(&mut self, input: &[u8]) -> Result<Counts, Refusal> {
        counts(raw::plan_first(input, self))
    }

    /// Plans a frame after another: a header, the last accepted strip and the new one.
    ///
    /// # Errors
    ///
    /// Refused where the bytes are no such input or there is too little space.
    pub fn plan_next(&mut self, input: &[u8]) -> Result<Counts, Refusal> {
        counts(raw::plan_next(input, self))
    }
}

fn counts(answer: Answer) -> Result<Counts, Refusal> {
    let [
        number,
        position,
        rectangles,
        regions,
        index_words,
        pixels,
        commands,
    ] = answer;
    match number {
        0 => Ok(Counts {
            rectangles: rectangles as usize,
            regions: regions as usize,
            index_words: index_words as usize,
            pixels,
            commands,
        }),
        _ => Err(Refusal {
            reason: Reason::numbered(number),
            position: position as usize,
        }),
    }
}
