//! The two entries and `candidates`.

use crate::geometry::{Header, Rect, Region};
use crate::raw;
use crate::refusal::{Reason, Refusal};
use crate::space::Space;

/// How much a plan has of everything.
#[derive(Debug, Clone, Copy, PartialEq, Eq, Hash)]
#[non_exhaustive]
pub struct Counts {
    /// Changed rectangles.
    pub rectangles: usize,
    /// Regions to paint anew.
    pub regions: usize,
    /// Words of the band index.
    pub index_words: usize,
    /// Pixels of all regions.
    pub pixels: u64,
    /// Drawing commands of the new page.
    pub commands: u64,
}

/// What to paint anew. It stands in the space that was lent for it.
#[derive(Debug, Clone, Copy)]
pub struct Plan<'space> {
    header: Header,
    counts: Counts,
    rects: &'space [f64],
    regions: &'space [u32],
    words: &'space [u32],
}

/// Plans a first frame, which paints the whole screen: `input` is a header and one strip, as
/// [`first_input`](crate::strip::first_input) writes them.
///
/// # Errors
///
/// Refused where the bytes are no such input or there is too little space; the space is then as it was.
pub fn plan_first<'space>(space: &'space mut Space, input: &[u8]) -> Result<Plan<'space>, Refusal> {
    let counts = space.lend().plan_first(input)?;
    Ok(Plan::new(space, input, counts))
}

/// Plans a frame after another: `input` is a header, the last accepted page's strip and the new page's, as
/// [`next_input`](crate::strip::next_input) writes them.
///
/// # Errors
///
/// Refused where the bytes are no such input or there is too little space; the space is then as it was.
pub fn plan_next<'space>(space: &'space mut Space, input: &[u8]) -> Result<Plan<'space>, Refusal> {
    let counts = space.lend().plan_next(input)?;
    Ok(Plan::new(space, input, counts))
}

/// As [`plan_first`], in space that grows where it is too small.
///
/// # Errors
///
/// Refused where the bytes are no such input.
pub fn plan_first_growing<'space>(
    space: &'space mut Space,
    input: &[u8],
) -> Result<Plan<'space>, Refusal> {
    let counts = growing(space, input, |space| space.lend().plan_first(input))?;
    Ok(Plan::new(space, input, counts))
}

/// As [`plan_next`], in space that grows where it is too small.
///
/// # Errors
///
/// Refused where the bytes are no such input.
pub fn plan_next_growing<'space>(
    space: &'space mut Space,
    input: &[u8],
) -> Result<Plan<'space>, Refusal> {
    let counts = growing(space, input, |space| space.lend().plan_next(input))?;
    Ok(Plan::new(space, input, counts))
}

fn growing(
    space: &mut Space,
    input: &[u8],
    call: impl Fn(&mut Space) -> Result<Counts, Refusal>,
) -> Result<Counts, Refusal> {
    loop {
        let answer = call(space);
        match answer {
            Err(refusal) if refusal.reason == Reason::Space => {
                let grown = space.limits().grown(input).ok_or(refusal)?;
                *space = Space::new(grown);
            }
            _ => return answer,
        }
    }
}

impl<'space> Plan<'space> {
    fn new(space: &'space Space, input: &[u8], counts: Counts) -> Self {
        let (rects, regions, words) = space.output();
        Self {
            header: Header::read(input).expect("an input with a plan has a header"),
            counts,
            rects: &rects[..4 * counts.rectangles],
            regions: &regions[..4 * counts.regions],
            words: &words[..counts.index_words],
        }
    }

    /// The screen that it is for.
    #[must_use]
    pub const fn header(&self) -> Header {
        self.header
    }

    /// Its counts, dew's counters among them.
    #[must_use]
    pub const fn counts(&self) -> Counts {
        self.counts
    }

    /// What changed, in dew's order.
    #[must_use]
    pub fn rectangles(&self) -> impl ExactSizeIterator<Item = Rect> + use<'space> {
        self.rects
            .chunks_exact(4)
            .map(|edges| Rect::new(edges[0], edges[1], edges[2], edges[3]))
    }

    /// The regions to paint anew, from the top, in each band from the left. No two overlap, and none crosses a band edge.
    #[must_use]
    pub fn regions(&self) -> impl ExactSizeIterator<Item = Region> + use<'space> {
        self.regions.chunks_exact(4).map(|words| Region {
            x: words[0],
            y: words[1],
            width: words[2],
            height: words[3],
        })
    }

    /// The band index: a start for each row and one more, then the entries.
    #[must_use]
    pub const fn index_words(&self) -> &'space [u32] {
        self.words
    }

    /// The places, from 0, of the new page's commands that may touch a region, in drawing order. The plan's own regions are
    /// never refused.
    ///
    /// # Errors
    ///
    /// Refused where the region lies below the screen.
    pub fn candidates(&self, region: Region) -> Result<&'space [u32], Refusal> {
        candidates(self.header, region.y, self.words)
    }
}

/// The commands that may touch a region, by its y, out of the index words of a plan that was kept.
///
/// # Errors
///
/// Refused where a size is out of range (1), or y lies below the index or the words are no index (11).
pub fn candidates(header: Header, y: u32, words: &[u32]) -> Result<&[u32], Refusal> {
    let Header {
        width,
        height,
        band_height,
    } = header;
    match raw::candidates(width, height, band_height, y, words) {
        (0, [start, end]) => Ok(&words[start as usize..end as usize]),
        (number, _) => Err(Refusal {
            reason: Reason::numbered(number.into()),
            position: 0,
        }),
    }
}
