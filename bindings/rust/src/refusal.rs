//! Why an input is turned away.

use std::error::Error;
use std::fmt;

/// An input turned away: why, and at which byte of it.
#[derive(Debug, Clone, Copy, PartialEq, Eq, Hash)]
#[non_exhaustive]
pub struct Refusal {
    /// The row of document 01's table.
    pub reason: Reason,
    /// The first byte of the command concerned, from the start of the whole input; 0 where no command is.
    pub position: usize,
}

impl Refusal {
    /// Document 01's number.
    #[must_use]
    pub const fn number(&self) -> u32 {
        self.reason.number()
    }
}

impl fmt::Display for Refusal {
    fn fmt(&self, f: &mut fmt::Formatter<'_>) -> fmt::Result {
        write!(
            f,
            "refused {} at byte {}: {}",
            self.number(),
            self.position,
            self.reason.sentence()
        )
    }
}

impl Error for Refusal {}

macro_rules! reasons {
    ($($name:ident = $number:literal, $sentence:literal;)*) => {
        /// Document 01's numbers.
        #[derive(Debug, Clone, Copy, PartialEq, Eq, Hash)]
        #[non_exhaustive]
        pub enum Reason {
            $(#[doc = $sentence] $name = $number,)*
        }

        impl Reason {
            /// All of them, in the order of their numbers.
            pub const ALL: &'static [Self] = &[$(Self::$name),*];

            /// What is wrong, in plain words.
            #[must_use]
            pub const fn sentence(self) -> &'static str {
                match self {
                    $(Self::$name => $sentence,)*
                }
            }
        }
    };
}

reasons! {
    Size = 1, "The width, the height or the band height is 0 or above 32,768.";
    CutOff = 2, "The bytes end too early: in the header, where a command should stand, or within one.";
    Code = 3, "A byte is no command, or a join or cap code is above 2.";
    NotFinite = 4, "A number is infinite or not a number.";
    NoClip = 5, "A clip is popped where none is open.";
    Limit = 6, "A page has a 33rd open clip, a 4,097th clip or drawing command, or a 16,385th glyph.";
    GlyphsDue = 7, "A glyph stands where no run announced one, or another command where glyphs are due.";
    BytesFollow = 8, "Bytes follow the last page's end.";
    Overflow = 9, "A box grows beyond the largest finite number when it is inflated or transformed.";
    Space = 10, "The commands, glyphs, clips, rectangles, regions or index words exceed the space lent.";
    Row = 11, "The region lies below the index, or the words are no index.";
}

impl Reason {
    /// Document 01's number.
    #[must_use]
    pub const fn number(self) -> u32 {
        self as u32
    }

    /// The library is proved to give the numbers of the table and no other.
    pub(crate) fn numbered(number: u64) -> Self {
        *number
            .checked_sub(1)
            .and_then(|place| Self::ALL.get(usize::try_from(place).ok()?))
            .unwrap_or_else(|| {
                panic!("the library refused with {number}, which is no number of its table")
            })
    }
}
