//! Calls of the entries and of `candidates` as bytes, with their answers.

use crate::candidates::candidates;
use crate::describe;
use crate::entry::{Entry, call};
use crate::header::{self, Header};
use crate::plan::Planner;
use crate::print::{candidates_form, full_form};
use crate::space::Space;

/// The request byte before a call's operands.
const FIRST: u8 = 1;
const LATER: u8 = 2;
const CANDIDATES: u8 = 3;

#[derive(Debug, Clone, PartialEq, Eq)]
pub enum Request {
    Frame {
        entry: Entry,
        space: Space,
    },
    /// The input is header, y and words.
    Candidates,
}

#[derive(Debug, Clone, PartialEq, Eq)]
pub struct Call {
    pub request: Request,
    pub input: Vec<u8>,
}

impl Call {
    /// Request byte, space lent (six u32, for frames), input.
    #[must_use]
    pub fn bytes(&self) -> Vec<u8> {
        let mut bytes = match &self.request {
            Request::Frame { entry, space } => {
                let mut bytes = vec![match entry {
                    Entry::First => FIRST,
                    Entry::Later => LATER,
                }];
                for items in space.items() {
                    let items = u32::try_from(items).unwrap_or(u32::MAX);
                    bytes.extend(items.to_le_bytes());
                }
                bytes
            }
            Request::Candidates => vec![CANDIDATES],
        };
        bytes.extend(&self.input);
        bytes
    }

    /// A call from its bytes.
    #[must_use]
    pub fn read(bytes: &[u8]) -> Option<Self> {
        let (request, rest) = bytes.split_first()?;
        let entry = match *request {
            FIRST => Entry::First,
            LATER => Entry::Later,
            CANDIDATES => {
                return Some(Self {
                    request: Request::Candidates,
                    input: rest.to_vec(),
                });
            }
            _ => return None,
        };
        let (items, input) = rest.split_at_checked(24)?;
        let mut words = words(items);
        let space = Space::of_items(std::array::from_fn(|_| {
            words.next().expect("six words are 24 bytes") as usize
        }));
        Some(Self {
            request: Request::Frame { entry, space },
            input: input.to_vec(),
        })
    }

    /// The call as lines to read.
    #[must_use]
    pub fn described(&self) -> Vec<String> {
        let (first, lines) = match &self.request {
            Request::Frame { entry, space } => {
                let items: Vec<String> = space.items().iter().map(usize::to_string).collect();
                let entry = match entry {
                    Entry::First => "first",
                    Entry::Later => "later",
                };
                let first = format!("{entry}, lent {}", items.join(" "));
                (first, describe::input(&self.input))
            }
            Request::Candidates => ("candidates".to_owned(), describe::candidates(&self.input)),
        };
        [vec![first], lines].concat()
    }

    /// The answer in the full form.
    #[must_use]
    pub fn answer(&self, planner: Planner) -> String {
        match &self.request {
            Request::Frame { entry, space } => {
                full_form(&call(planner, *entry, &self.input, *space))
            }
            Request::Candidates => answer_candidates(&self.input),
        }
    }
}

/// Header, y and words as an input of `candidates`.
#[must_use]
pub fn candidates_input(header: Header, y: u32, words: &[u32]) -> Vec<u8> {
    let mut bytes = header.bytes();
    bytes.extend(y.to_le_bytes());
    bytes.extend(words.iter().flat_map(|word| word.to_le_bytes()));
    bytes
}

/// What `candidates` answers to such an input. Bytes that fill no word are left.
#[must_use]
pub fn answer_candidates(input: &[u8]) -> String {
    let mut all = words(input);
    let mut next = || all.next().unwrap_or(0);
    let header = Header {
        width: next(),
        height: next(),
        band_height: next(),
    };
    let y = next();
    let words: Vec<u32> = words(input).skip(header::LENGTH / 4 + 1).collect();
    candidates_form(&candidates(header, y, &words))
}

fn words(bytes: &[u8]) -> impl Iterator<Item = u32> {
    bytes
        .chunks_exact(4)
        .map(|word| u32::from_le_bytes(word.try_into().expect("four bytes")))
}
