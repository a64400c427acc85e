//! The planner under test as the panels meet it.

use super::Step;
use super::painter::Licence;
use crate::candidates::candidates;
use crate::entry::{Entry, read};
use crate::generate::frames::call_input;
use crate::header::Header;
use crate::model::{self, mistake::Mistake};
use crate::plan::{Planner, Region};
use crate::refusal::Refusal;

/// A row of index words, or a refusal.
pub type Candidates = fn(Header, u32, &[u32]) -> Result<&[u32], Refusal>;

pub struct Subject<'planner> {
    pub planner: Planner<'planner>,
    pub candidates: Candidates,
    /// Plans against the frame before, accepted or not.
    pub against_the_previous: bool,
    /// Refuses everything.
    pub refuses: bool,
    /// What the painter takes beyond the rules.
    pub licence: Option<Licence>,
}

/// What the second panel is given for an accepted frame.
pub struct Answer {
    pub regions: Vec<Region>,
    pub words: Vec<u32>,
}

impl<'planner> Subject<'planner> {
    /// A planner without a mistake around it.
    #[must_use]
    pub const fn new(planner: Planner<'planner>) -> Self {
        Self {
            planner,
            candidates,
            against_the_previous: false,
            refuses: false,
            licence: None,
        }
    }

    /// The plan for a frame that is accepted. A planner that refuses it all the
    /// same gives the panel nothing to paint.
    pub(super) fn answer(&self, header: &Header, step: &Step) -> Answer {
        let nothing = Answer {
            regions: Vec::new(),
            words: Vec::new(),
        };
        if self.refuses {
            return nothing;
        }
        let previous = step.previous.filter(|_| self.against_the_previous);
        let frame = [previous, step.last].into_iter().flatten().find_map(|old| {
            let (_, input) = call_input(header, Some(old), step.strip);
            read(Entry::Later, &input).ok()
        });
        frame.map_or(nothing, |frame| {
            let plan = (self.planner)(&frame.header, frame.old.as_deref(), &frame.new);
            Answer {
                regions: plan.regions,
                words: plan.words,
            }
        })
    }
}

/// Calls `use_subject` with the model that makes a mistake.
pub fn with_mistake<T>(mistake: Mistake, use_subject: impl FnOnce(&Subject) -> T) -> T {
    let planner = |header: &Header, old: Option<&[_]>, new: &[_]| {
        model::plan(header, old, new, Some(mistake))
    };
    let mut subject = Subject::new(&planner);
    match mistake {
        Mistake::CandidatesOfTheNextRow => subject.candidates = candidates_of_the_next_row,
        Mistake::AgainstThePreviousFrame => subject.against_the_previous = true,
        Mistake::EveryStripRefused => subject.refuses = true,
        _ => {}
    }
    use_subject(&subject)
}

fn candidates_of_the_next_row(header: Header, y: u32, words: &[u32]) -> Result<&[u32], Refusal> {
    let last = (header.rows() - 1) * header.band_height;
    candidates(header, (y + header.band_height).min(last), words)
}
