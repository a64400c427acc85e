//! Document 01's planner in its own words, on plain lists of commands and with
//! none of dew's code. It is compared with dew on every kind of input, carries
//! the planted mistakes, and tells the panels what a command's box is.

pub mod changes;
pub mod commands;
pub mod index;
pub mod mistake;
pub mod schedule;

use kurbo::Rect;

use crate::command::Op;
use crate::header::Header;
use crate::plan::{Plan, index_words};
use mistake::Mistake;

/// The plan of a frame, as document 01 says it or with one mistake in it.
#[must_use]
pub fn plan(header: &Header, old: Option<&[Op]>, new: &[Op], mistake: Option<Mistake>) -> Plan {
    let new = commands::drawn_with(new, mistake);
    let dirty = match old {
        Some(_) if mistake == Some(Mistake::LaterFramesUnchanged) => Vec::new(),
        Some(old) => changes::dirty(&commands::drawn_with(old, mistake), &new, mistake),
        None => {
            let (width, height) = (f64::from(header.width), f64::from(header.height));
            vec![Rect::new(0.0, 0.0, width, height)]
        }
    };
    let regions = schedule::schedule(header, &dirty, mistake);
    let rows = index::rows(header, &new, mistake);
    Plan {
        commands_emitted: new.len() as u64,
        regions_transferred: regions.len() as u64,
        pixels_transferred: regions
            .iter()
            .map(|region| u64::from(region.width) * u64::from(region.height))
            .sum(),
        dirty,
        regions,
        words: index_words(&rows),
    }
}
