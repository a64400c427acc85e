//! The planners at hand, under one name each.

use crate::command::Op;
use crate::header::Header;
use crate::model;
use crate::plan::Plan;

/// A planner as a plain function.
pub type Plans = fn(&Header, Option<&[Op]>, &[Op]) -> Plan;

/// Document 01's planner in our words.
#[must_use]
pub fn document(header: &Header, old: Option<&[Op]>, new: &[Op]) -> Plan {
    model::plan(header, old, new, None)
}

/// Dew's own code, where its source is beside the repository.
#[must_use]
pub fn dew() -> Option<Plans> {
    #[cfg(dew)]
    return Some(crate::by_dew::plan);
    #[cfg(not(dew))]
    None
}

/// All planners at hand, for tests of what they have in common.
#[must_use]
pub fn all() -> Vec<Plans> {
    dew().into_iter().chain([document as Plans]).collect()
}
