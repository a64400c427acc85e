//! The oracle: dew's planner behind document 01's strip, with everything that a
//! test needs around it. See `README.md` beside the workspace.

pub mod answers;
pub mod batch;
#[cfg(dew)]
pub mod by_dew;
pub mod calls;
pub mod candidates;
pub mod command;
pub mod compare;
pub mod describe;
pub mod entry;
pub mod generate;
pub mod header;
pub mod model;
pub mod panels;
pub mod plan;
pub mod planners;
pub mod print;
pub mod program;
pub mod random;
pub mod read;
pub mod refusal;
pub mod shrink;
pub mod space;
pub mod write;
