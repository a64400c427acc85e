//! Sovdringa plans what a banded panel has to paint anew when a page turns: which rectangles changed between two lists of
//! drawing commands, which regions of the screen to repaint, band by band, and which commands paint each.
//!
//! The planner is proved: every input gets its plan or its one refusal, plans equal their specification to the bit, and a
//! panel that is repainted only in the planned regions shows what a full repaint would show. This crate is not part of the
//! proof. It hands bytes and lent space to the proved library and reads what stands there afterwards.
//!
//! ```
//! use sovdringa::strip::{next_input, Shape, Strip};
//! use sovdringa::{plan_next, Affine, Header, Rect, Space};
//!
//! let header = Header::new(40, 40, 16);
//! let ground = Shape { path: 2, bounds: Rect::new(0.0, 0.0, 40.0, 16.0), affine: Affine::IDENTITY, brush: 2 };
//! let cell = |x| Shape { path: 1, bounds: Rect::new(0.0, 0.0, 4.0, 4.0), affine: Affine::translate(x, 14.0), brush: 1 };
//! let (mut old, mut new) = (Strip::new(), Strip::new());
//! old.fill(cell(10.5)).fill(ground);
//! new.fill(cell(12.5)).fill(ground);
//!
//! let input = next_input(header, &old, &new);
//! let mut space = Space::for_input(&input);
//! let plan = plan_next(&mut space, &input)?;
//! let regions: Vec<_> = plan.regions().map(|region| (region.x, region.y, region.width, region.height)).collect();
//! assert_eq!(regions, [(10, 14, 7, 2), (10, 16, 7, 2)]);
//! for region in plan.regions() {
//!     // Clear the region, then draw these commands of the new page, cut to it.
//!     for command in plan.candidates(region)? {
//!         println!("{region:?} is touched by command {command}");
//!     }
//! }
//! # Ok::<(), sovdringa::Refusal>(())
//! ```

#![deny(unsafe_code)]
#![warn(missing_docs)]

mod geometry;
mod lent;
mod plan;
#[allow(unsafe_code)]
mod raw;
mod refusal;
mod space;
pub mod strip;

pub use geometry::{Affine, Header, Rect, Region};
pub use lent::Lent;
pub use plan::{
    Counts, Plan, candidates, plan_first, plan_first_growing, plan_next, plan_next_growing,
};
pub use refusal::{Reason, Refusal};
pub use space::{Limits, Space};
