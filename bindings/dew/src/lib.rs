//! Dew's runtime loop over the proved planner. A [`Planner`] takes the place of `diff_dirty`, `BandScheduler::schedule` and
//! `BandIndex`: dew's own `DisplayList` goes in, and what comes out are dew's dirty rectangles, its regions, and for each region
//! the commands that may touch it.
//!
//! In dew's `pump` and `render_frame` that is:
//!
//! ```text
//! -        let dirty = if first { vec![whole screen] } else { diff_dirty(&self.current, &list) };
//! -        let mut work = list.work();
//! -        if !dirty.is_empty() {
//! -            render_frame(&mut self.painter, &list, &self.scheduler, &dirty, self.board.display(), &mut work);
//! -        }
//! -        self.current = list;
//! +        let turn = self.planner.turn(list)?;
//! +        let mut work = turn.list().work();
//! +        turn.render(&mut self.painter, self.board.display(), &mut work);
//! ```
//!
//! A strip has content numbers where dew has paths, brushes, fonts, dashes and scenes. Two commands are compared only where
//! they stand at the same place of two pages, so that a command keeps the numbers of the one before it as far as dew finds their
//! contents equal, and has new numbers otherwise: no table, and nothing but `==` is asked of dew's types.
//!
//! Document 01 leaves out clips by an outline and boxes that a caller of `push_placed` computed in some other way. A list that
//! has one is not planned: [`Unwritten`].
//!
//! Where dew's source is not beside the repository the crate is empty.

#[cfg(dew)]
mod page;
#[cfg(dew)]
mod planner;

#[cfg(dew)]
pub use page::Unwritten;
#[cfg(dew)]
pub use planner::{Error, NotTurned, Planner, Turn};
