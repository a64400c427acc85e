//! Dew's own code, on lists that are already built.

use dew::compositor::{BandIndex, BandScheduler, DeviceRegion};
use dew::display_list::{DisplayList, DrawCommand};
use dew::runtime::dirty_between;
use dew::scenes::SceneTable;
use kurbo::Rect;
use oracle::by_dew;
use oracle::command::Op;
use oracle::header::Header;

use crate::pages::Turn;

pub struct Dews {
    header: Header,
    scheduler: BandScheduler,
    old: DisplayList,
    new: DisplayList,
    /// The new page, ready to be pushed.
    pushes: Vec<Push>,
}

enum Push {
    Clip(Rect),
    Pop,
    Draw(DrawCommand),
}

impl Dews {
    pub fn new(turn: &Turn) -> Self {
        let mut scenes = SceneTable::default();
        let Header {
            width,
            height,
            band_height,
        } = turn.header;
        let old = by_dew::list(&mut scenes, &turn.old);
        let new = by_dew::list(&mut scenes, &turn.new);
        let pushes = turn
            .new
            .iter()
            .map(|op| match op {
                Op::Clip(bounds) => Push::Clip(*bounds),
                Op::Pop => Push::Pop,
                Op::Draw(draw) => Push::Draw(by_dew::command(&mut scenes, draw)),
            })
            .collect();
        Self {
            header: turn.header,
            scheduler: BandScheduler::new(width, height, band_height),
            old,
            new,
            pushes,
        }
    }

    /// `diff_dirty`, `schedule` and `BandIndex::build`.
    pub fn plan(&self) -> (Vec<Rect>, Vec<DeviceRegion>, BandIndex) {
        let dirty = dirty_between(&self.old, &self.new);
        let regions = self.scheduler.schedule(&dirty);
        let index = BandIndex::build(&self.new, self.header.height, self.header.band_height);
        (dirty, regions, index)
    }

    /// The new page pushed, command by command, as a retained tree does it: boxes are computed here.
    pub fn build(&self) -> DisplayList {
        let mut list = DisplayList::new();
        for push in &self.pushes {
            match push {
                Push::Clip(bounds) => list.push_clip(*bounds),
                Push::Pop => list.pop_clip(),
                Push::Draw(command) => list.push(command.clone()),
            }
        }
        list
    }
}
