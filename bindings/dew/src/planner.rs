//! Page turns.

use std::fmt;

use dew::compositor::DeviceRegion;
use dew::display::DisplayFlush;
use dew::display_list::DisplayList;
use dew::painter::Painter;
use dew::stats::FrameWork;
use kurbo::Rect;
use sovdringa::{Header, Plan, Refusal, Region, Space, plan_first_growing, plan_next_growing};

use crate::page::{Page, Unwritten};

/// Plans page after page on one screen. It keeps the page that the screen shows, and the space for the plans.
#[derive(Debug)]
pub struct Planner {
    header: Header,
    space: Space,
    /// The page that was accepted last.
    current: Option<Page>,
    /// The last content number given.
    used: u64,
    input: Vec<u8>,
}

/// A page that was accepted, and what of it to paint.
#[derive(Debug, Clone, Copy)]
pub struct Turn<'a> {
    plan: Plan<'a>,
    list: &'a DisplayList,
}

/// Why a page was not turned to.
#[derive(Debug, Clone, Copy, PartialEq, Eq)]
pub enum Error {
    /// The list has no strip.
    Unwritten(Unwritten),
    /// The planner refused it.
    Refused(Refusal),
}

/// A page that was not turned to: the planner is as it was, and the screen shows the page before.
#[derive(Debug)]
pub struct NotTurned {
    /// The list, handed back.
    pub list: DisplayList,
    /// Why.
    pub error: Error,
}

impl fmt::Display for NotTurned {
    fn fmt(&self, f: &mut fmt::Formatter<'_>) -> fmt::Result {
        match &self.error {
            Error::Unwritten(unwritten) => unwritten.fmt(f),
            Error::Refused(refusal) => refusal.fmt(f),
        }
    }
}

impl std::error::Error for NotTurned {}

impl Planner {
    /// A planner for a screen that shows no page yet.
    #[must_use]
    pub fn new(width: u32, height: u32, band_height: u32) -> Self {
        Self {
            header: Header::new(width, height, band_height),
            space: Space::default(),
            current: None,
            used: 0,
            input: Vec::new(),
        }
    }

    /// Turns to a page: the first one is painted whole, a later one where it differs from the page before.
    ///
    /// # Errors
    ///
    /// The list is handed back where it has no strip or the planner refuses it.
    pub fn turn(&mut self, list: DisplayList) -> Result<Turn<'_>, Box<NotTurned>> {
        let page = Page::new(list, self.current.as_ref(), &mut self.used)?;
        self.input.clear();
        self.input.extend(self.header.bytes());
        if let Some(current) = &self.current {
            current.strip.end(&mut self.input);
        }
        page.strip.end(&mut self.input);
        let planned = match self.current {
            None => plan_first_growing(&mut self.space, &self.input),
            Some(_) => plan_next_growing(&mut self.space, &self.input),
        };
        match planned {
            Ok(plan) => Ok(Turn {
                plan,
                list: &self.current.insert(page).list,
            }),
            Err(refusal) => Err(Box::new(NotTurned {
                list: page.list,
                error: Error::Refused(refusal),
            })),
        }
    }
}

impl<'a> Turn<'a> {
    /// The page.
    #[must_use]
    pub const fn list(&self) -> &'a DisplayList {
        self.list
    }

    /// The plan itself.
    #[must_use]
    pub const fn plan(&self) -> Plan<'a> {
        self.plan
    }

    /// `diff_dirty`, or the whole screen.
    #[must_use]
    pub fn dirty(&self) -> impl ExactSizeIterator<Item = Rect> + use<'a> {
        self.plan
            .rectangles()
            .map(|rect| Rect::new(rect.x0, rect.y0, rect.x1, rect.y1))
    }

    /// `BandScheduler::schedule`.
    #[must_use]
    pub fn regions(&self) -> impl ExactSizeIterator<Item = DeviceRegion> + use<'a> {
        self.plan.regions().map(|region| DeviceRegion {
            x: region.x,
            y: region.y,
            width: region.width,
            height: region.height,
        })
    }

    /// `BandIndex::candidates`. A region that lies below the screen has none.
    #[must_use]
    pub fn candidates(&self, region: DeviceRegion) -> &'a [u32] {
        let region = Region {
            x: region.x,
            y: region.y,
            width: region.width,
            height: region.height,
        };
        self.plan.candidates(region).unwrap_or_default()
    }

    /// `render_frame`: paints and flushes the regions, and presents the frame. Nothing happens where nothing changed.
    pub fn render(
        &self,
        painter: &mut Painter,
        display: &mut impl DisplayFlush,
        work: &mut FrameWork,
    ) {
        if self.dirty().len() == 0 {
            return;
        }
        for region in self.regions() {
            let pixmap = painter.rasterize_region(self.list, region, self.candidates(region), work);
            work.pixels_transferred += region.area();
            work.regions_transferred += 1;
            display.flush_region(region, pixmap.data_as_u8_slice());
        }
        display.present();
    }
}
