//! The two panels: one repainted whole from the calls, one repainted where the
//! plan says, from the plan's own index words. Demand 3 says that they stay alike.

pub mod painter;
pub mod subject;

use std::ops::Range;

use crate::entry::{Entry, call, read};
use crate::generate::frames::{self, Frame, List, call_input};
use crate::header::Header;
use crate::model::commands::{Drawn, drawn};
use crate::plan::{Planner, Region};
use crate::random::Random;
use painter::{Colour, Painter};
use subject::{Answer, Subject};

/// What a panel saw that it must not see.
#[derive(Debug, Clone, Copy, PartialEq, Eq)]
pub enum Fault {
    /// The panels differ at a pixel.
    Colour { x: u32, y: u32 },
    /// Two regions share a pixel.
    Overlap,
    /// A region's first and last line lie in different bands.
    CrossesBands,
    /// A region is empty or not on the screen.
    OffTheScreen,
    /// `candidates` refused a region, or named a command that is not there.
    Candidates,
}

/// A fault and the number of the frame, from 0.
pub type Found = (usize, Fault);

/// What a list of frames exercised.
#[derive(Debug, Clone, Copy, Default, PartialEq, Eq)]
pub struct Tally {
    pub frames: u64,
    pub accepted: u64,
    /// Accepted frames after the first, and the regions painted in them.
    pub later: u64,
    pub regions: u64,
}

impl Tally {
    pub const fn add(&mut self, other: Self) {
        self.frames += other.frames;
        self.accepted += other.accepted;
        self.later += other.later;
        self.regions += other.regions;
    }
}

/// Feeds a list to both panels. Which frames are accepted is decided by the
/// reference, never by the planner under test.
pub fn simulate(
    list: &List,
    reference: Planner,
    subject: &Subject,
    random: &mut Random,
) -> Result<Tally, Found> {
    let trace = trace(list, reference);
    let commands: Vec<&[Drawn]> = trace
        .iter()
        .filter_map(|step| step.accepted.as_deref())
        .collect();
    let painter = Painter::new(&list.header, &commands, subject.licence);
    let pixels = (list.header.width * list.header.height) as usize;
    let mut whole = vec![painter::BACKGROUND; pixels];
    let mut parts = whole.clone();
    let mut tally = Tally::default();
    for (number, step) in trace.iter().enumerate() {
        tally.frames += 1;
        let Some(commands) = &step.accepted else {
            continue;
        };
        tally.accepted += 1;
        let panel = Panel {
            header: &list.header,
            painter: &painter,
            commands,
        };
        panel.repaint(&mut whole);
        if step.entry == Entry::First {
            panel.repaint(&mut parts);
        } else {
            tally.later += 1;
            let answer = subject.answer(&list.header, step);
            tally.regions += answer.regions.len() as u64;
            panel
                .follow(&answer, subject, &mut parts, random)
                .map_err(|fault| (number, fault))?;
        }
        if let Some(pixel) = whole.iter().zip(&parts).position(|(a, b)| a != b) {
            let pixel = pixel as u32;
            let fault = Fault::Colour {
                x: pixel % list.header.width,
                y: pixel / list.header.width,
            };
            return Err((number, fault));
        }
    }
    Ok(tally)
}

/// Simulates the lists of these seeds; the first fault with its seed.
pub fn run_lists(
    seeds: Range<u64>,
    reference: Planner,
    subject: &Subject,
) -> Result<Tally, (u64, Found)> {
    let mut tally = Tally::default();
    for seed in seeds {
        let list = frames::list(seed, reference);
        let mut random = Random::new("order", seed);
        let one = simulate(&list, reference, subject, &mut random);
        tally.add(one.map_err(|found| (seed, found))?);
    }
    Ok(tally)
}

/// A frame as it is called.
pub struct Step<'list> {
    pub entry: Entry,
    /// The last accepted strip, the strip of the frame before, and this one.
    pub last: Option<&'list [u8]>,
    pub previous: Option<&'list [u8]>,
    pub strip: &'list [u8],
    /// The commands, if the frame is accepted.
    pub accepted: Option<Vec<Drawn>>,
}

/// The calls that a list makes.
fn trace<'list>(list: &'list List, reference: Planner) -> Vec<Step<'list>> {
    let mut last = None;
    let mut previous = None;
    let mut steps = Vec::new();
    for Frame { strip, space } in &list.frames {
        let (entry, input) = call_input(&list.header, last, strip);
        let accepted = call(reference, entry, &input, *space)
            .and_then(|_| read(entry, &input))
            .ok()
            .map(|frame| drawn(&frame.new));
        let is_accepted = accepted.is_some();
        steps.push(Step {
            entry,
            last,
            previous,
            strip,
            accepted,
        });
        if is_accepted {
            last = Some(strip.as_slice());
        }
        previous = Some(strip.as_slice());
    }
    steps
}

/// One accepted frame.
struct Panel<'frame> {
    header: &'frame Header,
    painter: &'frame Painter,
    commands: &'frame [Drawn],
}

impl Panel<'_> {
    /// Background, then every command in order.
    fn repaint(&self, panel: &mut [Colour]) {
        let all: Vec<u32> = (0..self.commands.len() as u32).collect();
        let screen = Region {
            x: 0,
            y: 0,
            width: self.header.width,
            height: self.header.height,
        };
        self.paint(screen, &all, panel);
    }

    fn paint(&self, region: Region, places: &[u32], panel: &mut [Colour]) {
        for y in region.y..region.y + region.height {
            for x in region.x..region.x + region.width {
                let pixel = (y * self.header.width + x) as usize;
                panel[pixel] = places.iter().fold(painter::BACKGROUND, |colour, place| {
                    self.painter
                        .paint(&self.commands[*place as usize], x, y, colour)
                });
            }
        }
    }

    /// Paints the plan's regions, in any order and some of them twice.
    fn follow(
        &self,
        answer: &Answer,
        subject: &Subject,
        panel: &mut [Colour],
        random: &mut Random,
    ) -> Result<(), Fault> {
        self.check(&answer.regions)?;
        for place in order(answer.regions.len(), random) {
            let region = answer.regions[place];
            let places = (subject.candidates)(*self.header, region.y, &answer.words)
                .map_err(|_| Fault::Candidates)?;
            if places
                .iter()
                .any(|place| *place as usize >= self.commands.len())
            {
                return Err(Fault::Candidates);
            }
            self.paint(region, places, panel);
        }
        Ok(())
    }

    /// Every region on the screen and in one band, no two sharing a pixel.
    fn check(&self, regions: &[Region]) -> Result<(), Fault> {
        let mut covered = vec![false; (self.header.width * self.header.height) as usize];
        for region in regions {
            let (right, bottom) = (region.x + region.width, region.y + region.height);
            if region.width == 0
                || region.height == 0
                || right > self.header.width
                || bottom > self.header.height
            {
                return Err(Fault::OffTheScreen);
            }
            let band = self.header.band_height;
            if region.y / band != (bottom - 1) / band {
                return Err(Fault::CrossesBands);
            }
            for y in region.y..bottom {
                for x in region.x..right {
                    let pixel = (y * self.header.width + x) as usize;
                    if std::mem::replace(&mut covered[pixel], true) {
                        return Err(Fault::Overlap);
                    }
                }
            }
        }
        Ok(())
    }
}

/// Each number below `count`, shuffled, and some again.
fn order(count: usize, random: &mut Random) -> Vec<usize> {
    let mut order: Vec<usize> = (0..count).collect();
    if count > 0 {
        for _ in 0..random.below(3) {
            order.push(random.below(count));
        }
    }
    for place in (1..order.len()).rev() {
        order.swap(place, random.below(place + 1));
    }
    order
}
