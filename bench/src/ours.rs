//! The proved library, with space lent that just fits.

use oracle::command::{Draw, Op};
use sovdringa::{Counts, Limits, Plan, Space, plan_next, plan_next_growing};

use crate::pages::Turn;

pub struct Ours {
    input: Vec<u8>,
    space: Space,
    pub counts: Counts,
}

impl Ours {
    pub fn new(turn: &Turn) -> Self {
        let input = turn.input();
        let counts = plan_next_growing(&mut Space::default(), &input)
            .expect("a page of the benchmark has a plan")
            .counts();
        let [commands, glyphs, clips] = items(turn);
        let limits = Limits::default()
            .with_commands(commands)
            .with_glyphs(glyphs)
            .with_clips(clips)
            .with_rectangles(counts.rectangles)
            .with_regions(counts.regions)
            .with_index_words(counts.index_words);
        Self {
            input,
            space: Space::new(limits),
            counts,
        }
    }

    pub fn plan(&mut self) -> Plan<'_> {
        plan_next(&mut self.space, &self.input).expect("this space was enough before")
    }

    pub fn bytes(&self) -> usize {
        self.input.len()
    }
}

/// Commands, glyphs and clips of both pages.
fn items(turn: &Turn) -> [usize; 3] {
    let mut items = [0; 3];
    for op in turn.old.iter().chain(&turn.new) {
        match op {
            Op::Clip(_) => items[2] += 1,
            Op::Pop => {}
            Op::Draw(draw) => {
                items[0] += 1;
                if let Draw::Run(run) = draw {
                    items[1] += run.glyphs.len();
                }
            }
        }
    }
    items
}
