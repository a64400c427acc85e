//! Lists of frames through the library, to two panels: one repainted whole from every accepted frame, one only in the planned
//! regions, in any order, from what the library's `candidates` gives. After each frame both show the same.
#![cfg(dew)]

use kurbo::Rect;
use oracle::command::Op;
use oracle::generate::frames::call_input;
use oracle::header::Header;
use oracle::model::mistake::Mistake;
use oracle::panels::run_lists;
use oracle::panels::subject::{Subject, with_mistake};
use oracle::plan::{Plan, Region};
use oracle::planners;
use oracle::refusal::Refusal;
use oracle::write::strip;
use sovdringa::{Space, plan_first, plan_next};

/// Lists of frames that the library plans: 10,000, or as many as the variable LISTS says.
fn lists() -> u64 {
    let said = std::env::var("LISTS");
    said.map_or(10_000, |count| count.parse().expect("LISTS is a number"))
}

/// Lists within which a planted mistake has to be seen.
const WITHIN: u64 = 2_000;

/// The library's plan of a frame that is accepted. A later frame's page has to be accepted as a first one too.
fn planned(header: &Header, old: Option<&[Op]>, new: &[Op]) -> Plan {
    let (old, new) = (old.map(strip), strip(new));
    let (_, first) = call_input(header, None, &new);
    let (_, input) = call_input(header, old.as_deref(), &new);
    let mut space = Space::for_input(&first);
    let alone = plan_first(&mut space, &first).expect("accepted as a first frame");
    let words = alone.index_words().to_vec();
    let mut space = Space::for_input(&input);
    let plan = match old {
        None => plan_first(&mut space, &input),
        Some(_) => plan_next(&mut space, &input),
    }
    .expect("accepted");
    assert_eq!(plan.index_words(), words, "the index is the new page's");
    let counts = plan.counts();
    Plan {
        commands_emitted: counts.commands,
        dirty: plan
            .rectangles()
            .map(|rect| Rect::new(rect.x0, rect.y0, rect.x1, rect.y1))
            .collect(),
        regions: plan
            .regions()
            .map(|region| Region {
                x: region.x,
                y: region.y,
                width: region.width,
                height: region.height,
            })
            .collect(),
        regions_transferred: counts.regions as u64,
        pixels_transferred: counts.pixels,
        words,
    }
}

/// The library's `candidates`, as the panels ask it.
fn candidates(header: Header, y: u32, words: &[u32]) -> Result<&[u32], Refusal> {
    let screen = sovdringa::Header::new(header.width, header.height, header.band_height);
    sovdringa::candidates(screen, y, words).map_err(|_| Refusal::new(oracle::refusal::ROW, 0))
}

#[test]
fn the_panels_stay_alike_by_the_librarys_plans() {
    let dew = planners::dew().expect("dew's source is here");
    let mut subject = Subject::new(&planned);
    subject.candidates = candidates;
    let tally = run_lists(0..lists(), &dew, &subject).expect("no fault");
    assert!(tally.later > 2 * lists(), "most frames are accepted ones");
    assert!(tally.regions > lists(), "regions are painted");
    println!("sovdringa_dew: {tally:?}");
}

#[test]
fn a_planted_mistake_is_seen() {
    let dew = planners::dew().expect("dew's source is here");
    let found = with_mistake(Mistake::AgainstThePreviousFrame, |subject| {
        run_lists(0..WITHIN, &dew, subject)
    });
    assert!(found.is_err());
}
