//! Dew's own display lists, page after page, through dew's loop and through the proved planner.
#![cfg(dew)]

use std::sync::Arc;

use dew::compositor::{BandIndex, BandScheduler};
use dew::display::Display;
use dew::display_list::{DisplayList, DrawCommand};
use dew::frame::render_frame;
use dew::painter::Painter;
use dew::runtime::dirty_between;
use dew::scenes::SceneTable;
use kurbo::{Affine, BezPath, Rect};
use oracle::by_dew;
use oracle::command::{Draw, Op};
use oracle::generate::{edits, pages};
use oracle::header::Header;
use oracle::random::Random;
use peniko::Brush;
use sovdringa_dew::{Error, Planner, Unwritten};

#[derive(Debug, Clone, Copy, PartialEq, Eq)]
enum Kind {
    Few,
    Many,
    Clips,
    Runs,
    Strokes,
    Scenes,
    Whole,
}

const KINDS: [Kind; 7] = [
    Kind::Few,
    Kind::Many,
    Kind::Clips,
    Kind::Runs,
    Kind::Strokes,
    Kind::Scenes,
    Kind::Whole,
];

fn page(random: &mut Random, header: &Header, kind: Kind) -> Vec<Op> {
    let wanted = |op: &Op| match (kind, op) {
        (Kind::Runs, Op::Draw(draw)) => matches!(draw, Draw::Run(_)),
        (Kind::Strokes, Op::Draw(draw)) => matches!(draw, Draw::Stroke(..)),
        (Kind::Scenes, Op::Draw(draw)) => matches!(draw, Draw::Scene(_)),
        _ => true,
    };
    match kind {
        Kind::Few | Kind::Many | Kind::Whole => pages::page(random, header),
        Kind::Clips => {
            let mut ops = Vec::new();
            for _ in 0..random.below(24) {
                ops.push(Op::Clip(pages::clip(random, header)));
                ops.push(pages::draw(random, header));
            }
            for _ in 0..random.below(1 + ops.len() / 2) {
                ops.push(Op::Pop);
                ops.push(pages::draw(random, header));
            }
            ops
        }
        Kind::Runs | Kind::Strokes | Kind::Scenes => (0..60)
            .map(|_| pages::draw(random, header))
            .filter(wanted)
            .collect(),
    }
}

fn next(random: &mut Random, header: &Header, kind: Kind, ops: &[Op]) -> Vec<Op> {
    match kind {
        Kind::Whole => page(random, header, kind),
        Kind::Many => (0..10).fold(ops.to_vec(), |ops, _| edits::edited(random, header, &ops)),
        _ => edits::edited(random, header, ops),
    }
}

/// The bits of a rectangle's edges. Which zero an edge is, is open.
fn bits(rect: Rect) -> [u64; 4] {
    rect.edges().map(|edge| (edge + 0.0).to_bits())
}

struct Dew {
    scheduler: BandScheduler,
    header: Header,
    current: Option<DisplayList>,
}

/// What painter and display were asked, and the counters.
#[derive(Debug, PartialEq)]
struct Rendered {
    painted: Vec<(dew::compositor::DeviceRegion, Vec<u32>)>,
    flushed: Vec<dew::compositor::DeviceRegion>,
    presented: u32,
    work: dew::stats::FrameWork,
}

fn rendered(
    header: &Header,
    list: &DisplayList,
    render: impl FnOnce(&mut Painter, &mut Display, &mut dew::stats::FrameWork),
) -> Rendered {
    let mut painter = Painter::default();
    let mut display = Display {
        size: (header.width, header.height),
        flushed: Vec::new(),
        presented: 0,
    };
    let mut work = list.work();
    render(&mut painter, &mut display, &mut work);
    Rendered {
        painted: painter.asked,
        flushed: display.flushed,
        presented: display.presented,
        work,
    }
}

/// Turns both to a page and compares all that they say. The number of regions.
fn turn(planner: &mut Planner, dew: &mut Dew, list: DisplayList) -> usize {
    let header = dew.header;
    let turned = planner
        .turn(list.clone())
        .expect("the generated pages have plans");
    let dirty = dew.current.as_ref().map_or_else(
        || {
            vec![Rect::new(
                0.0,
                0.0,
                f64::from(header.width),
                f64::from(header.height),
            )]
        },
        |current| dirty_between(current, &list),
    );
    let regions = dew.scheduler.schedule(&dirty);
    let index = BandIndex::build(&list, header.height, header.band_height);
    assert!(
        turned.dirty().map(bits).eq(dirty.iter().copied().map(bits)),
        "rectangles"
    );
    assert!(turned.regions().eq(regions.iter().copied()), "regions");
    for region in &regions {
        assert_eq!(
            turned.candidates(*region),
            index.candidates(*region),
            "candidates"
        );
    }
    let ours = rendered(&header, &list, |painter, display, work| {
        turned.render(painter, display, work)
    });
    let dews = rendered(&header, &list, |painter, display, work| {
        if !dirty.is_empty() {
            render_frame(painter, &list, &dew.scheduler, &dirty, display, work);
        }
    });
    assert_eq!(ours, dews, "painter, display and counters");
    dew.current = Some(list);
    regions.len()
}

#[test]
fn ten_thousand_page_turns() {
    let (mut turns, mut regions) = (0, [0; KINDS.len()]);
    for seed in 0..910 {
        let kind = seed as usize % KINDS.len();
        let random = &mut Random::new("page turns", seed);
        let header = pages::header(random);
        let scenes = &mut SceneTable::default();
        let mut planner = Planner::new(header.width, header.height, header.band_height);
        let mut dew = Dew {
            scheduler: BandScheduler::new(header.width, header.height, header.band_height),
            header,
            current: None,
        };
        let mut ops = page(random, &header, KINDS[kind]);
        for number in 0..12 {
            if number > 0 {
                ops = next(random, &header, KINDS[kind], &ops);
                turns += 1;
            }
            let count = turn(&mut planner, &mut dew, by_dew::list(scenes, &ops));
            if number > 0 {
                regions[kind] += count;
            }
        }
    }
    assert!(turns >= 10_000, "{turns} page turns");
    assert!(
        regions.iter().all(|count| *count > 500),
        "regions of each kind: {regions:?}"
    );
    println!("sovdringa_dew: {turns} page turns alike, regions by kind {regions:?}");
}

fn fill(bounds: Rect) -> DrawCommand {
    DrawCommand::FillPath {
        path: BezPath { number: 1, bounds },
        transform: Affine::IDENTITY,
        brush: Brush(1),
        clip: None,
    }
}

const CELL: Rect = Rect::new(1.0, 1.0, 5.0, 5.0);

#[test]
fn what_has_no_strip_is_handed_back() {
    let mut planner = Planner::new(40, 40, 16);
    let mut list = DisplayList::new();
    list.push(fill(CELL));
    assert_eq!(
        planner.turn(list).map(|turn| turn.regions().len()).ok(),
        Some(3)
    );

    let mut clipped = DisplayList::new();
    clipped.push_clip_shape(Arc::new(BezPath {
        number: 2,
        bounds: CELL,
    }));
    clipped.push(fill(CELL));
    let refused = planner.turn(clipped).expect_err("an outline");
    assert_eq!(refused.error, Error::Unwritten(Unwritten::OutlineClip(0)));
    assert_eq!(refused.list.commands().len(), 1);

    let mut placed = DisplayList::new();
    placed.push_placed(fill(CELL), Rect::new(0.0, 0.0, 9.0, 9.0));
    let refused = planner.turn(placed).expect_err("a box of its own");
    assert_eq!(refused.error, Error::Unwritten(Unwritten::PlacedBox(0)));

    let mut endless = DisplayList::new();
    endless.push(fill(Rect::new(0.0, 0.0, f64::INFINITY, 1.0)));
    let refused = planner.turn(endless).expect_err("not finite");
    assert!(matches!(refused.error, Error::Refused(refusal) if refusal.number() == 4));

    // The screen shows the first page all the same.
    let mut same = DisplayList::new();
    same.push(fill(CELL));
    assert_eq!(
        planner.turn(same).map(|turn| turn.dirty().len()).ok(),
        Some(0)
    );
}

#[test]
fn an_equal_content_at_another_place_is_no_change_at_its_own() {
    let mut planner = Planner::new(40, 40, 40);
    let mut list = DisplayList::new();
    list.push(fill(CELL));
    list.push(fill(Rect::new(10.0, 10.0, 15.0, 15.0)));
    let first = list.clone();
    planner.turn(first).expect("a first page");
    list.push(fill(CELL));
    let turn = planner.turn(list).expect("one command more");
    let dirty: Vec<Rect> = turn.dirty().collect();
    assert_eq!(dirty, [CELL]);
}
