//! Document 01's example and its edges to hold, by every planner at hand.

mod common;

use common::{dirty, fill, header, later, pen, printed, regions, run, shape, two_strips};
use kurbo::{Affine, Cap, Join, Rect};
use oracle::command::{Draw, Glyph, Op, Pen, Run, Shape};
use oracle::model::index::exact_row;

fn moved(path: u64, bounds: Rect, brush: u64, x: f64, y: f64) -> Op {
    Op::Draw(Draw::Fill(Shape {
        path,
        bounds,
        affine: Affine([1.0, 0.0, 0.0, 1.0, x, y]),
        brush,
    }))
}

#[test]
fn the_plan_programs_example() {
    let small = Rect::new(0.0, 0.0, 4.0, 4.0);
    let under = moved(2, Rect::new(0.0, 0.0, 40.0, 16.0), 2, 0.0, 0.0);
    let strip = |x: f64| [moved(1, small, 1, x, 14.0), under.clone()];
    let input = two_strips(header(40, 40, 16), &strip(10.5), &strip(12.5));
    assert_eq!(input.len(), 402);
    assert_eq!(
        printed(&input),
        "dirty 1\nregion 10 14 7 2 draw 0 1\nregion 10 16 7 2 draw 0\nregions 2 pixels 28\n"
    );
    let accepted = later(&input).expect("an accepted frame");
    assert_eq!(accepted.plan.words, [0, 2, 3, 3, 0, 1, 0]);
    assert_eq!(accepted.plan.commands_emitted, 2);
}

#[test]
fn a_fill_cut_by_a_clip_lists_only_what_went() {
    let ten = fill(0.0, 0.0, 10.0, 10.0);
    let clip = |x1: f64| Op::Clip(Rect::new(0.0, 0.0, x1, 10.0));
    let cut = Rect::new(6.0, 0.0, 10.0, 10.0);
    assert_eq!(
        dirty(std::slice::from_ref(&ten), &[clip(6.0), ten.clone()]),
        [cut]
    );
    assert_eq!(dirty(&[clip(6.0), ten.clone()], &[clip(10.0), ten]), [cut]);
}

#[test]
fn boxes_are_rounded_outwards_and_cut_to_the_screen() {
    let one = |op: Op| regions(&two_strips(header(8, 8, 8), &[], &[op]));
    assert_eq!(one(fill(-1.5, 2.25, 3.5, 4.0)), [(0, 2, 4, 2)]);
    assert_eq!(one(fill(3.0, 3.0, 3.0, 5.0)), []);
    // Without area, and a region all the same.
    assert_eq!(one(fill(2.5, 3.0, 2.5, 5.0)), [(2, 3, 1, 2)]);
}

#[test]
fn regions_of_a_band_join_along_x_alone() {
    let two = |a: Op, b: Op| regions(&two_strips(header(40, 40, 40), &[], &[a, b]));
    let corner = fill(0.0, 0.0, 4.0, 4.0);
    assert_eq!(
        two(corner.clone(), fill(4.0, 8.0, 8.0, 12.0)),
        [(0, 0, 8, 12)]
    );
    assert_eq!(
        two(corner, fill(5.0, 8.0, 9.0, 12.0)),
        [(0, 0, 4, 4), (5, 8, 4, 4)]
    );
    assert_eq!(
        two(fill(0.0, 5.0, 2.0, 7.0), fill(8.0, 0.0, 10.0, 2.0)),
        [(8, 0, 2, 2), (0, 5, 2, 2)]
    );
}

#[test]
fn rows_end_before_the_high_edge() {
    let words = |height: u32, y0: f64, y1: f64| {
        let input = two_strips(header(40, height, 16), &[], &[fill(0.0, y0, 1.0, y1)]);
        later(&input).expect("an accepted frame").plan.words
    };
    assert_eq!(words(40, 0.0, 16.0), [0, 1, 1, 1, 0]);
    assert_eq!(words(40, 0.0, 16.0_f64.next_up()), [0, 1, 2, 2, 0, 0]);
    assert_eq!(words(40, 100.0, 120.0), [0, 0, 0, 1, 0]);
    assert_eq!(words(40, -8.0, -2.0), [0, 1, 1, 1, 0]);
    assert_eq!(exact_row(16.0_f64.next_down(), 16, 3), 0);
}

#[test]
fn strokes_grow_by_join_and_cap() {
    let stroke = |pen: Pen| {
        let bounds = Rect::new(10.0, 10.0, 20.0, 20.0);
        dirty(&[], &[Op::Draw(Draw::Stroke(shape(bounds), pen))])
    };
    let miter = Pen {
        join: Join::Miter,
        ..pen(2.0)
    };
    assert_eq!(stroke(miter), [Rect::new(6.0, 6.0, 24.0, 24.0)]);
    let square = Pen {
        end_cap: Cap::Square,
        ..pen(2.0)
    };
    let grown = f64::from_bits(0x3FF6_A09E_667F_3BCD);
    let edges = Rect::new(10.0 - grown, 10.0 - grown, 20.0 + grown, 20.0 + grown);
    assert_eq!(stroke(square), [edges]);
    assert_eq!(stroke(pen(0.0)), [Rect::new(10.0, 10.0, 20.0, 20.0)]);
}

#[test]
fn empty_runs_alike_but_for_their_own_box_list_nothing() {
    let text = |x1: f64| {
        Op::Draw(Draw::Run(Run {
            bounds: Rect::new(0.0, 0.0, x1, 9.0),
            ..run(vec![])
        }))
    };
    assert_eq!(dirty(&[text(5.0)], &[text(6.0)]), []);
}

#[test]
fn sizes_of_both_zeros_are_equal_until_a_glyph_differs() {
    let text = |size: f32, ids: [u32; 2]| {
        let glyphs = ids.iter().zip([0.0, 20.0]).map(|(id, x)| Glyph {
            id: *id,
            x,
            y: 0.0,
            bounds: Rect::new(f64::from(x), 0.0, f64::from(x) + 5.0, 5.0),
        });
        Op::Draw(Draw::Run(Run {
            size,
            ..run(glyphs.collect())
        }))
    };
    let last = Rect::new(20.0, 0.0, 25.0, 5.0);
    let all = Rect::new(0.0, 0.0, 25.0, 5.0);
    assert_eq!(dirty(&[text(0.0, [1, 2])], &[text(-0.0, [1, 2])]), []);
    assert_eq!(dirty(&[text(0.0, [1, 2])], &[text(0.0, [1, 3])]), [last]);
    assert_eq!(dirty(&[text(0.0, [1, 2])], &[text(-0.0, [1, 3])]), [all]);
}
