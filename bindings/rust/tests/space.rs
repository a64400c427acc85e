//! Lent space: just enough, one short, untouched where it has to be.

mod common;

use common::{HEADER, SHAPE, Slices, example, page};
use sovdringa::strip::{Shape, Strip, first_input, next_input};
use sovdringa::{
    Affine, Counts, Header, Lent, Limits, Reason, Rect, Space, plan_first, plan_first_growing,
    plan_next, plan_next_growing,
};

/// A page turn that needs an item of each kind, with the items that it needs.
fn turn() -> (Vec<u8>, Counts, Limits) {
    let old = page();
    let mut new = page();
    new.fill(SHAPE);
    let input = next_input(HEADER, &old, &new);
    let counts = plan_next(&mut Space::for_input(&input), &input)
        .expect("a plan")
        .counts();
    let limits = Limits::default()
        .with_commands(9)
        .with_glyphs(4)
        .with_clips(2)
        .with_rectangles(counts.rectangles)
        .with_regions(counts.regions)
        .with_index_words(counts.index_words);
    (input, counts, limits)
}

#[test]
fn just_enough_is_enough() {
    let (input, counts, limits) = turn();
    assert_eq!(counts.commands, 5);
    let mut slices = Slices::filled(limits);
    assert_eq!(slices.lend().plan_next(&input), Ok(counts));
    assert!(slices.scratch_is_zero());
    let mut space = Space::new(limits);
    assert_eq!(space.limits(), limits);
    let plan = plan_next(&mut space, &input).expect("just enough");
    assert_eq!(plan.counts(), counts);
}

#[test]
fn one_word_short_in_any_slice_is_refused() {
    let (input, _, limits) = turn();
    let short = Slices::filled(limits).one_short();
    assert_eq!(short.len(), 13);
    for (place, mut slices) in short.into_iter().enumerate() {
        let before = slices.clone();
        let refusal = slices.lend().plan_next(&input).expect_err("one short");
        assert_eq!(
            (refusal.reason, refusal.position),
            (Reason::Space, 0),
            "slice {place}"
        );
        assert_eq!(
            slices.output(),
            before.output(),
            "slice {place}: the output was written"
        );
        assert!(
            slices.scratch_is_zero(),
            "slice {place}: the scratch is not zero"
        );
    }
}

#[test]
fn one_item_short_of_any_kind_is_refused() {
    let (input, _, limits) = turn();
    type Item = fn(&mut Limits) -> &mut usize;
    let kinds: [Item; 6] = [
        |limits| &mut limits.commands,
        |limits| &mut limits.glyphs,
        |limits| &mut limits.clips,
        |limits| &mut limits.rectangles,
        |limits| &mut limits.regions,
        |limits| &mut limits.index_words,
    ];
    for kind in kinds {
        let mut short = limits;
        *kind(&mut short) -= 1;
        let refusal = plan_next(&mut Space::new(short), &input).expect_err("one short");
        assert_eq!(refusal.reason, Reason::Space);
    }
}

#[test]
fn output_past_the_plan_stays_as_it_was() {
    let (input, counts, limits) = turn();
    let mut ample = limits;
    ample.rectangles += 3;
    ample.regions += 2;
    ample.index_words += 1;
    let mut slices = Slices::filled(ample);
    assert_eq!(slices.lend().plan_next(&input), Ok(counts));
    let (rects, regions, words) = slices.output();
    assert_eq!(rects[4 * counts.rectangles..], [7.5; 12]);
    assert_eq!(regions[4 * counts.regions..], [777; 8]);
    assert_eq!(words[counts.index_words..], [777]);
    assert!(slices.scratch_is_zero());
}

#[test]
fn refused_bytes_leave_the_output_and_clear_the_scratch() {
    let (input, _, limits) = turn();
    for cut in [0, 5, 12, 40, input.len() - 1] {
        let mut slices = Slices::filled(limits);
        let before = slices.clone();
        assert!(slices.lend().plan_next(&input[..cut]).is_err());
        assert!(slices.lend().plan_first(&input[..cut]).is_err());
        assert_eq!(slices.output(), before.output());
        assert!(slices.scratch_is_zero());
    }
}

#[test]
fn no_space_at_all_has_an_answer() {
    let input = next_input(HEADER, &Strip::new(), &Strip::new());
    let number = |result: Result<Counts, sovdringa::Refusal>| result.expect_err("refused").number();
    let mut slices = Slices::filled(Limits::default());
    for mut nothing in [slices.lend(), Lent::default()] {
        assert_eq!(number(nothing.plan_first(&[])), 2);
        assert_eq!(number(nothing.plan_next(&input)), 10);
    }
}

#[test]
fn a_plan_can_be_made_again_in_the_same_space() {
    let (input, counts, limits) = turn();
    let mut space = Space::new(limits);
    for _ in 0..3 {
        assert_eq!(
            plan_next(&mut space, &input).expect("a plan").counts(),
            counts
        );
        assert!(plan_next(&mut space, &[]).is_err());
    }
}

/// Strips that leave as many rectangles for their bytes as there can be.
fn fills(pairs: usize) -> (Strip, Strip) {
    let (mut old, mut new) = (Strip::new(), Strip::new());
    let large = Rect::new(0.0, 0.0, 40.0, 40.0);
    for _ in 0..pairs {
        old.clip(large)
            .fill(Shape {
                bounds: large,
                ..SHAPE
            })
            .pop();
        new.clip(Rect::new(10.0, 10.0, 20.0, 20.0))
            .fill(Shape {
                bounds: large,
                ..SHAPE
            })
            .pop();
    }
    (old, new)
}

#[test]
fn limits_from_an_input_are_never_too_small() {
    let (old, new) = fills(40);
    let tall = Header::new(7, 900, 1);
    let empty = Strip::new();
    let mut moved = Strip::new();
    for place in 0..60 {
        let affine = Affine::translate(f64::from(place * 17 % 40), f64::from(place));
        moved.fill(Shape { affine, ..SHAPE });
    }
    let inputs = [
        next_input(HEADER, &old, &new),
        next_input(HEADER, &new, &old),
        next_input(tall, &old, &empty),
        next_input(tall, &moved, &new),
        next_input(HEADER, &empty, &empty),
        next_input(tall, &page(), &moved),
        example("districts.bin"),
    ];
    for input in &inputs {
        let plan = plan_next(&mut Space::for_input(input), input).map(|plan| plan.counts());
        assert!(plan.is_ok(), "{plan:?}");
    }
    let rectangles = plan_next(&mut Space::for_input(&inputs[0]), &inputs[0])
        .expect("a plan")
        .counts()
        .rectangles;
    assert_eq!(rectangles, 4 * 40);
    let first = first_input(tall, &moved);
    assert!(plan_first(&mut Space::for_input(&first), &first).is_ok());
    assert!(Space::for_len(65_536).limits().commands == 675);
}

#[test]
fn space_grows_until_a_plan_fits() {
    let (old, new) = fills(8);
    let tall = Header::new(40, 40, 1);
    let input = next_input(tall, &old, &new);
    let needed = plan_next(&mut Space::for_input(&input), &input)
        .expect("a plan")
        .counts();
    let mut space = Space::default();
    let grown = plan_next_growing(&mut space, &input).expect("space that grows is enough");
    assert_eq!(grown.counts(), needed);
    let limits = space.limits();
    assert!(limits.regions < 2 * needed.regions || limits.index_words < 2 * needed.index_words);
    assert!(plan_next(&mut space, &input).is_ok());
    let first = first_input(tall, &new);
    assert!(plan_first_growing(&mut Space::default(), &first).is_ok());
    let refusal = plan_first_growing(&mut Space::default(), &input).expect_err("two strips");
    assert_eq!(refusal.reason, Reason::BytesFollow);
    let most = Limits::for_input(&input);
    assert_eq!(most.grown(&input), None);
}

#[test]
fn sizes_out_of_range_ask_for_no_space() {
    let huge = Header::new(u32::MAX, u32::MAX, 1);
    let limits = Limits::for_input(&huge.bytes());
    assert!(limits.index_words <= 32_769 && limits.regions <= 32_768);
    let none = Header::new(1, 1, 0);
    assert_eq!(none.rows(), 0);
    assert!(plan_first(&mut Space::for_input(&none.bytes()), &none.bytes()).is_err());
}
