//! Every number of document 01's table, with its position.

mod common;

use common::{BOX, GLYPH, HEADER, RUN, SHAPE, STROKE, page};
use sovdringa::strip::{Shape, Strip, first_input, next_input};
use sovdringa::{
    Affine, Header, Reason, Rect, Refusal, Region, Space, candidates, plan_first, plan_next,
};

/// The refusal of a page as a first frame, with space enough.
fn refused(page: &Strip) -> Refusal {
    refused_bytes(&first_input(HEADER, page))
}

fn refused_bytes(input: &[u8]) -> Refusal {
    plan_first(&mut Space::for_input(input), input).expect_err("refused")
}

#[track_caller]
fn assert_refused(refusal: Refusal, reason: Reason, position: usize) {
    assert_eq!((refusal.reason, refusal.position), (reason, position));
}

#[test]
fn sizes_out_of_range() {
    for wrong in [0, 32_769, u32::MAX] {
        for place in 0..3 {
            let mut sizes = [40, 40, 16];
            sizes[place] = wrong;
            let [width, height, band_height] = sizes;
            let header = Header::new(width, height, band_height);
            assert_refused(
                refused_bytes(&first_input(header, &page())),
                Reason::Size,
                0,
            );
            let refusal = candidates(header, 0, &[0, 0]).expect_err("refused");
            assert_refused(refusal, Reason::Size, 0);
        }
    }
}

#[test]
fn bytes_that_end_too_early() {
    let input = first_input(HEADER, &page());
    assert_refused(refused_bytes(&[]), Reason::CutOff, 0);
    assert_refused(refused_bytes(&input[..11]), Reason::CutOff, 0);
    assert_refused(refused_bytes(&input[..12]), Reason::CutOff, 12);
    assert_refused(refused_bytes(&input[..44]), Reason::CutOff, 12);
    assert_refused(refused_bytes(&input[..45]), Reason::CutOff, 45);
    let end = input.len() - 1;
    assert_refused(refused_bytes(&input[..end]), Reason::CutOff, end);
}

#[test]
fn bytes_that_are_no_code() {
    let mut input = first_input(HEADER, &Strip::new());
    input[12] = 8;
    assert_refused(refused_bytes(&input), Reason::Code, 12);
    let mut input = first_input(HEADER, Strip::new().stroke(SHAPE, STROKE));
    for place in [12 + 105, 12 + 114, 12 + 115] {
        let right = std::mem::replace(&mut input[place], 3);
        assert_refused(refused_bytes(&input), Reason::Code, 12);
        input[place] = right;
    }
}

#[test]
fn numbers_that_are_not_finite() {
    for wrong in [f64::NAN, f64::INFINITY, f64::NEG_INFINITY] {
        let mut page = Strip::new();
        page.fill(SHAPE).clip(Rect::new(0.0, 0.0, wrong, 1.0));
        assert_refused(refused(&page), Reason::NotFinite, 12 + 97);
    }
}

#[test]
fn a_pop_without_a_clip() {
    let mut page = Strip::new();
    page.clip(BOX).pop().pop();
    assert_refused(refused(&page), Reason::NoClip, 12 + 33 + 1);
}

#[test]
fn one_past_each_limit() {
    let mut open = Strip::new();
    for _ in 0..33 {
        open.clip(BOX);
    }
    assert_refused(refused(&open), Reason::Limit, 12 + 32 * 33);

    let mut clips = Strip::new();
    for _ in 0..4_097 {
        clips.clip(BOX).pop();
    }
    assert_refused(refused(&clips), Reason::Limit, 12 + 4_096 * 34);

    let mut commands = Strip::new();
    for _ in 0..4_097 {
        commands.fill(SHAPE);
    }
    assert_refused(refused(&commands), Reason::Limit, 12 + 4_096 * 97);

    let mut glyphs = Strip::new();
    glyphs
        .run(RUN, &[GLYPH; 16_385])
        .expect("the count is a u16");
    assert_refused(refused(&glyphs), Reason::Limit, 12 + 103 + 16_384 * 45);
}

#[test]
fn glyphs_that_are_due_or_not() {
    let mut run = Strip::new();
    run.run(RUN, &[GLYPH]).expect("one glyph");
    let input = first_input(HEADER, &run);
    let mut without_run = input.clone();
    without_run.drain(12..12 + 103);
    assert_refused(refused_bytes(&without_run), Reason::GlyphsDue, 12);
    let mut without_glyph = input;
    without_glyph.drain(12 + 103..12 + 103 + 45);
    assert_refused(refused_bytes(&without_glyph), Reason::GlyphsDue, 12 + 103);
}

#[test]
fn bytes_behind_the_end() {
    let mut input = first_input(HEADER, &page());
    let end = input.len();
    input.push(0);
    assert_refused(refused_bytes(&input), Reason::BytesFollow, end);
    // To the other entry they are the new page.
    let mut space = Space::for_input(&input);
    assert!(plan_next(&mut space, &input).is_ok());
    input.push(0);
    let refusal = plan_next(&mut Space::for_input(&input), &input).expect_err("refused");
    assert_refused(refusal, Reason::BytesFollow, end + 1);
}

#[test]
fn a_corner_beyond_every_number() {
    let large = Affine([f64::MAX, 0.0, 0.0, 1.0, 0.0, 0.0]);
    let mut page = Strip::new();
    page.fill(Shape {
        affine: large,
        ..SHAPE
    });
    assert_refused(refused(&page), Reason::Overflow, 12);
}

#[test]
fn too_little_space() {
    let input = next_input(HEADER, &page(), &page());
    let mut space = Space::for_len(0);
    let refusal = plan_next(&mut space, &input).expect_err("refused");
    assert_refused(refusal, Reason::Space, 0);
}

#[test]
fn rows_below_the_index_and_words_that_are_none() {
    let input = next_input(HEADER, &Strip::new(), &page());
    let mut space = Space::for_input(&input);
    let plan = plan_next(&mut space, &input).expect("a plan");
    let region = |y| Region {
        x: 0,
        y,
        width: 1,
        height: 1,
    };
    assert!(plan.candidates(region(47)).is_ok());
    let below = plan.candidates(region(48)).expect_err("below the index");
    assert_refused(below, Reason::Row, 0);
    let words = plan.index_words();
    for words in [&words[..3], &[], &[1, 0, 0, 0], &[0, 1, 1, 1]] {
        let refusal = candidates(HEADER, 0, words).expect_err("no index");
        assert_refused(refusal, Reason::Row, 0);
    }
    assert_eq!(candidates(HEADER, 0, &[0, 0, 0, 0]), Ok(&[][..]));
}

#[test]
fn every_number_has_a_sentence() {
    let numbers: Vec<u32> = Reason::ALL.iter().map(|reason| reason.number()).collect();
    assert_eq!(numbers, (1..=11).collect::<Vec<u32>>());
    for reason in Reason::ALL {
        assert!(reason.sentence().ends_with('.'));
    }
    let refusal: Box<dyn std::error::Error> = Box::new(refused_bytes(&[]));
    assert_eq!(
        refusal.to_string(),
        "refused 2 at byte 0: The bytes end too early: in the header, where a command should stand, or within one."
    );
}
