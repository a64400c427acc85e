//! Strips as document 01 writes them.

mod common;

use common::{BOX, GLYPH, HEADER, RUN, SCENE, SHAPE, STROKE, example, page, printed};
use sovdringa::strip::{Shape, Strip, first_input, next_input, read};
use sovdringa::{Affine, Header, Rect, Space, plan_first, plan_next};

/// The pages of an input, written anew.
fn rewritten(input: &[u8]) -> Vec<Strip> {
    let (_, pages) = read(input).expect("whole commands");
    pages
        .iter()
        .map(|page| {
            let mut strip = Strip::new();
            for command in page {
                strip.push(command).expect("a count that was read");
            }
            strip
        })
        .collect()
}

#[test]
fn the_example_is_written_to_the_byte() {
    for name in ["districts", "empty-runs"] {
        let input = example(&format!("{name}.bin"));
        let header = Header::read(&input).expect("a header");
        let pages = rewritten(&input);
        assert_eq!(pages.len(), 2);
        assert_eq!(next_input(header, &pages[0], &pages[1]), input);
    }
}

#[test]
fn what_is_cut_off_or_no_command_is_not_read() {
    let input = first_input(HEADER, &page());
    for length in 0..input.len() {
        let pages = read(&input[..length]).map(|(_, pages)| pages.len());
        assert_eq!(
            pages,
            (length == Header::LENGTH).then_some(0),
            "{length} bytes"
        );
    }
    let mut wrong = input.clone();
    wrong[Header::LENGTH] = 8;
    assert_eq!(read(&wrong), None);
}

#[test]
fn the_example_has_its_plan() {
    for name in ["districts", "empty-runs"] {
        let input = example(&format!("{name}.bin"));
        let mut space = Space::for_input(&input);
        let plan = plan_next(&mut space, &input).expect("the example has a plan");
        let expected = String::from_utf8(example(&format!("{name}.plan"))).expect("text");
        assert_eq!(printed(&plan), expected);
    }
}

#[test]
fn a_page_of_every_command_is_read_back() {
    let input = first_input(HEADER, &page());
    assert_eq!(rewritten(&input), [page()]);
    let mut space = Space::for_input(&input);
    let plan = plan_first(&mut space, &input).expect("such a page has a plan");
    assert_eq!(plan.counts().commands, 4);
}

#[test]
fn commands_have_their_lengths() {
    let length = |strip: &Strip| strip.commands().len();
    assert_eq!(length(Strip::new().clip(BOX)), 33);
    assert_eq!(length(Strip::new().pop()), 1);
    assert_eq!(length(Strip::new().fill(SHAPE)), 97);
    assert_eq!(length(Strip::new().stroke(SHAPE, STROKE)), 124);
    assert_eq!(length(Strip::new().scene(SCENE)), 105);
    for glyphs in 0..=3 {
        let mut strip = Strip::new();
        strip.run(RUN, &[GLYPH; 3][..glyphs]).expect("few glyphs");
        assert_eq!(length(&strip), 103 + 45 * glyphs);
    }
    let mut ended = Vec::new();
    Strip::new().end(&mut ended);
    assert_eq!(ended, [0]);
}

#[test]
fn only_a_count_that_has_no_bytes_is_refused_here() {
    let mut strip = Strip::new();
    assert!(strip.run(RUN, &[GLYPH; 65_535]).is_ok());
    let before = strip.clone();
    let refusal = strip.run(RUN, &[GLYPH; 65_536]).expect_err("too many");
    assert_eq!(
        refusal.to_string(),
        "a run of 65536 glyphs: a strip counts at most 65,535"
    );
    assert_eq!(strip, before);
    strip.clear();
    assert_eq!(strip, Strip::new());
    // What a planner refuses is written all the same.
    strip.pop().clip(Rect::new(f64::NAN, 0.0, 0.0, 0.0));
    assert_eq!(strip.commands().len(), 34);
}

#[test]
fn the_documents_example_has_402_bytes() {
    let cell = |x| Shape {
        path: 1,
        bounds: Rect::new(0.0, 0.0, 4.0, 4.0),
        affine: Affine::translate(x, 14.0),
        brush: 1,
    };
    let ground = Shape {
        path: 2,
        bounds: Rect::new(0.0, 0.0, 40.0, 16.0),
        affine: Affine::IDENTITY,
        brush: 2,
    };
    let (mut old, mut new) = (Strip::new(), Strip::new());
    old.fill(cell(10.5)).fill(ground);
    new.fill(cell(12.5)).fill(ground);
    let input = next_input(HEADER, &old, &new);
    assert_eq!(input.len(), 402);
    let mut space = Space::for_input(&input);
    let plan = plan_next(&mut space, &input).expect("the document's example");
    assert_eq!(
        printed(&plan),
        "dirty 1\nregion 10 14 7 2 draw 0 1\nregion 10 16 7 2 draw 0\nregions 2 pixels 28\n"
    );
    assert_eq!(plan.header(), HEADER);
    let rectangles: Vec<_> = plan.rectangles().collect();
    assert_eq!(rectangles, [Rect::new(10.5, 14.0, 16.5, 18.0)]);
    assert_eq!(plan.index_words(), [0, 2, 3, 3, 0, 1, 0]);
}
