//! The refusal table, row by row, and the generators that reach it.

mod common;

use std::collections::BTreeSet;

use common::{
    NEW, UNIT, bytes, fill, first, glyph, header, new_strip, number, pen, printed, refused, run,
    shape, two_strips,
};
use kurbo::Rect;
use oracle::calls::{Call, Request, candidates_input};
use oracle::command::{Draw, Op, code};
use oracle::entry::{self, Entry};
use oracle::generate::{self, Kind};
use oracle::planners::document;
use oracle::print::plan_form;
use oracle::program;
use oracle::space::Space;
use oracle::write;

#[test]
fn sizes_are_from_1_to_32768() {
    let with = |width, height, band_height| {
        refused(&two_strips(header(width, height, band_height), &[], &[]))
    };
    assert_eq!(with(1, 1, 1), (0, 0));
    assert_eq!(with(32_768, 32_768, 32_768), (0, 0));
    for wrong in [0, 32_769, u32::MAX] {
        assert_eq!(with(wrong, 8, 8), (1, 0));
        assert_eq!(with(8, wrong, 8), (1, 0));
        assert_eq!(with(8, 8, wrong), (1, 0));
    }
}

#[test]
fn each_command_is_cut_off_at_its_own_length() {
    for (byte, length) in [
        (code::CLIP, 33),
        (code::FILL, 97),
        (code::STROKE, 124),
        (code::RUN, 103),
        (code::SCENE, 105),
    ] {
        let mut command = vec![0; length];
        command[0] = byte;
        assert_eq!(
            refused(&new_strip(&command[..length - 1])),
            (2, NEW),
            "{byte}"
        );
        command.push(code::END);
        assert_eq!(refused(&new_strip(&command)), (0, 0), "{byte}");
    }
    let mut text = Vec::new();
    write::run(&mut text, &common::run(vec![]), 1);
    let start = text.len();
    text.push(code::GLYPH);
    text.extend([0; 43]);
    assert_eq!(refused(&new_strip(&text)), (2, NEW + start));
    text.extend([0, code::END]);
    assert_eq!(refused(&new_strip(&text)), (0, 0));
}

#[test]
fn a_pop_needs_an_open_clip() {
    assert_eq!(refused(&new_strip(&[code::POP])), (5, NEW));
    let clip = bytes(&[Op::Clip(UNIT), Op::Pop]);
    let mut twice = clip.clone();
    twice.push(code::POP);
    assert_eq!(refused(&new_strip(&twice)), (5, NEW + 34));
    // Clips do not reach from one strip into the other.
    let input = two_strips(header(8, 8, 4), &[Op::Clip(UNIT)], &[Op::Pop]);
    assert_eq!(refused(&input), (5, 12 + 34));
}

#[test]
fn the_old_strip_is_read_first() {
    let mut input = header(8, 8, 4).bytes();
    input.extend([code::POP, 99]);
    assert_eq!(refused(&input), (5, 12));
}

#[test]
fn thirty_two_clips_may_stand_open_at_end() {
    let clips = vec![Op::Clip(UNIT); 32];
    assert_eq!(
        refused(&two_strips(header(8, 8, 4), &clips, &clips)),
        (0, 0)
    );
}

#[test]
fn an_inflated_edge_may_overflow() {
    let stroke = |x1: f64, width: f64| {
        let bounds = Rect::new(0.0, 0.0, x1, 1.0);
        let draw = Op::Draw(Draw::Stroke(shape(bounds), pen(width)));
        refused(&new_strip(&write::strip(&[draw])))
    };
    assert_eq!(stroke(f64::MAX, 1.0), (0, 0));
    assert_eq!(stroke(f64::MAX, 1e300), (9, NEW));
    assert_eq!(stroke(1.0, f64::MAX), (0, 0));
}

#[test]
fn the_first_frame_entry_makes_the_same_checks() {
    let mut input = header(8, 8, 4).bytes();
    assert_eq!(number(&first(&input[..5])), (2, 0));
    assert_eq!(number(&first(&input)), (2, 12));
    input.push(code::POP);
    assert_eq!(number(&first(&input)), (5, 12));
    input.pop();
    input.extend(write::strip(&[fill(0.0, 0.0, 20.0, 1.0)]));
    let accepted = first(&input).expect("an accepted frame");
    assert_eq!(accepted.plan.dirty, [Rect::new(0.0, 0.0, 8.0, 8.0)]);
    assert_eq!(accepted.used.items(), [1, 0, 0, 1, 2, 4]);
    assert_eq!(accepted.plan.pixels_transferred, 64);
}

#[test]
fn the_program_lends_4096_regions_and_16384_words() {
    let printed_for =
        |height: u32, old: &[Op], new: &[Op]| printed(&two_strips(header(1, height, 1), old, new));
    let lines = |count: u32| [fill(0.0, 0.0, 1.0, f64::from(count))];
    let most = printed_for(4_097, &lines(4_096), &[]);
    assert!(most.ends_with("regions 4096 pixels 4096\n"));
    assert_eq!(printed_for(4_097, &lines(4_097), &[]), "refused 10 at 0\n");
    // 16,383 rows have 16,384 starts; an entry more is a word too many.
    assert_eq!(
        printed_for(16_383, &[], &[]),
        "dirty 0\nregions 0 pixels 0\n"
    );
    assert_eq!(printed_for(16_384, &[], &[]), "refused 10 at 0\n");
    let still = lines(2);
    assert_eq!(
        printed_for(16_381, &still, &still),
        "dirty 0\nregions 0 pixels 0\n"
    );
    assert_eq!(printed_for(16_382, &still, &still), "refused 10 at 0\n");
}

/// A glyph takes 45 bytes and lists at most one rectangle, a FILL 97 in each of
/// two strips and at most four; so 65,536 bytes never list 2,048.
#[test]
fn the_program_never_lacks_rectangles() {
    let most = (program::LONGEST - 12 - 2 - 2 * 103) / 45;
    let glyphs = vec![glyph(1, UNIT); most];
    let old = [Op::Draw(Draw::Run(run(vec![])))];
    let new = [Op::Draw(Draw::Run(run(glyphs)))];
    let input = two_strips(header(8, 8, 4), &old, &new);
    assert!(input.len() <= program::LONGEST && input.len() + 45 > program::LONGEST);
    assert!(printed(&input).starts_with(&format!("dirty {most}\n")));
    assert!(most < 2_048);
}

/// What is written is what is read, to the bits of zeros.
#[test]
fn the_reader_reads_what_the_writer_writes() {
    let mut strips = 0;
    for kind in [Kind::Pages, Kind::Edges] {
        for seed in 0..2_000 {
            let input = generate::input(kind, seed).expect("the program takes pages");
            let frame = entry::read(Entry::Later, &input).expect("pages are accepted");
            let old = frame.old.expect("a later frame has an old strip");
            assert_eq!(two_strips(frame.header, &old, &frame.new), input);
            strips += 2;
        }
    }
    assert_eq!(strips, 8_000);
}

/// The numbers that a kind's answers hold, among so many seeds.
fn numbers(kind: Kind, seeds: u64) -> BTreeSet<String> {
    let mut numbers = BTreeSet::new();
    let mut take = |answer: &str| {
        let first = answer
            .split_inclusive([' ', '\n'])
            .take(2)
            .collect::<String>();
        if first.starts_with("refused") {
            numbers.insert(first.trim_end().to_owned());
        } else {
            numbers.insert("accepted".to_owned());
        }
    };
    for seed in 0..seeds {
        if let Some(input) = generate::input(kind, seed) {
            take(&plan_form(&program::answer(&document, &input)));
        }
        for call in generate::calls(kind, seed, &document) {
            take(&call.answer(&document));
        }
    }
    numbers
}

fn expected(numbers: &[u8]) -> BTreeSet<String> {
    numbers
        .iter()
        .map(|number| match number {
            0 => "accepted".to_owned(),
            _ => format!("refused {number}"),
        })
        .collect()
}

#[test]
fn the_generators_reach_every_number() {
    assert_eq!(numbers(Kind::Pages, 2_000), expected(&[0, 10]));
    assert_eq!(numbers(Kind::Edges, 500), expected(&[0, 10]));
    assert_eq!(
        numbers(Kind::Damage, 3_000),
        expected(&[0, 1, 2, 3, 4, 5, 7, 8, 9, 10])
    );
    assert_eq!(
        numbers(Kind::Tiny, 3_000),
        expected(&[0, 1, 2, 3, 4, 5, 6, 7, 8, 9, 10])
    );
    assert_eq!(
        numbers(Kind::Limits, 130),
        expected(&[0, 1, 2, 3, 4, 6, 7, 8, 9, 10])
    );
    assert!(numbers(Kind::First, 2_000).is_superset(&expected(&[0, 1, 2, 3, 4, 5, 7, 8, 10])));
    assert!(numbers(Kind::Frames, 1_000).is_superset(&expected(&[0, 2, 3, 7, 8, 10])));
    assert_eq!(numbers(Kind::Candidates, 1_000), expected(&[0, 1, 11]));
}

#[test]
fn a_call_is_read_back_from_its_bytes() {
    let frame = Call {
        request: Request::Frame {
            entry: Entry::First,
            space: Space::of_items([1, 2, 3, 4, 5, 6]),
        },
        input: vec![9, 8],
    };
    assert_eq!(frame.bytes()[..5], [1, 1, 0, 0, 0]);
    assert_eq!(Call::read(&frame.bytes()), Some(frame));
    let row = Call {
        request: Request::Candidates,
        input: candidates_input(header(8, 40, 16), 16, &[0, 2, 3, 3, 0, 1, 0]),
    };
    assert_eq!(row.answer(&document), "draw 0\n");
    assert_eq!(Call::read(&row.bytes()), Some(row));
    assert_eq!(Call::read(&[]), None);
    assert_eq!(Call::read(&[1, 0, 0]), None);
    assert_eq!(Call::read(&[77]), None);
}
