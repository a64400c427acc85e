//! The readings of document 01 that we take, one test each.

mod common;

use common::{
    NEW, UNIT, answer, bytes, dirty, fill, first, glyph, header, later, new_strip, number, pen,
    printed, refused, regions, run, scene, shape, two_strips,
};
use kurbo::{Affine, Join, Rect};
use oracle::candidates::candidates;
use oracle::command::{Draw, Op, Pen, Run, Shape, code};
use oracle::entry::Entry;
use oracle::read::{CLIPS, COMMANDS, GLYPHS};
use oracle::space::Space;
use oracle::write;

#[test]
fn reading_01_a_short_header_is_a_2_and_the_length_limit_is_the_programs() {
    // Zero bytes would be sizes of 0: the 2 comes first.
    assert_eq!(refused(&[0; 11]), (2, 0));
    assert_eq!(refused(&[]), (2, 0));
    assert_eq!(refused(&[0; 12]), (1, 0));
    // The program looks at the length before all else.
    assert_eq!(printed(&[0; 65_537]), "refused 10 at 0\n");
    assert_eq!(printed(&[0; 65_536]), "refused 1 at 0\n");
    // The entries take longer inputs.
    let long = vec![[Op::Clip(UNIT), Op::Pop]; 2_000].concat();
    let input = two_strips(header(8, 8, 4), &long, &[]);
    assert!(input.len() > 65_536);
    assert_eq!(refused(&input), (0, 0));
}

#[test]
fn reading_02_no_byte_left_is_a_2_at_the_end_and_a_cut_command_at_the_command() {
    let header = header(8, 8, 4).bytes();
    assert_eq!(refused(&header), (2, 12));
    // The new strip is absent.
    assert_eq!(refused(&new_strip(&[])), (2, 13));
    // A glyph is due.
    let mut due = Vec::new();
    write::run(&mut due, &run(vec![]), 1);
    let input = new_strip(&due);
    assert_eq!(refused(&input), (2, input.len()));
    // A command that is cut off, by one byte and to its first byte.
    let whole = bytes(&[fill(0.0, 0.0, 1.0, 1.0)]);
    for kept in [1, 50, 96] {
        assert_eq!(refused(&new_strip(&whole[..kept])), (2, NEW));
    }
    assert_eq!(refused(&new_strip(&whole)), (2, NEW + 97));
}

#[test]
fn reading_03_an_unknown_byte_is_a_3_and_a_command_out_of_turn_a_7() {
    let mut due = Vec::new();
    write::run(&mut due, &run(vec![]), 1);
    let after = |byte: u8| {
        let mut bytes = due.clone();
        bytes.push(byte);
        refused(&new_strip(&bytes))
    };
    assert_eq!(after(8), (3, NEW + 103));
    assert_eq!(after(255), (3, NEW + 103));
    for byte in [
        code::END,
        code::CLIP,
        code::POP,
        code::FILL,
        code::STROKE,
        code::RUN,
        code::SCENE,
    ] {
        assert_eq!(after(byte), (7, NEW + 103), "{byte}");
    }
    assert_eq!(after(code::GLYPH), (2, NEW + 103));
    // Not due: a 7 though the glyph is cut off.
    assert_eq!(refused(&new_strip(&[code::GLYPH])), (7, NEW));
    assert_eq!(refused(&new_strip(&[8])), (3, NEW));
}

#[test]
fn reading_04_operands_are_checked_by_length_then_codes_then_every_float() {
    let stroke = bytes(&[Op::Draw(Draw::Stroke(shape(UNIT), pen(1.0)))]);
    for at in [105, 114, 115] {
        let mut wrong = stroke.clone();
        wrong[at] = 3;
        wrong[9..17].copy_from_slice(&f64::NAN.to_le_bytes());
        assert_eq!(
            refused(&new_strip(&wrong)),
            (3, NEW),
            "a code before a float"
        );
        assert_eq!(
            refused(&new_strip(&wrong[..123])),
            (2, NEW),
            "a length before a code"
        );
    }
    // Floats that are not used are looked at too: the miter limit of a join that
    // is none, and the own box of a run with glyphs.
    let mut limit = stroke;
    limit[106..114].copy_from_slice(&f64::INFINITY.to_le_bytes());
    assert_eq!(refused(&new_strip(&limit)), (4, NEW));
    let mut text = Vec::new();
    write::run(&mut text, &run(vec![]), 1);
    let with = |at: usize, number: &[u8]| {
        let mut bytes = text.clone();
        write::glyph(&mut bytes, &glyph(1, UNIT));
        bytes.push(code::END);
        bytes[at..at + number.len()].copy_from_slice(number);
        refused(&new_strip(&bytes))
    };
    assert_eq!(with(69, &f64::NEG_INFINITY.to_le_bytes()), (4, NEW));
    assert_eq!(with(9, &f32::NAN.to_le_bytes()), (4, NEW), "size");
    assert_eq!(with(108, &f32::INFINITY.to_le_bytes()), (4, NEW + 103), "x");
    assert_eq!(with(112, &f32::INFINITY.to_le_bytes()), (4, NEW + 103), "y");
    assert_eq!(with(103, &[code::GLYPH]), (0, 0));
}

#[test]
fn reading_05_limits_are_counted_per_strip_and_come_before_9() {
    // Pushes count also when popped, and anew for the second strip.
    let pushes = |count: usize| vec![[Op::Clip(UNIT), Op::Pop]; count].concat();
    let both = two_strips(header(8, 8, 4), &pushes(CLIPS), &pushes(CLIPS));
    assert_eq!(refused(&both), (0, 0));
    let past = two_strips(header(8, 8, 4), &[], &pushes(CLIPS + 1));
    assert_eq!(refused(&past), (6, NEW + CLIPS * 34));
    let open = new_strip(&bytes(&vec![Op::Clip(UNIT); 33]));
    assert_eq!(refused(&open), (6, NEW + 32 * 33));
    // The last command would be a 9 too.
    let mut commands = vec![fill(0.0, 0.0, 1.0, 1.0); COMMANDS];
    commands.push(Op::Draw(Draw::Fill(Shape {
        affine: Affine([2.0, 0.0, 0.0, 2.0, 0.0, 0.0]),
        ..shape(Rect::new(0.0, 0.0, f64::MAX, 1.0))
    })));
    let input = two_strips(header(8, 8, 4), &[], &commands);
    assert_eq!(refused(&input), (6, NEW + COMMANDS * 97));
    assert_eq!(
        refused(&two_strips(
            header(8, 8, 4),
            &commands[..COMMANDS],
            &commands[COMMANDS..]
        )),
        (9, 12 + COMMANDS * 97 + 1)
    );
    // The run may announce more glyphs than a frame holds.
    let many = Op::Draw(Draw::Run(run(vec![glyph(1, UNIT); GLYPHS + 1])));
    let input = new_strip(&write::strip(&[many]));
    assert_eq!(refused(&input), (6, NEW + 103 + GLYPHS * 45));
    let most = Op::Draw(Draw::Run(run(vec![glyph(1, UNIT); GLYPHS])));
    let both = two_strips(
        header(8, 8, 4),
        std::slice::from_ref(&most),
        std::slice::from_ref(&most),
    );
    assert_eq!(refused(&both), (0, 0));
}

#[test]
fn reading_06_a_9_is_of_corners_and_a_run_is_tested_by_its_glyphs() {
    let far = Rect::new(0.0, 0.0, f64::MAX, 1.0);
    let twice = Affine([2.0, 0.0, 0.0, 1.0, 0.0, 0.0]);
    // An inflated edge that is not finite, though the corner's factor is 0.
    let flat = Shape {
        affine: Affine([0.0, 0.0, 0.0, 1.0, 0.0, 0.0]),
        ..shape(far)
    };
    let wide = Op::Draw(Draw::Stroke(flat, pen(f64::MAX)));
    assert_eq!(refused(&new_strip(&write::strip(&[wide]))), (9, NEW));
    // The own box counts only without glyphs.
    let text = |glyphs| Run {
        affine: twice,
        bounds: far,
        ..run(glyphs)
    };
    let strip = |run: Run| new_strip(&write::strip(&[Op::Draw(Draw::Run(run))]));
    assert_eq!(refused(&strip(text(vec![]))), (9, NEW));
    assert_eq!(refused(&strip(text(vec![glyph(1, UNIT)]))), (0, 0));
    let second = vec![glyph(1, UNIT), glyph(2, far), glyph(3, UNIT)];
    assert_eq!(refused(&strip(text(second))), (9, NEW + 103 + 45));
    // Each glyph's corners are finite; those of the united box are not.
    let slanted = Run {
        affine: Affine([1.0, 0.0, 1.0, 1.0, 0.0, 0.0]),
        ..run(vec![
            glyph(1, Rect::new(1e308, 0.0, 1e308, 0.0)),
            glyph(2, UNIT),
            glyph(3, Rect::new(0.0, 1e308, 0.0, 1e308)),
        ])
    };
    assert_eq!(refused(&strip(slanted)), (9, NEW + 103 + 2 * 45));
    let mut scene = scene(far);
    scene.affine = twice;
    let strip = write::strip(&[Op::Draw(Draw::Scene(scene))]);
    assert_eq!(refused(&new_strip(&strip)), (9, NEW));
}

#[test]
fn reading_07_a_byte_after_the_last_end_is_an_8_before_space() {
    let none = Space::of_items([0; 6]);
    let mut input = two_strips(header(8, 8, 4), &[fill(0.0, 0.0, 1.0, 1.0)], &[]);
    assert_eq!(number(&answer(Entry::Later, &input, none)), (10, 0));
    let end = input.len();
    input.push(77);
    assert_eq!(number(&answer(Entry::Later, &input, none)), (8, end));
    // The first-frame entry has one END.
    let mut input = header(8, 8, 4).bytes();
    input.extend([code::END, code::END]);
    assert_eq!(number(&first(&input)), (8, 13));
}

#[test]
fn reading_08_space_counts_both_strips_and_rectangles_as_listed() {
    let text = Op::Draw(Draw::Run(run(vec![glyph(1, UNIT), glyph(2, UNIT)])));
    let old = [
        Op::Clip(UNIT),
        text.clone(),
        Op::Pop,
        fill(3.0, 3.0, 3.0, 5.0),
    ];
    let new = [Op::Clip(UNIT), Op::Pop, Op::Clip(UNIT), text];
    let input = two_strips(header(8, 8, 4), &old, &new);
    // The old FILL has no area, and is listed; it rounds to no region.
    let needed = [3, 4, 3, 1, 0, 4];
    assert_eq!(
        later(&input).map(|accepted| accepted.used.items()),
        Ok(needed)
    );
    let lend = |items| number(&answer(Entry::Later, &input, Space::of_items(items)));
    assert_eq!(lend(needed), (0, 0));
    for item in [0, 1, 2, 3, 5] {
        let mut items = needed;
        items[item] -= 1;
        assert_eq!(lend(items), (10, 0), "item {item}");
    }
    // Index words are there though nothing changed and no region is drawn.
    let still = two_strips(
        header(8, 8, 4),
        &[fill(0.0, 0.0, 8.0, 8.0)],
        &[fill(0.0, 0.0, 8.0, 8.0)],
    );
    let plan = later(&still).expect("an accepted frame").plan;
    assert_eq!((plan.dirty.len(), plan.regions.len()), (0, 0));
    assert_eq!(plan.words, [0, 1, 2, 0, 0]);
    // Regions as joined: two boxes, one region a band.
    let side_by_side = [fill(0.0, 0.0, 2.0, 2.0), fill(2.0, 0.0, 4.0, 2.0)];
    let input = two_strips(header(8, 8, 4), &[], &side_by_side);
    assert_eq!(
        later(&input).map(|accepted| accepted.used.items()),
        Ok([2, 0, 0, 2, 1, 5])
    );
}

#[test]
fn reading_09_candidates_look_at_the_rows_two_starts_alone() {
    let header = header(8, 40, 16);
    // Row 1 is whole, whatever the other starts say.
    let words = [9, 0, 2, 1, 5, 6];
    assert_eq!(candidates(header, 16, &words), Ok(&[5, 6][..]));
    assert_eq!(candidates(header, 0, &words).map_err(|r| r.number), Err(11));
    assert_eq!(
        candidates(header, 32, &words).map_err(|r| r.number),
        Err(11)
    );
    // Past the screen, and still in the last band.
    let words = [0, 0, 0, 1, 7];
    assert_eq!(candidates(header, 47, &words), Ok(&[7][..]));
    assert_eq!(
        candidates(header, 48, &words).map_err(|r| r.number),
        Err(11)
    );
}

#[test]
fn reading_10_negative_and_reversed_operands_are_taken_as_given() {
    // A negative width draws the box in; a negative limit counts as 1.
    let stroke = |bounds: Rect, width: f64| {
        let pen = Pen {
            join: Join::Miter,
            miter_limit: -3.0,
            ..pen(width)
        };
        Op::Draw(Draw::Stroke(shape(bounds), pen))
    };
    let ten = Rect::new(10.0, 10.0, 20.0, 20.0);
    assert_eq!(
        dirty(&[], &[stroke(ten, -2.0)]),
        [Rect::new(11.0, 11.0, 19.0, 19.0)]
    );
    // A reversed box is inflated as it stands and righted afterwards.
    let reversed = Rect::new(20.0, 10.0, 10.0, 20.0);
    assert_eq!(
        dirty(&[], &[stroke(reversed, 2.0)]),
        [Rect::new(11.0, 9.0, 19.0, 21.0)]
    );
    // One reversed clip puts an empty box at its low edge.
    let clip = Op::Clip(Rect::new(8.0, 2.0, 3.0, 4.0));
    assert_eq!(
        dirty(&[], &[clip, fill(0.0, 0.0, 10.0, 10.0)]),
        [Rect::new(8.0, 2.0, 8.0, 4.0)]
    );
    // Reversed glyph boxes are united edge by edge, so the run's box does not
    // hold the first glyph's.
    let text = run(vec![
        glyph(1, Rect::new(0.0, 3.0, 1.0, 0.0)),
        glyph(2, UNIT),
    ]);
    assert_eq!(dirty(&[], &[Op::Draw(Draw::Run(text))]), [UNIT]);
    let negative = Run {
        size: -1.0,
        ..run(vec![])
    };
    assert_eq!(dirty(&[], &[Op::Draw(Draw::Run(negative))]), [UNIT]);
}

#[test]
fn reading_11_no_blank_follows_draw_where_nothing_is_drawn() {
    let input = two_strips(header(8, 8, 4), &[fill(0.0, 0.0, 1.0, 1.0)], &[]);
    assert_eq!(regions(&input), [(0, 0, 1, 1)]);
    assert_eq!(
        printed(&input),
        "dirty 1\nregion 0 0 1 1 draw\nregions 1 pixels 1\n"
    );
    assert_eq!(printed(&input[..11]), "refused 2 at 0\n");
    let still = two_strips(header(8, 8, 4), &[], &[]);
    assert_eq!(printed(&still), "dirty 0\nregions 0 pixels 0\n");
}
