//! The panels: none sees a difference by dew's plans, and each mistake that a
//! panel can see is seen.

#![cfg(dew)]

use oracle::model::mistake::Mistake;
use oracle::panels::painter::Licence;
use oracle::panels::run_lists;
use oracle::panels::subject::{Subject, with_mistake};
use oracle::planners;

/// Lists of frames for dew. The command `oracle panels --seeds 0..100000` runs
/// more.
const LISTS: u64 = 20_000;

/// Lists within which a mistake has to be seen.
const WITHIN: u64 = 2_000;

#[test]
fn the_panels_stay_alike_by_dews_plans() {
    let dew = planners::dew().expect("these tests are compiled with dew");
    let tally = run_lists(0..LISTS, &dew, &Subject::new(&dew)).expect("no fault");
    println!("{tally:?}");
    assert!(tally.frames > 4 * LISTS, "lists have several frames");
    assert!(
        tally.later > 2 * LISTS,
        "most frames are accepted ones to follow"
    );
    assert!(
        tally.frames - tally.accepted > LISTS,
        "many frames are refused"
    );
    assert!(tally.regions > 2 * LISTS, "regions are painted");
}

/// No panel sees these: superfluous candidates and regions paint what is there.
/// Demand 2's equations carry them.
const UNSEEN: [Mistake; 7] = [
    Mistake::GlyphBoxesRighted,
    Mistake::BoxesWithoutAreaDropped,
    Mistake::RunSizesByValue,
    Mistake::WholeScreenEveryTime,
    Mistake::JoinedOnlyOnOverlap,
    Mistake::RowOfTheHighEdge,
    Mistake::AboveTheScreenLeftOut,
];

fn is_seen(mistake: Mistake) {
    let dew = planners::dew().expect("these tests are compiled with dew");
    let found = with_mistake(mistake, |subject| run_lists(0..WITHIN, &dew, subject));
    match found {
        Err((list, (frame, fault))) => println!("list {list}, frame {frame}: {fault:?}"),
        Ok(tally) => panic!("{mistake:?} was not seen in {WITHIN} lists: {tally:?}"),
    }
}

#[test]
fn sees_a_miter_limit_ignored() {
    is_seen(Mistake::MiterLimitIgnored);
}

#[test]
fn sees_a_square_cap_ignored() {
    is_seen(Mistake::SquareCapIgnored);
}

#[test]
fn sees_a_run_taken_by_its_own_box() {
    is_seen(Mistake::RunByItsOwnBox);
}

#[test]
fn sees_a_clip_not_applied() {
    is_seen(Mistake::ClipNotApplied);
}

#[test]
fn sees_the_oldest_clip_forgotten() {
    is_seen(Mistake::OldestClipForgotten);
}

#[test]
fn sees_old_commands_forgotten() {
    is_seen(Mistake::OldCommandsForgotten);
}

#[test]
fn sees_new_commands_forgotten() {
    is_seen(Mistake::NewCommandsForgotten);
}

#[test]
fn sees_old_minus_new_forgotten() {
    is_seen(Mistake::OldMinusNewForgotten);
}

#[test]
fn sees_new_minus_old_forgotten() {
    is_seen(Mistake::NewMinusOldForgotten);
}

#[test]
fn sees_a_bottom_part_forgotten() {
    is_seen(Mistake::BottomPartForgotten);
}

#[test]
fn sees_only_the_new_box() {
    is_seen(Mistake::OnlyTheNewBox);
}

#[test]
fn sees_only_the_old_box() {
    is_seen(Mistake::OnlyTheOldBox);
}

#[test]
fn sees_clips_compared_by_their_intersection() {
    is_seen(Mistake::ClipsByTheirIntersection);
}

#[test]
fn sees_a_generation_ignored() {
    is_seen(Mistake::GenerationIgnored);
}

#[test]
fn sees_a_dash_ignored() {
    is_seen(Mistake::DashIgnored);
}

#[test]
fn sees_paths_compared_by_number_alone() {
    is_seen(Mistake::PathsByNumberAlone);
}

#[test]
fn sees_run_clips_ignored() {
    is_seen(Mistake::RunClipsIgnored);
}

#[test]
fn sees_glyph_x_ignored() {
    is_seen(Mistake::GlyphXIgnored);
}

#[test]
fn sees_only_the_old_glyph() {
    is_seen(Mistake::OnlyTheOldGlyph);
}

#[test]
fn sees_old_glyphs_forgotten() {
    is_seen(Mistake::OldGlyphsForgotten);
}

#[test]
fn sees_new_glyphs_forgotten() {
    is_seen(Mistake::NewGlyphsForgotten);
}

#[test]
fn sees_later_frames_unchanged() {
    is_seen(Mistake::LaterFramesUnchanged);
}

#[test]
fn sees_high_edges_rounded_down() {
    is_seen(Mistake::HighEdgesRoundedDown);
}

#[test]
fn sees_low_edges_rounded_up() {
    is_seen(Mistake::LowEdgesRoundedUp);
}

#[test]
fn sees_rows_rounded_down() {
    is_seen(Mistake::RowsRoundedDown);
}

#[test]
fn sees_bands_not_cut() {
    is_seen(Mistake::BandsNotCut);
}

#[test]
fn sees_bands_one_line_short() {
    is_seen(Mistake::BandsOneLineShort);
}

#[test]
fn sees_joins_only_where_regions_meet_vertically() {
    is_seen(Mistake::JoinedOnlyWhereTheyMeetVertically);
}

#[test]
fn sees_regions_never_joined() {
    is_seen(Mistake::NeverJoined);
}

#[test]
fn sees_a_join_that_keeps_the_height() {
    is_seen(Mistake::JoinKeepsTheHeight);
}

#[test]
fn sees_an_index_one_row_early() {
    is_seen(Mistake::OneRowEarly);
}

#[test]
fn sees_rows_that_descend() {
    is_seen(Mistake::RowsDescend);
}

#[test]
fn sees_candidates_of_the_next_row() {
    is_seen(Mistake::CandidatesOfTheNextRow);
}

#[test]
fn sees_a_plan_against_the_previous_frame() {
    is_seen(Mistake::AgainstThePreviousFrame);
}

#[test]
fn sees_every_strip_refused() {
    is_seen(Mistake::EveryStripRefused);
}

#[test]
fn each_mistake_is_either_seen_or_named_unseen() {
    let tests = include_str!("dew_panels.rs");
    for mistake in Mistake::ALL {
        let seen = tests.contains(&format!("    is_seen(Mistake::{mistake:?});\n"));
        assert_ne!(seen, UNSEEN.contains(mistake), "{mistake:?}");
    }
}

#[test]
fn mistakes_without_a_pixel_are_not_seen() {
    let dew = planners::dew().expect("these tests are compiled with dew");
    for mistake in UNSEEN {
        let found = with_mistake(mistake, |subject| run_lists(0..WITHIN, &dew, subject));
        assert!(found.is_ok(), "{mistake:?}: {found:?}");
    }
}

/// A painter that takes more than the rules give differs by right plans too. It
/// shows that the lists hold what each rule is about.
fn is_caught(licence: Licence) {
    let dew = planners::dew().expect("these tests are compiled with dew");
    let mut subject = Subject::new(&dew);
    subject.licence = Some(licence);
    let found = run_lists(0..LISTS, &dew, &subject);
    let Err((list, (frame, fault))) = found else {
        panic!("{licence:?} was not caught in {LISTS} lists");
    };
    println!("list {list}, frame {frame}: {fault:?}");
}

#[test]
fn a_painter_that_tells_zeros_apart_is_caught() {
    is_caught(Licence::ZerosByBits);
}

#[test]
fn a_painter_of_runs_by_their_glyphs_alone_is_caught() {
    is_caught(Licence::RunsByTheirGlyphsAlone);
}

#[test]
fn a_painter_of_fills_by_their_boxes_is_caught() {
    is_caught(Licence::FillsByTheirBoxes);
}

#[test]
fn a_painter_of_empty_runs_is_caught() {
    is_caught(Licence::EmptyRunsPaint);
}
