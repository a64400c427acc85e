//! `changed_bounds` and `diff_dirty`.

use kurbo::Rect;

use super::commands::{Drawn, glyph_box, has_area};
use super::mistake::Mistake;
use crate::command::{Draw, Glyph, Run, Scene, Shape};

/// The changed rectangles between two frames.
#[must_use]
pub fn dirty(old: &[Drawn], new: &[Drawn], mistake: Option<Mistake>) -> Vec<Rect> {
    let common = old.len().min(new.len());
    let mut dirty: Vec<Rect> = old
        .iter()
        .zip(new)
        .flat_map(|(old, new)| changed(old, new, mistake))
        .collect();
    if mistake != Some(Mistake::OldCommandsForgotten) {
        dirty.extend(old[common..].iter().map(|command| command.own));
    }
    if mistake != Some(Mistake::NewCommandsForgotten) {
        dirty.extend(new[common..].iter().map(|command| command.own));
    }
    dirty
}

/// The changed rectangles between two commands at one place.
fn changed(old: &Drawn, new: &Drawn, mistake: Option<Mistake>) -> Vec<Rect> {
    if equal(old, new, mistake) {
        return Vec::new();
    }
    match (&old.draw, &new.draw) {
        (Draw::Fill(a), Draw::Fill(b)) if fills_alike(a, b, mistake) => {
            let mut parts = Vec::new();
            if mistake != Some(Mistake::OldMinusNewForgotten) {
                parts.extend(difference(old.own, new.own, mistake));
            }
            if mistake != Some(Mistake::NewMinusOldForgotten) {
                parts.extend(difference(new.own, old.own, mistake));
            }
            parts
        }
        (Draw::Run(a), Draw::Run(b)) if runs_alike((a, old), (b, new), mistake) => {
            changed_glyphs((a, old), (b, new), mistake)
        }
        _ if mistake == Some(Mistake::OnlyTheNewBox) => vec![new.own],
        _ if mistake == Some(Mistake::OnlyTheOldBox) => vec![old.own],
        _ => vec![old.own.union(new.own)],
    }
}

/// Equality by value, clips as lists. The intersections follow from the lists.
#[must_use]
pub fn equal(old: &Drawn, new: &Drawn, mistake: Option<Mistake>) -> bool {
    let clips = match mistake {
        Some(Mistake::ClipsByTheirIntersection) => old.clip_box == new.clip_box,
        _ => old.clips == new.clips,
    };
    clips
        && match (&old.draw, &new.draw) {
            (Draw::Scene(a), Draw::Scene(b)) if mistake == Some(Mistake::GenerationIgnored) => {
                *a == Scene {
                    generation: a.generation,
                    ..b.clone()
                }
            }
            (Draw::Stroke(a, p), Draw::Stroke(b, q)) if mistake == Some(Mistake::DashIgnored) => {
                let mut q = q.clone();
                q.dash = p.dash;
                a == b && *p == q
            }
            (a, b) => a == b,
        }
}

fn fills_alike(a: &Shape, b: &Shape, mistake: Option<Mistake>) -> bool {
    let path =
        a.path == b.path && (a.bounds == b.bounds || mistake == Some(Mistake::PathsByNumberAlone));
    path && a.affine == b.affine && a.brush == b.brush
}

/// Sizes by bits, the rest by value.
fn runs_alike(
    (a, old): (&Run, &Drawn),
    (b, new): (&Run, &Drawn),
    mistake: Option<Mistake>,
) -> bool {
    let sizes = match mistake {
        Some(Mistake::RunSizesByValue) => a.size == b.size,
        _ => a.size.to_bits() == b.size.to_bits(),
    };
    let clips = mistake == Some(Mistake::RunClipsIgnored) || old.clips == new.clips;
    a.font == b.font && sizes && a.affine == b.affine && a.brush == b.brush && clips
}

fn changed_glyphs(
    (a, old): (&Run, &Drawn),
    (b, new): (&Run, &Drawn),
    mistake: Option<Mistake>,
) -> Vec<Rect> {
    let common = a.glyphs.len().min(b.glyphs.len());
    let mut dirty = Vec::new();
    for (g, h) in a.glyphs.iter().zip(&b.glyphs) {
        if !glyphs_equal(g, h, mistake) {
            let left = glyph_box(a, old.clip_box, g);
            let joined = left.union(glyph_box(b, new.clip_box, h));
            dirty.push(match mistake {
                Some(Mistake::OnlyTheOldGlyph) => left,
                _ => joined,
            });
        }
    }
    if mistake != Some(Mistake::OldGlyphsForgotten) {
        let rest = a.glyphs[common..].iter();
        dirty.extend(rest.map(|glyph| glyph_box(a, old.clip_box, glyph)));
    }
    if mistake != Some(Mistake::NewGlyphsForgotten) {
        let rest = b.glyphs[common..].iter();
        dirty.extend(rest.map(|glyph| glyph_box(b, new.clip_box, glyph)));
    }
    dirty
}

/// Id, x and y; the box is not looked at.
fn glyphs_equal(a: &Glyph, b: &Glyph, mistake: Option<Mistake>) -> bool {
    a.id == b.id && (a.x == b.x || mistake == Some(Mistake::GlyphXIgnored)) && a.y == b.y
}

/// `rect_difference`: top, bottom, left, right, those of positive area.
fn difference(rect: Rect, subtract: Rect, mistake: Option<Mistake>) -> Vec<Rect> {
    let overlap = rect.intersect(subtract);
    let parts = if has_area(overlap) {
        let mut parts = vec![
            Rect::new(rect.x0, rect.y0, rect.x1, overlap.y0),
            Rect::new(rect.x0, overlap.y1, rect.x1, rect.y1),
            Rect::new(rect.x0, overlap.y0, overlap.x0, overlap.y1),
            Rect::new(overlap.x1, overlap.y0, rect.x1, overlap.y1),
        ];
        if mistake == Some(Mistake::BottomPartForgotten) {
            parts.remove(1);
        }
        parts
    } else {
        vec![rect]
    };
    parts.into_iter().filter(|part| has_area(*part)).collect()
}
