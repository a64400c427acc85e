//! Dew divides by the band height in f64; document 01 divides exactly. Both are
//! compared at and beside every band edge of every band height.

#![cfg(dew)]

mod common;

use common::{fill, header, later, two_strips};
use dew::rows::row;
use oracle::header::LARGEST;
use oracle::model::index::exact_row;
use oracle::random::Random;

/// Compares the two rows of a number on the tallest screen, and on a screen
/// that ends in the band before, where the row is cut to the last.
fn compare(y: f64, band_height: u32) -> u64 {
    let rows = LARGEST.div_ceil(band_height);
    for row_count in [rows, (rows - 1).max(1)] {
        assert_eq!(
            row(y, band_height, row_count),
            exact_row(y, band_height, row_count),
            "y has the bits {:016x}, band height {band_height}, {row_count} rows",
            y.to_bits()
        );
    }
    2
}

#[test]
fn dews_row_is_the_exact_one_at_and_beside_every_band_edge() {
    let mut cases = 0;
    for band_height in 1..=LARGEST {
        for band in 0..=LARGEST.div_ceil(band_height) {
            let edge = f64::from(band * band_height);
            for y in [
                edge,
                edge.next_down(),
                edge.next_up(),
                edge.next_down().next_down(),
                edge.next_up().next_up(),
                edge - 0.5,
                edge + 0.5,
                edge - 1.0,
                edge + 1.0,
            ] {
                cases += compare(y, band_height);
            }
        }
    }
    println!("{cases} rows at and beside band edges");
    // Bands 0 to ceil(32768 / B) for every B, nine numbers each, two row counts.
    let edges: u64 = (1..=LARGEST)
        .map(|band_height| u64::from(LARGEST.div_ceil(band_height)) + 1)
        .sum();
    assert_eq!(cases, edges * 18);
    assert_eq!(cases, 7_403_490);
}

#[test]
fn dews_row_is_the_exact_one_at_any_number() {
    let mut random = Random::new("rows", 0);
    for _ in 0..2_000_000 {
        let bits = random.word();
        let any = f64::from_bits(bits);
        let band_height = random.between(1, i64::from(LARGEST)) as u32;
        if any.is_finite() {
            compare(any, band_height);
        }
        let near = random.between(-10, 33_000) as f64 + (bits >> 11) as f64 / (1u64 << 53) as f64;
        compare(near, band_height);
    }
    for y in [
        f64::MAX,
        f64::MIN,
        f64::MIN_POSITIVE,
        -0.0,
        0.0,
        4_294_967_296.0,
    ] {
        compare(y, 1);
        compare(y, LARGEST);
    }
}

#[test]
fn the_index_uses_that_row() {
    // Through dew's index itself, on fewer band heights.
    for band_height in [1, 2, 3, 7, 10, 16, 49, 1_000, 4_099] {
        let height = (4 * band_height).min(LARGEST);
        let mut ops = Vec::new();
        let mut rows = Vec::new();
        for band in 1..4 {
            let edge = f64::from(band * band_height);
            for y1 in [edge.next_down(), edge, edge.next_up()] {
                ops.push(fill(0.0, y1 - 0.5, 1.0, y1));
                let row = |y: f64| exact_row(y, band_height, height.div_ceil(band_height));
                rows.push((row(y1 - 0.5), row(y1.next_down())));
            }
        }
        let input = two_strips(header(4, height, band_height), &[], &ops);
        let words = later(&input).expect("an accepted frame").plan.words;
        let starts = height.div_ceil(band_height) as usize + 1;
        for (number, (first, last)) in rows.into_iter().enumerate() {
            for row in 0..starts - 1 {
                let entries = &words[starts..][words[row] as usize..words[row + 1] as usize];
                let stands = entries.contains(&(number as u32));
                assert_eq!(stands, (first..=last).contains(&(row as u32)));
            }
        }
    }
}
