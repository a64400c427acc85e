//! `BandIndex`, with the row by exact division.

use super::commands::{Drawn, has_area};
use super::mistake::Mistake;
use crate::header::Header;

/// The commands of each band row, ascending.
#[must_use]
pub fn rows(header: &Header, commands: &[Drawn], mistake: Option<Mistake>) -> Vec<Vec<u32>> {
    let mut rows = vec![Vec::new(); header.rows() as usize];
    for (number, command) in commands.iter().enumerate() {
        let own = command.own;
        if !has_area(own) {
            continue;
        }
        if mistake == Some(Mistake::AboveTheScreenLeftOut) && own.y1 <= 0.0 {
            continue;
        }
        let row = |y: f64| exact_row(y, header.band_height, header.rows());
        let first = row(own.y0);
        let last = match mistake {
            Some(Mistake::RowOfTheHighEdge) => row(own.y1),
            Some(Mistake::OneRowEarly) => row(own.y1.next_down()).saturating_sub(1).max(first),
            _ => row(own.y1.next_down()),
        };
        for row in first..=last {
            rows[row as usize].push(number as u32);
        }
    }
    if mistake == Some(Mistake::RowsDescend) {
        rows.iter_mut().for_each(|row| row.reverse());
    }
    rows
}

/// y, or 0 if negative, divided by the band height exactly and rounded down, at
/// most the last row. Whole numbers only: rounding y down first changes nothing,
/// since the band height is whole.
#[must_use]
pub fn exact_row(y: f64, band_height: u32, row_count: u32) -> u32 {
    let last = u64::from(row_count - 1);
    (whole(y) / u64::from(band_height)).min(last) as u32
}

/// y rounded down, taken from its bits: 0 below 1, and 2^53 for all from there
/// on, which is past every screen.
fn whole(y: f64) -> u64 {
    const FRACTION: u64 = (1 << 52) - 1;
    let bits = y.to_bits();
    let exponent = (bits >> 52) & 0x7FF;
    let negative = bits >> 63 == 1;
    match exponent {
        _ if negative => 0,
        0..1023 => 0,
        1023..1076 => ((bits & FRACTION) | (1 << 52)) >> (1075 - exponent),
        _ => 1 << 53,
    }
}

#[cfg(test)]
mod tests {
    use super::whole;

    #[test]
    fn whole_parts_are_taken_from_the_bits() {
        for (y, part) in [
            (0.0, 0),
            (-0.0, 0),
            (-3.5, 0),
            (0.999, 0),
            (1.0, 1),
            (15.999, 15),
            (16.0, 16),
            (32_768.75, 32_768),
            (2_251_799_813_685_249.5, 2_251_799_813_685_249),
            (9_007_199_254_740_991.0, 9_007_199_254_740_991),
            (1e300, 1 << 53),
        ] {
            assert_eq!(whole(y), part, "{y}");
        }
    }
}
