//! What a planner answers for an accepted frame.

use kurbo::Rect;

use crate::command::Op;
use crate::header::Header;

/// A region in whole pixels.
#[derive(Debug, Clone, Copy, PartialEq, Eq)]
pub struct Region {
    pub x: u32,
    pub y: u32,
    pub width: u32,
    pub height: u32,
}

#[derive(Debug, Clone, PartialEq)]
pub struct Plan {
    /// Drawing commands of the new strip.
    pub commands_emitted: u64,
    /// The changed rectangles in dew's order.
    pub dirty: Vec<Rect>,
    pub regions: Vec<Region>,
    pub regions_transferred: u64,
    pub pixels_transferred: u64,
    /// Index words: rows + 1 starts, then the entries.
    pub words: Vec<u32>,
}

/// Plans a frame from what was read: no old strip on a first frame.
pub type Planner<'planner> = &'planner dyn Fn(&Header, Option<&[Op]>, &[Op]) -> Plan;

/// Lays an index out as words.
#[must_use]
pub fn index_words(rows: &[Vec<u32>]) -> Vec<u32> {
    let mut start = 0;
    let mut words = vec![start];
    for row in rows {
        start += u32::try_from(row.len()).expect("a row's entries are numbered in 32 bits");
        words.push(start);
    }
    words.extend(rows.iter().flatten());
    words
}

#[cfg(test)]
mod tests {
    use super::index_words;

    #[test]
    fn starts_come_before_entries() {
        let rows = [vec![0, 2], vec![], vec![1]];
        assert_eq!(index_words(&rows), [0, 2, 2, 3, 0, 2, 1]);
    }
}
