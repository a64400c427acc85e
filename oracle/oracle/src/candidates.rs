//! `candidates`: a region's row of the index words.

use crate::header::Header;
use crate::refusal::{ROW, Refusal};

/// The entries of the row in which `y` lies.
pub fn candidates(header: Header, y: u32, words: &[u32]) -> Result<&[u32], Refusal> {
    let header = header.checked()?;
    let refused = Refusal::new(ROW, 0);
    let row = y / header.band_height;
    if row >= header.rows() {
        return Err(refused);
    }
    let starts = header.rows() as usize + 1;
    let entries = words.get(starts..).ok_or(refused)?;
    let row = row as usize;
    entries
        .get(words[row] as usize..words[row + 1] as usize)
        .ok_or(refused)
}

#[cfg(test)]
mod tests {
    use super::{Header, Refusal, candidates};

    const HEADER: Header = Header {
        width: 8,
        height: 40,
        band_height: 16,
    };

    fn number(header: Header, y: u32, words: &[u32]) -> u8 {
        candidates(header, y, words).map_or_else(|refusal| refusal.number, |_| 0)
    }

    #[test]
    fn the_row_of_a_region_is_handed_back() {
        let words = [0, 2, 3, 3, 0, 1, 0];
        assert_eq!(candidates(HEADER, 14, &words), Ok(&[0, 1][..]));
        assert_eq!(candidates(HEADER, 16, &words), Ok(&[0][..]));
        assert_eq!(candidates(HEADER, 39, &words), Ok(&[][..]));
    }

    #[test]
    fn a_size_comes_before_a_row() {
        let wrong = Header {
            band_height: 0,
            ..HEADER
        };
        assert_eq!(candidates(wrong, 99, &[]), Err(Refusal::new(1, 0)));
        let wide = Header {
            width: 32_769,
            ..HEADER
        };
        assert_eq!(candidates(wide, 99, &[]), Err(Refusal::new(1, 0)));
    }

    #[test]
    fn missing_starts_are_refused() {
        assert_eq!(number(HEADER, 0, &[0, 0, 0]), 11);
        assert_eq!(number(HEADER, 0, &[0, 0, 0, 0]), 0);
        assert_eq!(number(HEADER, 0, &[]), 11);
    }

    #[test]
    fn starts_that_fall_or_pass_the_entries_are_refused() {
        assert_eq!(number(HEADER, 0, &[1, 0, 0, 0, 7]), 11);
        assert_eq!(number(HEADER, 0, &[0, 2, 0, 0, 7]), 11);
        assert_eq!(number(HEADER, 0, &[0, 1, 0, 0, 7]), 0);
        assert_eq!(number(HEADER, 0, &[2, 2, 0, 0, 7]), 11);
    }
}
