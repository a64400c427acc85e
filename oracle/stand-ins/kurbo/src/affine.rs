//! Affine maps.

use crate::Rect;

/// Six coefficients a, b, c, d, e, f.
#[derive(Debug, Clone, Copy, PartialEq)]
pub struct Affine(pub [f64; 6]);

impl Affine {
    pub const IDENTITY: Self = Self([1.0, 0.0, 0.0, 1.0, 0.0, 0.0]);

    /// (a times x + c times y + e, b times x + d times y + f), each operation
    /// rounded once, left to right.
    #[must_use]
    pub const fn point(&self, x: f64, y: f64) -> (f64, f64) {
        let [a, b, c, d, e, f] = self.0;
        (a * x + c * y + e, b * x + d * y + f)
    }

    /// The images of a box's four corners.
    #[must_use]
    pub const fn corners(&self, rect: Rect) -> [(f64, f64); 4] {
        [
            self.point(rect.x0, rect.y0),
            self.point(rect.x0, rect.y1),
            self.point(rect.x1, rect.y0),
            self.point(rect.x1, rect.y1),
        ]
    }

    /// The least box over the images of the four corners.
    #[must_use]
    pub fn transform_rect_bbox(self, rect: Rect) -> Rect {
        self.corners(rect)
            .into_iter()
            .map(|(x, y)| Rect::new(x, y, x, y))
            .reduce(|least, corner| least.union(corner))
            .expect("a box has four corners")
    }
}

#[cfg(test)]
mod tests {
    use super::{Affine, Rect};

    #[test]
    fn a_reversed_box_is_righted() {
        let reversed = Rect::new(4.0, 6.0, 1.0, 2.0);
        assert_eq!(
            Affine::IDENTITY.transform_rect_bbox(reversed),
            Rect::new(1.0, 2.0, 4.0, 6.0)
        );
    }

    #[test]
    fn a_quarter_turn_swaps_the_sides() {
        let turn = Affine([0.0, 1.0, -1.0, 0.0, 10.0, 0.0]);
        assert_eq!(
            turn.transform_rect_bbox(Rect::new(1.0, 2.0, 4.0, 8.0)),
            Rect::new(2.0, 1.0, 8.0, 4.0)
        );
    }

    #[test]
    fn sums_are_rounded_left_to_right() {
        // (2^53 + 1) rounds back to 2^53 before -2^53 is added; the other way
        // round the 1 would survive.
        let two53 = 9_007_199_254_740_992.0;
        let affine = Affine([two53, 0.0, 1.0, 0.0, -two53, 0.0]);
        assert_eq!(affine.point(1.0, 1.0), (0.0, 0.0));
    }

    #[test]
    fn products_are_not_fused_into_the_sum() {
        // (1 + 2^-30)^2 = 1 + 2^-29 + 2^-60; the last part is lost when the
        // product is rounded on its own.
        let x = 1.0 + 2.0_f64.powi(-30);
        let affine = Affine([x, 0.0, 0.0, 0.0, -1.0, 0.0]);
        assert_eq!(affine.point(x, 0.0).0, 2.0_f64.powi(-29));
    }
}
