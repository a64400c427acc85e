//! Boxes, possibly reversed.

/// A box by its low and high edges. Compared by value, so -0 equals 0.
#[derive(Debug, Clone, Copy, PartialEq)]
pub struct Rect {
    pub x0: f64,
    pub y0: f64,
    pub x1: f64,
    pub y1: f64,
}

impl Rect {
    #[must_use]
    pub const fn new(x0: f64, y0: f64, x1: f64, y1: f64) -> Self {
        Self { x0, y0, x1, y1 }
    }

    #[must_use]
    pub const fn width(&self) -> f64 {
        self.x1 - self.x0
    }

    #[must_use]
    pub const fn height(&self) -> f64 {
        self.y1 - self.y0
    }

    /// The larger low edges; the smaller high edges, raised to the low ones.
    #[must_use]
    pub const fn intersect(&self, other: Self) -> Self {
        let x0 = self.x0.max(other.x0);
        let y0 = self.y0.max(other.y0);
        Self {
            x0,
            y0,
            x1: self.x1.min(other.x1).max(x0),
            y1: self.y1.min(other.y1).max(y0),
        }
    }

    /// The smaller low edges, the larger high edges, as given.
    #[must_use]
    pub const fn union(&self, other: Self) -> Self {
        Self {
            x0: self.x0.min(other.x0),
            y0: self.y0.min(other.y0),
            x1: self.x1.max(other.x1),
            y1: self.y1.max(other.y1),
        }
    }

    /// Low edges minus, high edges plus; a reversed box stays as it is given.
    #[must_use]
    pub const fn inflate(&self, width: f64, height: f64) -> Self {
        Self {
            x0: self.x0 - width,
            y0: self.y0 - height,
            x1: self.x1 + width,
            y1: self.y1 + height,
        }
    }

    /// The edges in the strip's order.
    #[must_use]
    pub const fn edges(&self) -> [f64; 4] {
        [self.x0, self.y0, self.x1, self.y1]
    }
}

#[cfg(test)]
mod tests {
    use super::Rect;

    #[test]
    fn intersect_raises_the_high_edge_to_the_low_one() {
        let left = Rect::new(0.0, 0.0, 2.0, 9.0);
        let right = Rect::new(5.0, 1.0, 8.0, 3.0);
        assert_eq!(left.intersect(right), Rect::new(5.0, 1.0, 5.0, 3.0));
    }

    #[test]
    fn intersect_with_a_reversed_box_has_no_width() {
        let rect = Rect::new(0.0, 0.0, 10.0, 10.0);
        let reversed = Rect::new(8.0, 2.0, 3.0, 4.0);
        assert_eq!(rect.intersect(reversed), Rect::new(8.0, 2.0, 8.0, 4.0));
    }

    #[test]
    fn union_takes_edges_as_given() {
        let a = Rect::new(0.0, 3.0, 1.0, 0.0);
        let b = Rect::new(0.0, 0.0, 1.0, 1.0);
        assert_eq!(a.union(b), Rect::new(0.0, 0.0, 1.0, 1.0));
    }

    #[test]
    fn inflate_works_on_the_box_as_given() {
        let reversed = Rect::new(4.0, 4.0, 1.0, 1.0);
        assert_eq!(reversed.inflate(1.0, 1.0), Rect::new(3.0, 3.0, 2.0, 2.0));
    }

    #[test]
    fn edges_are_compared_by_value() {
        assert_eq!(
            Rect::new(-0.0, 0.0, 1.0, 1.0),
            Rect::new(0.0, -0.0, 1.0, 1.0)
        );
    }
}
