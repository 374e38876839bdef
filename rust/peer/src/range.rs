//! Ranges of levels, each from a lowest to a highest level.

#[derive(Clone, Copy, PartialEq, Eq)]
pub struct Range {
    pub lowest: u8,
    pub highest: u8,
}

impl Range {
    pub const FULL: Range = Range {
        lowest: 0,
        highest: 255,
    };

    pub fn is_empty(self) -> bool {
        self.lowest > self.highest
    }

    pub fn is_inside(self, outer: Range) -> bool {
        outer.lowest <= self.lowest && self.highest <= outer.highest
    }

    pub fn hull(self, other: Range) -> Range {
        Range {
            lowest: self.lowest.min(other.lowest),
            highest: self.highest.max(other.highest),
        }
    }

    pub fn overlap(self, other: Range) -> Range {
        Range {
            lowest: self.lowest.max(other.lowest),
            highest: self.highest.min(other.highest),
        }
    }

    /// The widest range whose overlap with q is this one, which lies inside q.
    pub fn wanted(self, q: Range) -> Range {
        let lowest = if self.lowest == q.lowest {
            0
        } else {
            self.lowest
        };
        let highest = if self.highest == q.highest {
            255
        } else {
            self.highest
        };
        Range { lowest, highest }
    }
}
