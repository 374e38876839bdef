//! A label is what a node says: its type and its range of levels (Paper 7). The order, the
//! join, the meet and the wanted label work on type and range separately. A label of type 0
//! or without a level is a contradiction, and so is every label below one.

use crate::table::{CONTRADICTION, Table, Type};

/// A level, 0 to 255.
pub type Level = u8;

/// The levels from the lowest to the highest, both included. If the lowest is above the
/// highest, the range has no level.
#[derive(Clone, Copy, Debug, PartialEq, Eq, PartialOrd, Ord)]
pub struct Range {
    /// The lowest level.
    pub lowest: Level,
    /// The highest level.
    pub highest: Level,
}

impl Range {
    /// All levels, which says nothing.
    pub const FULL: Range = Range {
        lowest: Level::MIN,
        highest: Level::MAX,
    };

    /// Whether no level is in the range.
    pub fn is_empty(self) -> bool {
        self.lowest > self.highest
    }

    /// Whether the range lies inside another. Neither range is empty.
    pub fn is_inside(self, outer: Range) -> bool {
        outer.lowest <= self.lowest && self.highest <= outer.highest
    }

    /// The smallest range that holds both ranges. Neither range is empty.
    pub fn hull(self, other: Range) -> Range {
        Range {
            lowest: self.lowest.min(other.lowest),
            highest: self.highest.max(other.highest),
        }
    }

    /// The levels in both.
    pub fn overlap(self, other: Range) -> Range {
        Range {
            lowest: self.lowest.max(other.lowest),
            highest: self.highest.min(other.highest),
        }
    }

    /// The wanted range: the widest range whose overlap with `over` is `p`. The range `p`
    /// lies inside `over` and is not empty. At an end that `p` and `over` have in common, the
    /// wanted range has the end of the full range. At any other end it has the end of `p`.
    pub fn wanted(over: Range, p: Range) -> Range {
        let lowest = match p.lowest == over.lowest {
            true => Range::FULL.lowest,
            false => p.lowest,
        };
        let highest = match p.highest == over.highest {
            true => Range::FULL.highest,
            false => p.highest,
        };
        Range { lowest, highest }
    }
}

/// A type and a range.
#[derive(Clone, Copy, Debug, PartialEq, Eq, PartialOrd, Ord)]
pub struct Label {
    /// The type.
    pub node_type: Type,
    /// The range.
    pub range: Range,
}

/// A type with the full range.
impl From<Type> for Label {
    fn from(node_type: Type) -> Label {
        Label {
            node_type,
            range: Range::FULL,
        }
    }
}

impl Label {
    /// The greatest label, which says nothing: top with the full range.
    pub fn top(table: &Table) -> Label {
        Label::from(table.top())
    }

    /// Whether the type is 0 or the range empty.
    pub fn is_contradiction(self) -> bool {
        self.node_type == CONTRADICTION || self.range.is_empty()
    }

    /// Whether the type is below or equal and the range lies inside.
    pub fn is_below(self, table: &Table, upper: Label) -> bool {
        table.below(self.node_type, upper.node_type) && self.range.is_inside(upper.range)
    }

    /// The join of the types with the smallest range holding both.
    pub fn join(self, table: &Table, other: Label) -> Label {
        Label {
            node_type: table.join(self.node_type, other.node_type),
            range: self.range.hull(other.range),
        }
    }

    /// The meet of the types with the overlap of the ranges.
    pub fn meet(self, table: &Table, other: Label) -> Label {
        Label {
            node_type: table.meet(self.node_type, other.node_type),
            range: self.range.overlap(other.range),
        }
    }

    /// The meet of any number of labels; the greatest label when there is none.
    pub fn meet_of(table: &Table, labels: impl IntoIterator<Item = Label>) -> Label {
        labels
            .into_iter()
            .fold(Label::top(table), |meet, next| meet.meet(table, next))
    }

    /// The wanted type with the wanted range, for p below `over`; none where p has no
    /// wanted type.
    pub fn wanted(table: &Table, over: Label, p: Label) -> Option<Label> {
        let node_type = table.wanted(over.node_type, p.node_type)?;
        Some(Label {
            node_type,
            range: Range::wanted(over.range, p.range),
        })
    }
}
