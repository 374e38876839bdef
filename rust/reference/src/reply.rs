//! What a call gives back: a length, one of the order's four answers, the end of a listing,
//! the counts of nodes and rows, or a refusal with its number in the papers. A refusal of a
//! graph tells what is wrong and with which graph.

use crate::order::Order;
use crate::record::GraphFault;
use crate::table::TableFault;

/// Which of the two graphs of a call; a lone graph counts as the first.
#[derive(Clone, Copy, Debug, PartialEq, Eq)]
pub enum Side {
    /// The first graph.
    First,
    /// The second graph.
    Second,
}

/// Why a call has no result.
#[derive(Clone, Copy, Debug, PartialEq, Eq)]
pub enum Refusal {
    /// 1 to 3: the table.
    Table(TableFault),
    /// 4 to 7 and 18: one of the graphs.
    Graph(GraphFault, Side),
    /// 8: the result exists and the output is shorter.
    NoRoom,
    /// 9: combination, a class reaches itself.
    Cycle,
    /// 10: combination, a class has type 0 for its meet or an empty overlap, and no class
    /// reaches itself.
    Clash,
    /// 11: the result has over 255 nodes or 2,048 links.
    TooLarge,
    /// 12: difference, s is not below g.
    NotBelow,
    /// 13: difference, some node of s has no wanted type.
    NoWantedType,
    /// 14: "a row with a feature above 63 or a node number outside the count".
    RowOutOfRange,
    /// 15: "two rows with one parent and feature".
    RowTwice,
    /// 16: an order or a finish "before the first addition".
    NothingGathered,
    /// 17: the list of types for features has not 64 bytes, or has an entry of n or more.
    TypeList,
    /// 19: difference, the list is not one "of all 64 features, each once".
    ReadingOrder,
    /// 20: "a version above 15, or absent for read and drop, or present for put".
    WrongVersion,
    /// 21: "too few bytes for its state".
    NoStoreRoom,
    /// 22: difference, "too few bytes lent for the reasons".
    NoReasonRoom,
    /// 23: "F outside 1 and 2".
    FeatureCount,
    /// 24: "a record that is read but not listed".
    NotListed,
}

impl Refusal {
    /// The number of this refusal in the papers.
    pub fn number(self) -> u8 {
        match self {
            Refusal::Table(fault) => fault.number(),
            Refusal::Graph(fault, _) => fault.number(),
            Refusal::NoRoom => 8,
            Refusal::Cycle => 9,
            Refusal::Clash => 10,
            Refusal::TooLarge => 11,
            Refusal::NotBelow => 12,
            Refusal::NoWantedType => 13,
            Refusal::RowOutOfRange => 14,
            Refusal::RowTwice => 15,
            Refusal::NothingGathered => 16,
            Refusal::TypeList => 17,
            Refusal::ReadingOrder => 19,
            Refusal::WrongVersion => 20,
            Refusal::NoStoreRoom => 21,
            Refusal::NoReasonRoom => 22,
            Refusal::FeatureCount => 23,
            Refusal::NotListed => 24,
        }
    }

    /// The graph that is refused, for 4 to 7 and 18.
    pub fn side(self) -> Option<Side> {
        match self {
            Refusal::Graph(_, side) => Some(side),
            _ => None,
        }
    }
}

/// The reply of a call.
#[derive(Clone, Copy, Debug, PartialEq, Eq)]
pub enum Reply {
    /// The length of the record, which stands in the first bytes of the output.
    Length(usize),
    /// Which graph is the broader, seen from the first.
    Order(Order),
    /// No listed record follows, and the output is unchanged.
    End,
    /// The graph stands in the first rows and the first node bytes.
    Counts {
        /// How many nodes it has.
        nodes: usize,
        /// How many rows.
        rows: usize,
    },
    /// There is no result, and every output is unchanged.
    Refused(Refusal),
}

impl Reply {
    /// The number of the refusal in the papers; none for any other reply.
    pub fn number(self) -> Option<u8> {
        match self {
            Reply::Refused(refusal) => Some(refusal.number()),
            _ => None,
        }
    }
}
