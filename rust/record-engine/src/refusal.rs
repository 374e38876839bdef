//! The refusals: why a call has no result.

use std::error::Error;
use std::fmt;

/// Why a type table is refused.
#[derive(Clone, Copy, Debug, PartialEq, Eq, Hash)]
#[non_exhaustive]
pub enum TableFault {
    /// 1: n is not 2 to 64, or the table's length is not 8 times n.
    Size,
    /// 2: the table has a bit at n or above, is no order, or 0 is not its least type, or
    /// n − 1 is not its greatest type.
    Order,
    /// 3: two types have no meet or no join.
    Bounds,
}

/// Why a record, a planning table or a store is refused.
#[derive(Clone, Copy, Debug, PartialEq, Eq, Hash)]
#[non_exhaustive]
pub enum GraphFault {
    /// 4: a record has no nodes, ends early, has bytes left over, or has more than 2,048
    /// links; a planning table has a number of node bytes that is not divisible by 3, has no
    /// nodes, more than 255 nodes, or more than 2,048 rows; a buffer holds no store, or has
    /// fewer than 2 or more than 16,384 bytes.
    Malformed,
    /// 5: a type is 0 or at least n, a target is no node, or a lowest level is above the
    /// highest; in a planning table a type has bit 7, while a target that is no node gives
    /// 14.
    OutOfRange,
    /// 6: a node reaches itself.
    Cyclic,
    /// 7: the root does not reach a node.
    Unreached,
    /// 18: a record has a link that the list of types for features forbids.
    Inappropriate,
}

/// Which of two records a refusal tells of. If a call takes one record, it counts as the first.
#[derive(Clone, Copy, Debug, PartialEq, Eq, Hash)]
pub enum Side {
    /// The first record.
    First,
    /// The second record.
    Second,
}

/// Why a call has no result. A refusal changes no output.
///
/// A refusal has a number, which is that of documents 01 and 02, and a sentence. The refusals 4
/// to 7 and 18 also tell of which record they are. The calls in C have the same numbers and
/// sentences.
///
/// ```
/// use record_engine::{GraphFault, Refusal, Side, Table};
/// let diamond = Table::from_order(4, &[])?;
/// let lone = |node_type| [1, node_type, 0, 0, 0, 0, 0, 0, 0, 0];
/// // The diamond has no type 4.
/// let refusal = diamond.unify(&lone(1), &lone(4)).unwrap_err();
/// assert_eq!(refusal, Refusal::Graph(GraphFault::OutOfRange, Side::Second));
/// assert_eq!((refusal.number(), refusal.side()), (5, Some(Side::Second)));
/// // The last arm prints the number and the sentence of every other refusal.
/// match diamond.unify(&lone(1), &lone(2)) {
///     Ok(record) => println!("{record:?}"),
///     Err(Refusal::Clash) => println!("nothing is below both"),
///     Err(other) => println!("{other}"),
/// }
/// # Ok::<(), Box<dyn std::error::Error>>(())
/// ```
#[derive(Clone, Copy, Debug, PartialEq, Eq, Hash)]
#[non_exhaustive]
pub enum Refusal {
    /// 1 to 3: the table.
    Table(TableFault),
    /// 4 to 7 and 18: one of the records. For a call on a store, the first record is the store.
    Graph(GraphFault, Side),
    /// 8: the result exists and the output is shorter.
    NoRoom,
    /// 9: combination: a class of shared paths reaches itself.
    Cycle,
    /// 10: combination: a class of shared paths has no type or no level in common, and no
    /// class reaches itself.
    Clash,
    /// 11: the result, or a store's common part at a step of the way, has more than 255 nodes
    /// or 2,048 links.
    TooLarge,
    /// 12: difference: the second record is not below the first.
    NotBelow,
    /// 13: difference: a node of the second record has no wanted type: there is no greatest
    /// type whose meet with the first record's types over the node is the node's own type;
    /// store: a program on the way has no difference from the common part for that reason.
    NoWantedType,
    /// 14: planning table: a row has a feature above 63, or a parent or a target that is no
    /// node.
    RowOutOfRange,
    /// 15: planning table: two rows have one parent and feature.
    RowTwice,
    /// 16: gathering: an order or a finish comes before the first addition.
    NothingGathered,
    /// 17: the list of types for features has not 64 bytes, or has an entry of n or more.
    TypeList,
    /// 19: the reading order is not a list of all 64 features, each once.
    ReadingOrder,
    /// 20: store: the version is above 15, or absent for a read or a drop, or present for a
    /// put.
    WrongVersion,
    /// 21: store: the buffer has fewer bytes than a step of the way takes.
    NoStoreRoom,
    /// 22: difference with reasons: it has more links than bytes are lent for the reasons.
    NoReasonRoom,
    /// 23: listing: the number of features is not 1 or 2.
    FeatureCount,
    /// 24: listing: the record is accepted but not listed.
    NotListed,
}

impl Refusal {
    /// Every refusal.
    pub const ALL: &'static [Refusal] = &[
        Refusal::Table(TableFault::Size),
        Refusal::Table(TableFault::Order),
        Refusal::Table(TableFault::Bounds),
        Refusal::Graph(GraphFault::Malformed, Side::First),
        Refusal::Graph(GraphFault::Malformed, Side::Second),
        Refusal::Graph(GraphFault::OutOfRange, Side::First),
        Refusal::Graph(GraphFault::OutOfRange, Side::Second),
        Refusal::Graph(GraphFault::Cyclic, Side::First),
        Refusal::Graph(GraphFault::Cyclic, Side::Second),
        Refusal::Graph(GraphFault::Unreached, Side::First),
        Refusal::Graph(GraphFault::Unreached, Side::Second),
        Refusal::Graph(GraphFault::Inappropriate, Side::First),
        Refusal::Graph(GraphFault::Inappropriate, Side::Second),
        Refusal::NoRoom,
        Refusal::Cycle,
        Refusal::Clash,
        Refusal::TooLarge,
        Refusal::NotBelow,
        Refusal::NoWantedType,
        Refusal::RowOutOfRange,
        Refusal::RowTwice,
        Refusal::NothingGathered,
        Refusal::TypeList,
        Refusal::ReadingOrder,
        Refusal::WrongVersion,
        Refusal::NoStoreRoom,
        Refusal::NoReasonRoom,
        Refusal::FeatureCount,
        Refusal::NotListed,
    ];

    /// The number of this refusal in documents 01 and 02.
    ///
    /// ```
    /// use record_engine::{Refusal, TableFault};
    /// assert_eq!(Refusal::Table(TableFault::Bounds).number(), 3);
    /// ```
    pub fn number(self) -> u8 {
        match self {
            Refusal::Table(TableFault::Size) => 1,
            Refusal::Table(TableFault::Order) => 2,
            Refusal::Table(TableFault::Bounds) => 3,
            Refusal::Graph(GraphFault::Malformed, _) => 4,
            Refusal::Graph(GraphFault::OutOfRange, _) => 5,
            Refusal::Graph(GraphFault::Cyclic, _) => 6,
            Refusal::Graph(GraphFault::Unreached, _) => 7,
            Refusal::Graph(GraphFault::Inappropriate, _) => 18,
            Refusal::NoRoom => 8,
            Refusal::Cycle => 9,
            Refusal::Clash => 10,
            Refusal::TooLarge => 11,
            Refusal::NotBelow => 12,
            Refusal::NoWantedType => 13,
            Refusal::RowOutOfRange => 14,
            Refusal::RowTwice => 15,
            Refusal::NothingGathered => 16,
            Refusal::TypeList => 17,
            Refusal::ReadingOrder => 19,
            Refusal::WrongVersion => 20,
            Refusal::NoStoreRoom => 21,
            Refusal::NoReasonRoom => 22,
            Refusal::FeatureCount => 23,
            Refusal::NotListed => 24,
        }
    }

    /// The record that the refusal tells of, for 4 to 7 and 18; none for the other refusals.
    ///
    /// ```
    /// use record_engine::{GraphFault, Refusal, Side};
    /// let refusal = Refusal::Graph(GraphFault::Cyclic, Side::Second);
    /// assert_eq!(refusal.side(), Some(Side::Second));
    /// assert_eq!(Refusal::Clash.side(), None);
    /// ```
    pub fn side(self) -> Option<Side> {
        match self {
            Refusal::Graph(_, side) => Some(side),
            _ => None,
        }
    }

    /// The sentence of the refusal. The sentence tells neither the number nor the record. In C,
    /// `record_refusal_text` gives the same sentence.
    ///
    /// ```
    /// use record_engine::Refusal;
    /// let sentence = "a class of shared paths has no type or no level in common";
    /// assert_eq!(Refusal::Clash.text(), sentence);
    /// ```
    pub fn text(self) -> &'static str {
        match self {
            Refusal::Table(TableFault::Size) => "the table's size does not fit its types",
            Refusal::Table(TableFault::Order) => "the table is not an order of its types",
            Refusal::Table(TableFault::Bounds) => "two types have no meet or no join",
            Refusal::Graph(GraphFault::Malformed, _) => "the record is malformed",
            Refusal::Graph(GraphFault::OutOfRange, _) => {
                "a type or a target is out of range, or a lowest level is above the highest"
            }
            Refusal::Graph(GraphFault::Cyclic, _) => "a node reaches itself",
            Refusal::Graph(GraphFault::Unreached, _) => "the root does not reach a node",
            Refusal::Graph(GraphFault::Inappropriate, _) => {
                "a node has a feature that the list does not allow its type"
            }
            Refusal::NoRoom => "the output is shorter than the result",
            Refusal::Cycle => "a class of shared paths reaches itself",
            Refusal::Clash => "a class of shared paths has no type or no level in common",
            Refusal::TooLarge => "the result has more than 255 nodes or 2,048 links",
            Refusal::NotBelow => "the second record is not below the first",
            Refusal::NoWantedType => "a node of the second record has no wanted type",
            Refusal::RowOutOfRange => {
                "a row's feature is above 63 or a node number is out of range"
            }
            Refusal::RowTwice => "two rows have one parent and feature",
            Refusal::NothingGathered => "nothing has been added to the gathering",
            Refusal::TypeList => "the list has not one type for each of the 64 features",
            Refusal::ReadingOrder => "the list has not each of the 64 features once",
            Refusal::WrongVersion => "the version is above 15, or absent, or present already",
            Refusal::NoStoreRoom => "the store has too few bytes",
            Refusal::NoReasonRoom => "fewer bytes are lent for reasons than there are links",
            Refusal::FeatureCount => "the number of features is not 1 or 2",
            Refusal::NotListed => "the record is not one of those listed",
        }
    }
}

/// Prints the number of the refusal, the record that it tells of, if there is one, and the
/// sentence.
///
/// ```
/// use record_engine::{GraphFault, Refusal, Side};
/// let refusal = Refusal::Graph(GraphFault::Cyclic, Side::Second);
/// assert_eq!(refusal.to_string(), "refused 6 second: a node reaches itself");
/// ```
impl fmt::Display for Refusal {
    fn fmt(&self, formatter: &mut fmt::Formatter<'_>) -> fmt::Result {
        let side = match self.side() {
            Some(Side::First) => " first",
            Some(Side::Second) => " second",
            None => "",
        };
        let (number, text) = (self.number(), self.text());
        write!(formatter, "refused {number}{side}: {text}")
    }
}

impl Error for Refusal {}
