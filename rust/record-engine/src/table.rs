//! A type table that is accepted when it is made, and the calls over it, which take records and
//! give records.

use crate::options::{Options, written};
use crate::{Gathering, HOUSE_TABLE_LENGTH, Listing, MOST_LINKS, MOST_NODES, Order, Reason};
use crate::{Refusal, Row, TableFault};

/// A table has at most this many types.
const MOST_TYPES: usize = 64;

/// An accepted type table. It is made once: from pairs of types, from bytes, or as the table of
/// the house types. Its methods are the calls over the table. The methods take records and give
/// records, and the caller lends no buffer. [`options`](Table::options) adds a reading order
/// and a list of types for features.
///
/// ```
/// use record_engine::{Order, Table};
/// // The types 1 and 2 lie between 0 and 3, and neither is below the other.
/// let diamond = Table::from_order(4, &[(0, 1), (0, 2), (1, 3), (2, 3)])?;
/// // A root of type 3 whose features 0 and 1 lead to one node, of the type given.
/// let record = |leaf| [2, 3, 3, 0, 0, 0, 0, 0, 0, 0, 1, 1, leaf, 0, 0, 0, 0, 0, 0, 0, 0];
/// let (general, specific) = (record(3), record(1));
/// assert_eq!(diamond.order(&specific, &general)?, Order::Under);
/// let rest = diamond.difference(&general, &specific)?;
/// assert_eq!(diamond.unify(&general, &rest)?, specific);
/// # Ok::<(), record_engine::Refusal>(())
/// ```
#[derive(Clone, Debug, PartialEq, Eq, Hash)]
pub struct Table {
    /// 8 bytes for each type.
    bytes: Vec<u8>,
}

impl Table {
    /// The table with the given bytes. They are a row of 8 bytes for each type, as the
    /// [documentation of this package](crate#type-table) describes.
    ///
    /// ```
    /// use record_engine::{Refusal, Table, TableFault};
    /// let diamond = record_engine::table(&[0x01, 0x03, 0x05, 0x0F]).expect("at most 8 types");
    /// assert_eq!(Table::from_bytes(&diamond)?.n(), 4);
    /// // The last row is cut.
    /// let refused = Table::from_bytes(&diamond[..31]);
    /// assert_eq!(refused, Err(Refusal::Table(TableFault::Size)));
    /// # Ok::<(), Refusal>(())
    /// ```
    ///
    /// # Errors
    ///
    /// Refused by [`Refusal::Table`] (1 to 3).
    pub fn from_bytes(bytes: &[u8]) -> Result<Table, Refusal> {
        crate::check_table(bytes.len() / 8, bytes)?;
        Ok(Table {
            bytes: bytes.to_vec(),
        })
    }

    /// The table of n types in which, for each pair, the first type is below the second. All
    /// that follows from the pairs is added: if a is below b and b is below c, a is below c. Type
    /// 0 is below every type, and every type is below type n − 1.
    ///
    /// ```
    /// use record_engine::{Order, Refusal, Table, TableFault};
    /// // 1 is below 2 and 2 below 3, so that 1 is below 3.
    /// let chain = Table::from_order(5, &[(1, 2), (2, 3)])?;
    /// let lone = |node_type| [1, node_type, 0, 0, 0, 0, 0, 0, 0, 0];
    /// assert_eq!(chain.order(&lone(1), &lone(3))?, Order::Under);
    /// // Without pairs, neither of the types 1 and 2 is below the other: this is the diamond.
    /// let first_bytes = [0x01, 0x03, 0x05, 0x0F];
    /// let diamond = record_engine::table(&first_bytes).expect("at most 8 types");
    /// assert_eq!(Table::from_order(4, &[])?.as_bytes(), diamond);
    /// // 1 and 2 would each be below the other.
    /// let refused = Table::from_order(4, &[(1, 2), (2, 1)]);
    /// assert_eq!(refused, Err(Refusal::Table(TableFault::Order)));
    /// // 1 and 2 are both below 3 and below 4, and neither of these is the least above both.
    /// let refused = Table::from_order(6, &[(1, 3), (1, 4), (2, 3), (2, 4)]);
    /// assert_eq!(refused, Err(Refusal::Table(TableFault::Bounds)));
    /// # Ok::<(), Refusal>(())
    /// ```
    ///
    /// # Errors
    ///
    /// Refused by [`Refusal::Table`] (1 to 3); a pair with a number of n or more is
    /// [`TableFault::Order`].
    pub fn from_order(n: usize, pairs: &[(u8, u8)]) -> Result<Table, Refusal> {
        if !(2..=MOST_TYPES).contains(&n) {
            return Err(Refusal::Table(TableFault::Size));
        }
        // Bit j of row i: type j is below type i or is type i.
        let mut rows: Vec<u64> = (0..n).map(|i| 1 << i | 1).collect();
        rows[n - 1] = u64::MAX >> (MOST_TYPES - n);
        for &(below, above) in pairs {
            if usize::from(below.max(above)) >= n {
                return Err(Refusal::Table(TableFault::Order));
            }
            rows[usize::from(above)] |= 1 << below;
        }
        for middle in 0..n {
            let below_middle = rows[middle];
            for row in &mut rows {
                if *row >> middle & 1 == 1 {
                    *row |= below_middle;
                }
            }
        }
        let bytes: Vec<u8> = rows.into_iter().flat_map(u64::to_le_bytes).collect();
        Table::from_bytes(&bytes)
    }

    /// The table of the house types, as [`house_table`](crate::house_table) gives it.
    ///
    /// ```
    /// use record_engine::Table;
    /// let house = Table::house();
    /// assert_eq!(house.n(), record_engine::HOUSE_TYPES);
    /// // The meet of the grades 1, 2, 3 and the grades 3, 0, 3 is 1, 0, 3.
    /// let lone = |grades: [u8; 3]| {
    ///     let [first, second, third] = grades;
    ///     [1, 16 * first + 4 * second + third, 0, 0, 0, 0, 0, 0, 0, 0]
    /// };
    /// assert_eq!(house.unify(&lone([1, 2, 3]), &lone([3, 0, 3]))?, lone([1, 0, 3]));
    /// # Ok::<(), record_engine::Refusal>(())
    /// ```
    pub fn house() -> Table {
        let mut bytes = vec![0; HOUSE_TABLE_LENGTH];
        crate::house_table(&mut bytes).expect("the output has room");
        Table { bytes }
    }

    /// The number of types, 2 to 64.
    ///
    /// ```
    /// assert_eq!(record_engine::Table::house().n(), 64);
    /// ```
    pub fn n(&self) -> usize {
        self.bytes.len() / 8
    }

    /// The bytes of the table. The functions on lent buffers take them together with
    /// [`n`](Table::n).
    ///
    /// ```
    /// use record_engine::{LONGEST_RECORD, Table};
    /// let diamond = Table::from_order(4, &[])?;
    /// let top = [1, 3, 0, 0, 0, 0, 0, 0, 0, 0];
    /// let mut output = [0; LONGEST_RECORD];
    /// let length = record_engine::rewrite(diamond.n(), diamond.as_bytes(), &top, &mut output)?;
    /// assert_eq!(output[..length], top);
    /// # Ok::<(), record_engine::Refusal>(())
    /// ```
    pub fn as_bytes(&self) -> &[u8] {
        &self.bytes
    }

    /// The calls over the table, to which a reading order or a list of types for features can be
    /// added.
    ///
    /// ```
    /// use record_engine::{FEATURES, Table};
    /// let diamond = Table::from_order(4, &[])?;
    /// let top = [1, 3, 0, 0, 0, 0, 0, 0, 0, 0];
    /// // All types may have all features.
    /// let clinic = diamond.options().appropriateness(&[3; FEATURES])?;
    /// assert_eq!(clinic.rewrite(&top)?, diamond.rewrite(&top)?);
    /// # Ok::<(), record_engine::Refusal>(())
    /// ```
    pub fn options(&self) -> Options<'_> {
        Options::new(self)
    }

    /// The written record of a record. Two records give equal bytes exactly when they mean the
    /// same.
    ///
    /// ```
    /// use record_engine::Table;
    /// let diamond = Table::from_order(4, &[])?;
    /// // Here feature 0 leads to node 2 and feature 1 to node 1. In the written record the two
    /// // nodes have changed their numbers.
    /// let record = |targets: [u8; 2], types: [u8; 2]| {
    ///     let leaf = |node_type| [node_type, 0, 0, 0, 0, 0, 0, 0, 0];
    ///     let root = [3, 3, 3, 0, 0, 0, 0, 0, 0, 0, targets[0], targets[1]];
    ///     [&root[..], &leaf(types[0]), &leaf(types[1])].concat()
    /// };
    /// assert_eq!(diamond.rewrite(&record([2, 1], [1, 2]))?, record([1, 2], [2, 1]));
    /// # Ok::<(), record_engine::Refusal>(())
    /// ```
    ///
    /// # Errors
    ///
    /// Refused by [`Refusal::Graph`] (4 to 7), the record counting as the first.
    pub fn rewrite(&self, record: &[u8]) -> Result<Vec<u8>, Refusal> {
        self.options().rewrite(record)
    }

    /// Which of two records is the broader, seen from the first, as [`order`](crate::order)
    /// tells.
    ///
    /// ```
    /// use record_engine::{Order, Table};
    /// let diamond = Table::from_order(4, &[])?;
    /// let lone = |node_type| [1, node_type, 0, 0, 0, 0, 0, 0, 0, 0];
    /// assert_eq!(diamond.order(&lone(1), &lone(3))?, Order::Under);
    /// assert_eq!(diamond.order(&lone(1), &lone(2))?, Order::Neither);
    /// # Ok::<(), record_engine::Refusal>(())
    /// ```
    ///
    /// # Errors
    ///
    /// Refused by [`Refusal::Graph`] (4 to 7), the first record's before the second's.
    pub fn order(&self, first: &[u8], second: &[u8]) -> Result<Order, Refusal> {
        crate::order(self.n(), &self.bytes, first, second)
    }

    /// The common part of two records, as [`generalize`](crate::generalize) writes it.
    ///
    /// ```
    /// use record_engine::Table;
    /// let diamond = Table::from_order(4, &[])?;
    /// let lone = |node_type| [1, node_type, 0, 0, 0, 0, 0, 0, 0, 0];
    /// assert_eq!(diamond.generalize(&lone(1), &lone(2))?, lone(3));
    /// # Ok::<(), record_engine::Refusal>(())
    /// ```
    ///
    /// # Errors
    ///
    /// Refused by [`Refusal::Graph`] (4 to 7), the first record's before the second's, and
    /// [`Refusal::TooLarge`] (11).
    pub fn generalize(&self, first: &[u8], second: &[u8]) -> Result<Vec<u8>, Refusal> {
        self.options().generalize(first, second)
    }

    /// The common part of any number of records, which is the least graph above all of them. A
    /// [`Gathering`] makes it. If no record is refused, the order of the records does not matter.
    ///
    /// ```
    /// use record_engine::{Refusal, Table};
    /// let diamond = Table::from_order(4, &[])?;
    /// let lone = |node_type| [1, node_type, 0, 0, 0, 0, 0, 0, 0, 0];
    /// let programs = vec![lone(1), lone(1), lone(2)];
    /// assert_eq!(diamond.generalize_all(&programs)?, lone(3));
    /// assert_eq!(diamond.generalize_all(&programs[..1])?, lone(1));
    /// // Without a record there is no common part.
    /// let none = diamond.generalize_all(&programs[..0]);
    /// assert_eq!(none, Err(Refusal::NothingGathered));
    /// # Ok::<(), Refusal>(())
    /// ```
    ///
    /// # Errors
    ///
    /// Refused by [`Refusal::Graph`] (4 to 7), each record counting as the first, and
    /// [`Refusal::TooLarge`] (11), for the first record that is refused; and by
    /// [`Refusal::NothingGathered`] (16) where there is no record.
    pub fn generalize_all<R: AsRef<[u8]>>(
        &self,
        records: impl IntoIterator<Item = R>,
    ) -> Result<Vec<u8>, Refusal> {
        let mut gathering = self.gathering();
        for record in records {
            gathering.add(record.as_ref())?;
        }
        gathering.common_part()
    }

    /// The combination of two records, as [`unify`](crate::unify) writes it.
    ///
    /// ```
    /// use record_engine::{Refusal, Table};
    /// let diamond = Table::from_order(4, &[])?;
    /// let lone = |node_type| [1, node_type, 0, 0, 0, 0, 0, 0, 0, 0];
    /// assert_eq!(diamond.unify(&lone(1), &lone(3))?, lone(1));
    /// assert_eq!(diamond.unify(&lone(1), &lone(2)), Err(Refusal::Clash));
    /// # Ok::<(), Refusal>(())
    /// ```
    ///
    /// # Errors
    ///
    /// Refused by [`Refusal::Graph`] (4 to 7), the first record's before the second's, where
    /// no graph is below both by [`Refusal::Cycle`] (9) or [`Refusal::Clash`] (10), then by
    /// [`Refusal::TooLarge`] (11).
    pub fn unify(&self, first: &[u8], second: &[u8]) -> Result<Vec<u8>, Refusal> {
        self.options().unify(first, second)
    }

    /// The difference of a general record and a specific one below it, as
    /// [`difference`](crate::difference) writes it.
    ///
    /// ```
    /// use record_engine::{Refusal, Table};
    /// let diamond = Table::from_order(4, &[])?;
    /// let lone = |node_type| [1, node_type, 0, 0, 0, 0, 0, 0, 0, 0];
    /// assert_eq!(diamond.difference(&lone(3), &lone(1))?, lone(1));
    /// // The difference of a record and itself says nothing.
    /// assert_eq!(diamond.difference(&lone(1), &lone(1))?, lone(3));
    /// assert_eq!(diamond.difference(&lone(1), &lone(3)), Err(Refusal::NotBelow));
    /// # Ok::<(), Refusal>(())
    /// ```
    ///
    /// # Errors
    ///
    /// Refused by [`Refusal::Graph`] (4 to 7), the general record's before the specific
    /// one's, [`Refusal::NotBelow`] (12) and [`Refusal::NoWantedType`] (13), looked for in
    /// this order.
    pub fn difference(&self, general: &[u8], specific: &[u8]) -> Result<Vec<u8>, Refusal> {
        self.options().difference(general, specific)
    }

    /// The difference, and for each of its links the reason why the link is kept. The reasons
    /// stand in the order of the links in the difference: node by node, and for each node by
    /// feature.
    ///
    /// ```
    /// use record_engine::{Reason, Table};
    /// let diamond = Table::from_order(4, &[])?;
    /// // A root whose feature 0 leads to a node, of the type given.
    /// let record = |leaf| [2, 3, 1, 0, 0, 0, 0, 0, 0, 0, 1, leaf, 0, 0, 0, 0, 0, 0, 0, 0];
    /// let (rest, reasons) = diamond.explained(&record(3), &record(1))?;
    /// assert_eq!(rest, record(1));
    /// assert_eq!(reasons, [Reason::Wanted]);
    /// # Ok::<(), record_engine::Refusal>(())
    /// ```
    ///
    /// # Errors
    ///
    /// Refused as by [`difference`](Table::difference).
    pub fn explained(
        &self,
        general: &[u8],
        specific: &[u8],
    ) -> Result<(Vec<u8>, Vec<Reason>), Refusal> {
        self.options().explained(general, specific)
    }

    /// The record of a planning table, as [`import`](crate::import) writes it.
    ///
    /// ```
    /// use record_engine::{Row, Table};
    /// let diamond = Table::from_order(4, &[])?;
    /// // Feature 0 of the root leads to node 1, which has the levels 10 to 200.
    /// let rows = [Row { parent: 0, feature: 0, target: 1 }];
    /// let nodes = [3, 0, 255, 1, 10, 200];
    /// let record = diamond.import(&rows, &nodes)?;
    /// assert_eq!(diamond.export(&record)?, (rows.to_vec(), nodes.to_vec()));
    /// # Ok::<(), record_engine::Refusal>(())
    /// ```
    ///
    /// # Errors
    ///
    /// Refused as by [`import`](crate::import), except for 1 to 3 and 8.
    pub fn import(&self, rows: &[Row], nodes: &[u8]) -> Result<Vec<u8>, Refusal> {
        written(|output| crate::import(self.n(), &self.bytes, rows, nodes, output))
    }

    /// The planning table of a record, as [`export`](crate::export) fills it: its rows, and
    /// three bytes for each node.
    ///
    /// ```
    /// use record_engine::{Row, Table};
    /// let diamond = Table::from_order(4, &[])?;
    /// // A root of type 3 whose feature 9 leads to a node of type 1.
    /// let record = [2, 3, 0, 2, 0, 0, 0, 0, 0, 0, 1, 1, 0, 0, 0, 0, 0, 0, 0, 0];
    /// let (rows, nodes) = diamond.export(&record)?;
    /// assert_eq!(rows, [Row { parent: 0, feature: 9, target: 1 }]);
    /// assert_eq!(nodes, [3, 0, 255, 1, 0, 255]);
    /// # Ok::<(), record_engine::Refusal>(())
    /// ```
    ///
    /// # Errors
    ///
    /// Refused by [`Refusal::Graph`] (4 to 7), the record counting as the first.
    pub fn export(&self, record: &[u8]) -> Result<(Vec<Row>, Vec<u8>), Refusal> {
        let mut rows = [Row::default(); MOST_LINKS];
        let mut nodes = [0; 3 * MOST_NODES];
        let filled = crate::export(self.n(), &self.bytes, record, &mut rows, &mut nodes)?;
        let nodes = &nodes[..3 * filled.nodes];
        Ok((rows[..filled.rows].to_vec(), nodes.to_vec()))
    }

    /// The listed records over a number of features, 1 or 2, from the first to the last.
    ///
    /// ```
    /// use record_engine::Table;
    /// let diamond = Table::from_order(4, &[])?;
    /// for record in diamond.listing(1)?.take(3) {
    ///     println!("{record:?}");
    /// }
    /// assert_eq!(diamond.listing(2)?.count(), 462);
    /// # Ok::<(), record_engine::Refusal>(())
    /// ```
    ///
    /// # Errors
    ///
    /// Refused by [`Refusal::FeatureCount`] (23).
    pub fn listing(&self, features: usize) -> Result<Listing<'_>, Refusal> {
        Listing::new(self.n(), &self.bytes, features)
    }

    /// A gathering over the table, with nothing added yet.
    ///
    /// ```
    /// use record_engine::{Order, Table};
    /// let mut gathering = Table::from_order(4, &[])?.gathering();
    /// let lone = |node_type| [1, node_type, 0, 0, 0, 0, 0, 0, 0, 0];
    /// gathering.add(&lone(1))?;
    /// assert_eq!(gathering.order(&lone(2))?, Order::Neither);
    /// gathering.add(&lone(2))?;
    /// assert_eq!(gathering.common_part()?, lone(3));
    /// # Ok::<(), record_engine::Refusal>(())
    /// ```
    pub fn gathering(&self) -> Gathering {
        Gathering::begin(self.n(), &self.bytes).expect("the table is accepted")
    }
}
