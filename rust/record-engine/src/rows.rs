//! Planning tables: a graph as rows and three bytes for each node. `import` writes the record
//! of a planning table, and `export` fills a planning table from a record.

use crate::code::{counts, length};
use crate::{Refusal, foreign};

/// A row of a planning table: one link. Rows are ordered by parent, then by feature, then by
/// target.
#[repr(C)]
#[derive(Clone, Copy, Debug, Default, PartialEq, Eq, PartialOrd, Ord, Hash)]
pub struct Row {
    /// The number of the node that the link leaves.
    pub parent: u8,
    /// The feature of the link, 0 to 63.
    pub feature: u8,
    /// The number of the node that the link leads to.
    pub target: u8,
}

/// How much of a planning table [`export`] filled.
#[derive(Clone, Copy, Debug, PartialEq, Eq, Hash)]
pub struct Counts {
    /// The number of nodes, 1 to 255. Each node has three bytes.
    pub nodes: usize,
    /// The number of rows, at most [`MOST_LINKS`](crate::MOST_LINKS).
    pub rows: usize,
}

/// Writes the written record of a planning table, and gives its length. The rows may stand in
/// any order. Node 0 is the root, and the other nodes may have any numbers. Two planning tables
/// give equal bytes exactly when they mean the same. Takes 60 KiB of stack.
///
/// ```
/// use record_engine::{Refusal, Row};
/// let diamond = record_engine::table(&[0x01, 0x03, 0x05, 0x0F]).expect("at most 8 types");
/// let row = |parent, feature, target| Row { parent, feature, target };
/// // Feature 0 of the root leads to node 2, and feature 9 of the root leads to node 1. Feature
/// // 0 of node 1 leads to node 2 too. Node 2 has type 1 and the levels 10 to 200. The other
/// // nodes are top.
/// let rows = [row(1, 0, 2), row(0, 9, 1), row(0, 0, 2)];
/// let nodes = [3, 0, 255, 3, 0, 255, 1, 10, 200];
/// let record = [
///     3, 3, 1, 2, 0, 0, 0, 0, 0, 0, 1, 2, 0x80 + 1, 10, 200, 0, 0, 0, 0, 0, 0, 0, 0, //
///     3, 1, 0, 0, 0, 0, 0, 0, 0, 1,
/// ];
/// let mut output = [0; record_engine::LONGEST_RECORD];
/// let length = record_engine::import(4, &diamond, &rows, &nodes, &mut output)?;
/// assert_eq!(output[..length], record);
/// // Two rows are for feature 0 of the root.
/// let twice = [row(0, 0, 1), row(0, 9, 1), row(0, 0, 2)];
/// let refused = record_engine::import(4, &diamond, &twice, &nodes, &mut output);
/// assert_eq!(refused, Err(Refusal::RowTwice));
/// # Ok::<(), Refusal>(())
/// ```
///
/// # Errors
///
/// Refused by [`Refusal::Table`] (1 to 3), by [`GraphFault::Malformed`] (4),
/// [`Refusal::RowOutOfRange`] (14), [`Refusal::RowTwice`] (15), [`GraphFault::OutOfRange`]
/// (5), [`GraphFault::Cyclic`] (6) and [`GraphFault::Unreached`] (7), then by
/// [`Refusal::NoRoom`] (8); the planning table counts as the first record. Each check is made
/// on the whole planning table before the next one.
///
/// [`GraphFault::Malformed`]: crate::GraphFault::Malformed
/// [`GraphFault::OutOfRange`]: crate::GraphFault::OutOfRange
/// [`GraphFault::Cyclic`]: crate::GraphFault::Cyclic
/// [`GraphFault::Unreached`]: crate::GraphFault::Unreached
pub fn import(
    n: usize,
    table: &[u8],
    rows: &[Row],
    nodes: &[u8],
    output: &mut [u8],
) -> Result<usize, Refusal> {
    length(foreign::record_import(n, table, rows, nodes, output))
}

/// Fills a planning table from a record, and gives the counts of nodes and rows. The rows are
/// the links, sorted by parent, then by feature. The three bytes of a node are its type, its
/// lowest level and its highest level; 0 and 255 are the full range. The nodes have the numbers
/// of the written record. The rows and bytes behind those that are filled are unchanged.
/// Importing what was exported gives the written record. Takes 36 KiB of stack.
///
/// ```
/// use record_engine::{Counts, MOST_LINKS, MOST_NODES, Refusal, Row};
/// let diamond = record_engine::table(&[0x01, 0x03, 0x05, 0x0F]).expect("at most 8 types");
/// // Feature 0 of the root leads to node 2 and feature 9 to node 1.
/// let record = [
///     3, 3, 1, 2, 0, 0, 0, 0, 0, 0, 2, 1, 2, 0, 0, 0, 0, 0, 0, 0, 0, //
///     0x80 + 1, 10, 200, 0, 0, 0, 0, 0, 0, 0, 0,
/// ];
/// let (mut rows, mut nodes) = ([Row::default(); MOST_LINKS], [0; 3 * MOST_NODES]);
/// let counts = record_engine::export(4, &diamond, &record, &mut rows, &mut nodes)?;
/// assert_eq!(counts, Counts { nodes: 3, rows: 2 });
/// // The written record numbers the node of the lowest feature first.
/// let row = |parent, feature, target| Row { parent, feature, target };
/// assert_eq!(rows[..2], [row(0, 0, 1), row(0, 9, 2)]);
/// assert_eq!(nodes[..9], [3, 0, 255, 1, 10, 200, 2, 0, 255]);
/// // One row is too few for two links.
/// let refused = record_engine::export(4, &diamond, &record, &mut rows[..1], &mut nodes);
/// assert_eq!(refused, Err(Refusal::NoRoom));
/// # Ok::<(), Refusal>(())
/// ```
///
/// # Errors
///
/// Refused by [`Refusal::Table`] (1 to 3) and [`Refusal::Graph`] (4 to 7), the record counting
/// as the first, then by [`Refusal::NoRoom`] (8) where the rows are fewer than the links or
/// the node bytes fewer than three for each node. A refusal changes no row and no byte.
/// [`MOST_LINKS`](crate::MOST_LINKS) rows and three bytes for each of
/// [`MOST_NODES`](crate::MOST_NODES) nodes are always enough.
pub fn export(
    n: usize,
    table: &[u8],
    record: &[u8],
    rows: &mut [Row],
    nodes: &mut [u8],
) -> Result<Counts, Refusal> {
    counts(foreign::record_export(n, table, record, rows, nodes))
}
