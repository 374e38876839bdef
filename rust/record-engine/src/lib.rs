//! The record engine for Rust programs. It compares and combines records, which are small
//! graphs in bytes, over a table of types.
//!
//! A [`Table`] is accepted when it is made. Its methods are the calls over the table: they
//! take records and give records, an [`Order`], or a [`Refusal`] that tells why there is no
//! result. [`Options`] adds a reading order or a list of types for features. A [`Gathering`]
//! keeps the common part of records that come one after another. A [`Listing`] goes through
//! all small graphs over a table. A [`Store`] keeps the versions of a program in one buffer.
//!
//! ```
//! use record_engine::{Order, Refusal, Table};
//! // Between the types 0 and 3 are 1 and 2, neither below the other.
//! let diamond = Table::from_order(4, &[(0, 1), (0, 2), (1, 3), (2, 3)])?;
//! // Records of a lone node, of the type given.
//! let lone = |node_type| [1, node_type, 0, 0, 0, 0, 0, 0, 0, 0];
//! assert_eq!(diamond.order(&lone(1), &lone(3))?, Order::Under);
//! assert_eq!(diamond.generalize(&lone(1), &lone(2))?, lone(3));
//! assert_eq!(diamond.unify(&lone(1), &lone(2)), Err(Refusal::Clash));
//! # Ok::<(), Refusal>(())
//! ```
//!
//! The functions of this package are the same calls on buffers that the caller lends. A
//! function takes a type table, one or two records, for some calls a list, and an output if
//! the call writes a record. The function gives the length of what it wrote. A refusal
//! changes no byte of an output. Otherwise the first bytes of the output are the record, and
//! its other bytes are unchanged. The calls for C, in `include/record_engine.h`, have the
//! same names behind `record_`. `docs/CALLS.md` describes each call, and `docs/FORMATS.md`
//! each byte.
//!
//! The functions behind these calls are proved (`crates/engine`). This package only passes
//! each call on to the static library `librecord_engine.a`. `rt lib`, run in the repository's
//! folder `crates/record_engine`, writes the library to `out` there. If the library is in
//! another folder, the environment variable `RECORD_ENGINE_LIB_DIR` has the absolute path of
//! that folder.
//!
//! # Type table
//!
//! A type table orders n types, 2 to 64, and has a row of 8 bytes for each type. In row i,
//! bit j % 8 of byte j / 8 is set exactly when type j is below type i or is type i. Bit 0
//! has the value 1, and bits for j from n on are 0. Type 0 is the contradiction: it is below
//! every other type. Type n − 1 is top: it says nothing, and every other type is below it.
//! The rows are an order. Every two types have a meet, which is the greatest type below or
//! equal to both, and a join, which is the least type above or equal to both.
//!
//! [`Table::from_order`] makes a table from pairs of types, and [`Table::house`] makes the
//! table of the house types. [`table`] and [`house_table`] give the bytes of a table. The
//! examples use the diamond, which has n = 4: its types 1 and 2 lie between 0 and 3, and
//! neither is below the other. The first bytes of the diamond's rows are 0x01, 0x03, 0x05 and
//! 0x0F, and the other bytes are 0.
//!
//! # Record
//!
//! A record is a graph in bytes. Byte 0 is the number of nodes, 1 to 255. The nodes follow,
//! from node 0, the root, on. Each node has these parts:
//!
//! - 1 byte: the node's type, 1 to n − 1, in bits 0 to 6; bit 7 is set when a range follows;
//! - 2 bytes, only where bit 7 is set: the range, which is the lowest level and the highest
//!   level, 0 to 255 each, the lowest not above the highest;
//! - 8 bytes: the node's features, 0 to 63; bit f % 8 of byte f / 8 is set when the node has
//!   feature f;
//! - 1 byte for each feature of the node, lowest feature first: the target, which is the
//!   number of the node that the feature's link leads to.
//!
//! Nothing follows the last node. A node without bit 7 has the full range, 0 to 255, which
//! says nothing. There are at most 2,048 links, and links may share a target. No node reaches
//! itself, and the root reaches every node.
//!
//! A record that is read may number the nodes but the root in any way, and may spell out a
//! full range. Every record that a call writes is a written record, which has one form for
//! one meaning. A written record numbers its nodes in the order in which they are first met
//! from the root. Links are followed lowest feature first, and all that lies below one link
//! is numbered before the next link of the same node is followed. A written record spells out
//! no full range.
//!
//! ```
//! let diamond = record_engine::Table::from_order(4, &[(1, 3), (2, 3)])?;
//! // A root of type 3, top, whose feature 0 leads to a node of type 1.
//! let record = [2, 3, 1, 0, 0, 0, 0, 0, 0, 0, 1, 1, 0, 0, 0, 0, 0, 0, 0, 0];
//! assert_eq!(diamond.rewrite(&record)?, record);
//! # Ok::<(), record_engine::Refusal>(())
//! ```
//!
//! The next record has the levels 10 to 200 at the root, and spells out the full range of the
//! other node:
//!
//! ```
//! let diamond = record_engine::Table::from_order(4, &[(1, 3), (2, 3)])?;
//! let given = [
//!     2, 0x80 + 3, 10, 200, 1, 0, 0, 0, 0, 0, 0, 0, 1, 0x80 + 1, 0, 255, 0, 0, 0, 0, 0, 0, 0, 0,
//! ];
//! let written = [2, 0x80 + 3, 10, 200, 1, 0, 0, 0, 0, 0, 0, 0, 1, 1, 0, 0, 0, 0, 0, 0, 0, 0];
//! assert_eq!(diamond.rewrite(&given)?, written);
//! # Ok::<(), record_engine::Refusal>(())
//! ```
//!
//! # List of types for features
//!
//! A list of types for features says in 64 bytes which nodes may have which features. Byte f
//! is the broadest type, 0 to n − 1, that may have feature f: a node may have the feature
//! when its type is below or equal to byte f. So 0 forbids the feature, and n − 1
//! allows it to all nodes. Another name of the list is appropriateness list: hence the names
//! [`Options::appropriateness`], [`rewrite_appropriate`], [`generalize_appropriate`] and
//! [`unify_appropriate`]. These calls refuse a record with a link that the list forbids, by
//! [`GraphFault::Inappropriate`] (18), and a list of another form, by [`Refusal::TypeList`]
//! (17). Otherwise they reply as [`rewrite`], [`generalize`] and [`unify`] do.
//!
//! The common part and the combination of records that obey a list obey the list too. A
//! difference need not obey the list: combine a difference with [`unify`]. The result is the
//! specific record, so it obeys the list if the specific record does.
//!
//! # Reading order
//!
//! A reading order is a list of all 64 features, each once, in 64 bytes. The feature that is
//! read first stands first. [`Options::reading_order`], [`difference_by`] and
//! [`difference_explained_by`] take one, and refuse any other list by
//! [`Refusal::ReadingOrder`] (19).
//!
//! Where several links say the same, a difference keeps the least of them. Without a reading
//! order, links are ordered by the number of the node that they leave, as in the written
//! specific record, then by feature. With a reading order, links are ordered by the place of
//! their feature in it, then by the number of the node that they leave. Whichever reading
//! order is given, the difference restores the specific record, and no graph strictly above
//! the difference does. The numbers of nodes in written records do not follow the reading
//! order.
//!
//! # Planning table
//!
//! A planning table is a graph as the planning tool holds it, in rows and node bytes. A
//! [`Row`] is one link: its parent, which is the number of the node that the link leaves, its
//! feature, and its target, which is the number of the node that the link leads to. No two
//! rows have one parent and feature, and there are at most 2,048 rows. The node bytes are
//! three for each node, from node 0, the root, on: the node's type, 1 to n − 1, its lowest
//! level and its highest level. The levels 0 and 255 are the full range. The number of nodes,
//! 1 to 255, is the number of node bytes divided by 3. As in a record, no node reaches
//! itself, and the root reaches every node.
//!
//! [`import`] writes the written record of a planning table. The rows may stand in any order.
//! [`export`] fills a planning table from a record: the nodes are numbered as in the written
//! record, and the rows are sorted by parent, then by feature. Importing what was exported
//! gives the written record. Exporting what was imported gives the rows sorted, with the
//! numbers of the written record.
//!
//! # Gathering
//!
//! A [`Gathering`] over one table keeps the common part of the records that are added one
//! after another. A refused addition changes nothing. An order compares a record
//! with the common part so far. A finish writes the common part and leaves the gathering
//! open. An order or a finish before the first addition is refused by
//! [`Refusal::NothingGathered`] (16). The calls [`gathering_begin`], [`gathering_add`],
//! [`gathering_order`] and [`gathering_finish`] do the same in a buffer that the caller lends.
//!
//! # Store
//!
//! A [`Store`] keeps up to 16 versions of a program over one type table. A program is a
//! record, and a version is its number, 0 to 15. The store holds the common part of all
//! programs once, and for each program its difference from the common part. The store has 2
//! to [`STORE_LENGTH`] bytes:
//!
//! - 2 bytes: the map, low byte first; bit v is set when version v exists, v being 0 to 15;
//! - where some version exists, the length of the common part, 2 bytes, low byte first, and
//!   the common part as a written record;
//! - for each version that exists, lowest first: the length of its difference from the
//!   common part, 2 bytes, low byte first, and the difference as a written record.
//!
//! The bytes behind these used bytes may hold anything. An empty store is two zero bytes.
//! [`Store::put`] stores a record under a version that is absent, [`Store::read`] gives the
//! written record of what was put, and [`Store::drop`] removes a version. Two versions read
//! as equal bytes exactly when the records that were put mean the same: no program opens as
//! another.
//!
//! The way of some programs begins with an empty store and puts the programs in the order of
//! their versions. Each step of the way stores the common part of the programs so far, and
//! the difference of each of them from that common part. A step is refused by 11 where the
//! common part has more than 255 nodes or 2,048 links, then by 13 where a program has no
//! difference from it, then by 21 where the buffer has fewer bytes than the step takes. A
//! buffer holds a store exactly when there are programs whose way, in a buffer of this
//! length, ends in the buffer's first bytes. Every call goes this way to find the programs,
//! and refuses a buffer that holds no store by 4 of the first graph. A buffer of fewer than 2
//! bytes or more than [`STORE_LENGTH`] bytes holds no store. A put or a drop then goes the way
//! of the programs that are to be in the store after it, and is refused by the first number
//! that this way meets. All this holds while nobody else writes the bytes: changed bytes may
//! hold other programs or other versions.
//!
//! # Stack
//!
//! The documentation of a call tells the stack that the call takes, as measured on the largest
//! records, with 4 KiB to spare and rounded up. A thread that makes calls needs [`STACK`]
//! bytes of stack. Nothing tests for room: a call on a smaller stack may overrun it. The
//! methods of [`Table`], [`Options`], [`Gathering`] and [`Store`] take up to 8 KiB more than
//! the calls behind them. By default a thread of the standard library has 2 MiB of stack.

#![deny(unsafe_code)]
#![warn(missing_docs)]

mod appropriate;
mod calls;
mod code;
mod differences;
#[allow(unsafe_code)]
mod foreign;
mod gathering;
#[cfg(test)]
mod header;
mod listing;
#[cfg(archive_missing)]
mod missing;
mod options;
mod reason;
mod refusal;
mod rows;
mod store;
mod table;
mod tables;

pub use appropriate::{generalize_appropriate, rewrite_appropriate, unify_appropriate};
pub use calls::{difference, generalize, order, rewrite, unify};
pub use differences::{difference_by, difference_explained, difference_explained_by};
pub use gathering::{GATHERING_LENGTH, Gathering};
pub use gathering::{gathering_add, gathering_begin, gathering_finish, gathering_order};
pub use listing::{LONGEST_LISTED, Listing, next};
pub use options::Options;
pub use reason::{NoReason, Reason};
pub use refusal::{GraphFault, Refusal, Side, TableFault};
pub use rows::{Counts, Row, export, import};
pub use store::{STORE_LENGTH, Store, VERSIONS, store_drop, store_put, store_read};
pub use table::Table;
pub use tables::{HOUSE_TABLE_LENGTH, HOUSE_TYPES, check_table, house_table, table};

/// The version of this package and of its library as a text. [`VERSION`] is its number.
///
/// ```
/// println!("record_engine {}", record_engine::VERSION_TEXT);
/// assert!(record_engine::VERSION >= 1_000, "0.1.0 or later");
/// ```
pub const VERSION_TEXT: &str = env!("CARGO_PKG_VERSION");

/// The version as a number: version a.b.c has the number 1,000,000 × a + 1,000 × b + c.
pub const VERSION: u64 = 1_000;

/// A stack of this many bytes has room for every call.
///
/// ```
/// use std::thread;
/// let small = thread::Builder::new().stack_size(record_engine::STACK);
/// let calls = small.spawn(|| {
///     let mut table = [0; record_engine::HOUSE_TABLE_LENGTH];
///     record_engine::house_table(&mut table)
/// })?;
/// assert_eq!(calls.join().expect("no panic"), Ok(record_engine::HOUSE_TABLE_LENGTH));
/// # Ok::<(), std::io::Error>(())
/// ```
pub const STACK: usize = 393_216;

/// The length of the longest record. An output of this many bytes always has room for a
/// record.
pub const LONGEST_RECORD: usize = 4854;

/// The most links that a record has. This many bytes are always enough for the reasons of
/// [`difference_explained`], and this many rows for [`export`].
pub const MOST_LINKS: usize = 2048;

/// The most nodes that a record has. Three times this many bytes are always enough for the
/// node bytes of [`export`].
pub const MOST_NODES: usize = 255;

/// The number of features, which is also the length of a list of types for features and of a
/// reading order.
pub const FEATURES: usize = 64;

/// Which of two records is the broader, seen from the first.
#[derive(Clone, Copy, Debug, PartialEq, Eq, Hash)]
pub enum Order {
    /// Each is below the other: they mean the same.
    Same,
    /// The first is below the second, and the second is not below the first.
    Under,
    /// The second is below the first, and the first is not below the second.
    Above,
    /// Neither is below the other.
    Neither,
}
