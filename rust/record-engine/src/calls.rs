//! The calls on one or two records: rewriting, order, common part, combination, difference.

use crate::code::{length, order_of};
use crate::{Order, Refusal, foreign};

/// Writes the written record of a record. Two records give equal bytes exactly when they mean
/// the same. Takes 28 KiB of stack.
///
/// ```
/// let diamond = record_engine::table(&[0x01, 0x03, 0x05, 0x0F]).expect("at most 8 types");
/// // A lone node of type 3, top.
/// let record = [1, 3, 0, 0, 0, 0, 0, 0, 0, 0];
/// let mut output = [0; record_engine::LONGEST_RECORD];
/// let length = record_engine::rewrite(4, &diamond, &record, &mut output)?;
/// assert_eq!(output[..length], record);
/// # Ok::<(), record_engine::Refusal>(())
/// ```
///
/// # Errors
///
/// Refused by [`Refusal::Table`] (1 to 3), [`Refusal::Graph`] (4 to 7), the record counting
/// as the first, and [`Refusal::NoRoom`] (8), looked for in this order.
pub fn rewrite(n: usize, table: &[u8], record: &[u8], output: &mut [u8]) -> Result<usize, Refusal> {
    length(foreign::record_rewrite(n, table, record, output))
}

/// Tells which of two records is the broader, seen from the first. A path is a list of
/// features, followed from the root. Two paths share when they lead to one node. A record s is
/// below a record g when every path of g is a path of s, its type in s is below or equal to its
/// type in g, its range in s lies inside its range in g, and paths that share in g share in s.
/// Takes 20 KiB of stack.
///
/// ```
/// use record_engine::Order;
/// let diamond = record_engine::table(&[0x01, 0x03, 0x05, 0x0F]).expect("at most 8 types");
/// let a = [1, 1, 0, 0, 0, 0, 0, 0, 0, 0];
/// let top = [1, 3, 0, 0, 0, 0, 0, 0, 0, 0];
/// let b = [1, 2, 0, 0, 0, 0, 0, 0, 0, 0];
/// assert_eq!(record_engine::order(4, &diamond, &a, &a)?, Order::Same);
/// assert_eq!(record_engine::order(4, &diamond, &a, &top)?, Order::Under);
/// assert_eq!(record_engine::order(4, &diamond, &top, &a)?, Order::Above);
/// assert_eq!(record_engine::order(4, &diamond, &a, &b)?, Order::Neither);
/// # Ok::<(), record_engine::Refusal>(())
/// ```
///
/// # Errors
///
/// Refused by [`Refusal::Table`] (1 to 3) and [`Refusal::Graph`] (4 to 7), the first record's
/// before the second's.
pub fn order(n: usize, table: &[u8], first: &[u8], second: &[u8]) -> Result<Order, Refusal> {
    order_of(foreign::record_order(n, table, first, second))
}

/// Writes the common part of two records, their generalization. The common part is the least
/// graph above both. It has the paths that both records have. A path has the join of its two
/// types and the smallest range that holds both its ranges. Two paths share in the common part
/// exactly when they share in both records. Takes 108 KiB of stack.
///
/// ```
/// let diamond = record_engine::table(&[0x01, 0x03, 0x05, 0x0F]).expect("at most 8 types");
/// let a = [1, 1, 0, 0, 0, 0, 0, 0, 0, 0];
/// let b = [1, 2, 0, 0, 0, 0, 0, 0, 0, 0];
/// let mut output = [0; record_engine::LONGEST_RECORD];
/// let length = record_engine::generalize(4, &diamond, &a, &b, &mut output)?;
/// assert_eq!(output[..length], [1, 3, 0, 0, 0, 0, 0, 0, 0, 0]);
/// # Ok::<(), record_engine::Refusal>(())
/// ```
///
/// # Errors
///
/// Refused by [`Refusal::Table`] (1 to 3), [`Refusal::Graph`] (4 to 7), the first record's
/// before the second's, [`Refusal::TooLarge`] (11) and [`Refusal::NoRoom`] (8), looked for in
/// this order.
pub fn generalize(
    n: usize,
    table: &[u8],
    first: &[u8],
    second: &[u8],
    output: &mut [u8],
) -> Result<usize, Refusal> {
    length(foreign::record_generalize(n, table, first, second, output))
}

/// Writes the combination of two records, their unification. The combination is the greatest
/// graph below both. Paths that share in one of the records share in the combination, and so do
/// their continuations by equal features. The paths that share form a class. A class has the
/// meet of all its types and the overlap of all its ranges. Takes 136 KiB of stack.
///
/// ```
/// use record_engine::Refusal;
/// let diamond = record_engine::table(&[0x01, 0x03, 0x05, 0x0F]).expect("at most 8 types");
/// let a = [1, 1, 0, 0, 0, 0, 0, 0, 0, 0];
/// let b = [1, 2, 0, 0, 0, 0, 0, 0, 0, 0];
/// let top = [1, 3, 0, 0, 0, 0, 0, 0, 0, 0];
/// let mut output = [0; record_engine::LONGEST_RECORD];
/// let length = record_engine::unify(4, &diamond, &a, &top, &mut output)?;
/// assert_eq!(output[..length], a);
/// // No type but the contradiction is below both.
/// let clash = record_engine::unify(4, &diamond, &a, &b, &mut output);
/// assert_eq!(clash, Err(Refusal::Clash));
/// # Ok::<(), record_engine::Refusal>(())
/// ```
///
/// The first two ranges overlap, and the last two do not:
///
/// ```
/// use record_engine::Refusal;
/// let diamond = record_engine::table(&[0x01, 0x03, 0x05, 0x0F]).expect("at most 8 types");
/// let lone = |lowest, highest| [1, 0x80 + 1, lowest, highest, 0, 0, 0, 0, 0, 0, 0, 0];
/// let mut output = [0; record_engine::LONGEST_RECORD];
/// let length = record_engine::unify(4, &diamond, &lone(10, 100), &lone(50, 200), &mut output)?;
/// assert_eq!(output[..length], lone(50, 100));
/// let clash = record_engine::unify(4, &diamond, &lone(10, 100), &lone(101, 200), &mut output);
/// assert_eq!(clash, Err(Refusal::Clash));
/// # Ok::<(), record_engine::Refusal>(())
/// ```
///
/// # Errors
///
/// Refused by [`Refusal::Table`] (1 to 3) and [`Refusal::Graph`] (4 to 7), the first record's
/// before the second's, where no graph is below both by [`Refusal::Cycle`] (9) or
/// [`Refusal::Clash`] (10), then by [`Refusal::TooLarge`] (11) and [`Refusal::NoRoom`] (8),
/// looked for in this order.
pub fn unify(
    n: usize,
    table: &[u8],
    first: &[u8],
    second: &[u8],
    output: &mut [u8],
) -> Result<usize, Refusal> {
    length(foreign::record_unify(n, table, first, second, output))
}

/// Writes the difference of a general record and a specific record below it. The combination of
/// the general record and the difference is the written specific record, byte for byte. No
/// graph strictly above the difference gives the specific record. Takes 52 KiB of stack.
///
/// ```
/// let diamond = record_engine::table(&[0x01, 0x03, 0x05, 0x0F]).expect("at most 8 types");
/// // In both records the features 0 and 1 of the root lead to one node. The node has type 3 in
/// // the general record and type 1 in the specific one. One of the two links says enough.
/// let general = [2, 3, 3, 0, 0, 0, 0, 0, 0, 0, 1, 1, 3, 0, 0, 0, 0, 0, 0, 0, 0];
/// let specific = [2, 3, 3, 0, 0, 0, 0, 0, 0, 0, 1, 1, 1, 0, 0, 0, 0, 0, 0, 0, 0];
/// let rest = [2, 3, 1, 0, 0, 0, 0, 0, 0, 0, 1, 1, 0, 0, 0, 0, 0, 0, 0, 0];
/// let mut output = [0; record_engine::LONGEST_RECORD];
/// let length = record_engine::difference(4, &diamond, &general, &specific, &mut output)?;
/// assert_eq!(output[..length], rest);
/// let length = record_engine::unify(4, &diamond, &general, &rest, &mut output)?;
/// assert_eq!(output[..length], specific);
/// # Ok::<(), record_engine::Refusal>(())
/// ```
///
/// # Errors
///
/// Refused by [`Refusal::Table`] (1 to 3), [`Refusal::Graph`] (4 to 7), the general record's
/// before the specific one's, [`Refusal::NotBelow`] (12), [`Refusal::NoWantedType`] (13) and
/// [`Refusal::NoRoom`] (8), looked for in this order.
pub fn difference(
    n: usize,
    table: &[u8],
    general: &[u8],
    specific: &[u8],
    output: &mut [u8],
) -> Result<usize, Refusal> {
    length(foreign::record_difference(
        n, table, general, specific, output,
    ))
}
