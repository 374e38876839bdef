//! The difference with a reason for each of its links, the difference by a reading order, and
//! both together.

use crate::code::length;
use crate::{Refusal, foreign};

/// Writes the difference of two records as [`difference`](crate::difference) does, and into
/// `reasons` one byte for each of its links: the [`Reason`](crate::Reason) why the link is kept.
/// The reasons stand in the order of the links in the written difference: node by node, and for
/// each node by feature. The bytes behind the last reason are unchanged. Gives the length of
/// the difference. Takes 52 KiB of stack.
///
/// ```
/// use record_engine::{LONGEST_RECORD, MOST_LINKS, Reason};
/// let diamond = record_engine::table(&[0x01, 0x03, 0x05, 0x0F]).expect("at most 8 types");
/// // The features 0 and 1 of the root lead to two nodes in the general record, and to one
/// // node in the specific one.
/// let general = [
///     3, 3, 3, 0, 0, 0, 0, 0, 0, 0, 1, 2, 3, 0, 0, 0, 0, 0, 0, 0, 0, 3, 0, 0, 0, 0, 0, 0, 0, 0,
/// ];
/// let specific = [2, 3, 3, 0, 0, 0, 0, 0, 0, 0, 1, 1, 1, 0, 0, 0, 0, 0, 0, 0, 0];
/// let (mut output, mut reasons) = ([0; LONGEST_RECORD], [0; MOST_LINKS]);
/// let length = record_engine::difference_explained(
///     4, &diamond, &general, &specific, &mut output, &mut reasons,
/// )?;
/// // The difference is the specific record: it keeps both links to the shared node.
/// assert_eq!(output[..length], specific);
/// for (feature, &byte) in reasons[..2].iter().enumerate() {
///     let reason = Reason::try_from(byte).expect("a reason for each link");
///     println!("feature {feature} leads to the shared node: {reason}");
///     assert_eq!(reason, Reason::Groups);
/// }
/// # Ok::<(), record_engine::Refusal>(())
/// ```
///
/// # Errors
///
/// Refused by [`Refusal::Table`] (1 to 3), [`Refusal::Graph`] (4 to 7), the general record's
/// before the specific one's, [`Refusal::NotBelow`] (12), [`Refusal::NoWantedType`] (13),
/// [`Refusal::NoRoom`] (8) and [`Refusal::NoReasonRoom`] (22), looked for in this order.
pub fn difference_explained(
    n: usize,
    table: &[u8],
    general: &[u8],
    specific: &[u8],
    output: &mut [u8],
    reasons: &mut [u8],
) -> Result<usize, Refusal> {
    length(foreign::record_difference_explained(
        n, table, general, specific, output, reasons,
    ))
}

/// Writes the difference of two records as [`difference`](crate::difference) does, but orders
/// the links by a reading order: by the place of their feature in `list`, then by the number of
/// the node that they leave. Takes 52 KiB of stack.
///
/// ```
/// use record_engine::{FEATURES, LONGEST_RECORD, Refusal, difference_by, unify};
/// let diamond = record_engine::table(&[0x01, 0x03, 0x05, 0x0F]).expect("at most 8 types");
/// // The features 0 and 1 of the root lead to one node, of the type given.
/// let both = |leaf| [2, 3, 3, 0, 0, 0, 0, 0, 0, 0, 1, 1, leaf, 0, 0, 0, 0, 0, 0, 0, 0];
/// let [general, specific] = [both(3), both(1)];
/// // A record with one of the two features alone, by its bit in the map.
/// let alone = |map| [2, 3, map, 0, 0, 0, 0, 0, 0, 0, 1, 1, 0, 0, 0, 0, 0, 0, 0, 0];
/// // Feature 0 is read first. Then the list is changed: feature 1 is read before feature 0.
/// let mut list: Vec<u8> = (0..FEATURES as u8).collect();
/// let mut output = [0; LONGEST_RECORD];
/// let length = difference_by(4, &diamond, &list, &general, &specific, &mut output)?;
/// assert_eq!(output[..length], alone(0b01));
/// list.swap(0, 1);
/// let length = difference_by(4, &diamond, &list, &general, &specific, &mut output)?;
/// assert_eq!(output[..length], alone(0b10));
/// let length = unify(4, &diamond, &general, &alone(0b10), &mut output)?;
/// assert_eq!(output[..length], specific);
/// // This list has feature 0 twice and no feature 1.
/// list[0] = 0;
/// let refused = difference_by(4, &diamond, &list, &general, &specific, &mut output);
/// assert_eq!(refused, Err(Refusal::ReadingOrder));
/// # Ok::<(), record_engine::Refusal>(())
/// ```
///
/// # Errors
///
/// Refused by [`Refusal::Table`] (1 to 3), [`Refusal::ReadingOrder`] (19), [`Refusal::Graph`]
/// (4 to 7), the general record's before the specific one's, [`Refusal::NotBelow`] (12),
/// [`Refusal::NoWantedType`] (13) and [`Refusal::NoRoom`] (8), looked for in this order.
pub fn difference_by(
    n: usize,
    table: &[u8],
    list: &[u8],
    general: &[u8],
    specific: &[u8],
    output: &mut [u8],
) -> Result<usize, Refusal> {
    length(foreign::record_difference_by(
        n, table, list, general, specific, output,
    ))
}

/// Writes the difference of two records as [`difference_by`] does, and the
/// [`Reason`](crate::Reason) for each of its links as [`difference_explained`] does. Takes
/// 52 KiB of stack.
///
/// ```
/// use record_engine::{FEATURES, LONGEST_RECORD, MOST_LINKS, Reason, difference_explained_by};
/// let diamond = record_engine::table(&[0x01, 0x03, 0x05, 0x0F]).expect("at most 8 types");
/// // The features 0 and 1 of the root lead to one node, of the type given.
/// let both = |leaf| [2, 3, 3, 0, 0, 0, 0, 0, 0, 0, 1, 1, leaf, 0, 0, 0, 0, 0, 0, 0, 0];
/// // Feature 63 is read first and feature 0 last.
/// let list: Vec<u8> = (0..FEATURES as u8).rev().collect();
/// let (mut output, mut reasons) = ([0; LONGEST_RECORD], [0; MOST_LINKS]);
/// let length = difference_explained_by(
///     4, &diamond, &list, &both(3), &both(1), &mut output, &mut reasons,
/// )?;
/// // The difference keeps only feature 1, for the type of its node.
/// assert_eq!(output[..length], [2, 3, 2, 0, 0, 0, 0, 0, 0, 0, 1, 1, 0, 0, 0, 0, 0, 0, 0, 0]);
/// assert_eq!(Reason::try_from(reasons[0]), Ok(Reason::Wanted));
/// # Ok::<(), record_engine::Refusal>(())
/// ```
///
/// # Errors
///
/// Refused by [`Refusal::Table`] (1 to 3), [`Refusal::ReadingOrder`] (19), [`Refusal::Graph`]
/// (4 to 7), the general record's before the specific one's, [`Refusal::NotBelow`] (12),
/// [`Refusal::NoWantedType`] (13), [`Refusal::NoRoom`] (8) and [`Refusal::NoReasonRoom`] (22),
/// looked for in this order.
pub fn difference_explained_by(
    n: usize,
    table: &[u8],
    list: &[u8],
    general: &[u8],
    specific: &[u8],
    output: &mut [u8],
    reasons: &mut [u8],
) -> Result<usize, Refusal> {
    length(foreign::record_difference_explained_by(
        n, table, list, general, specific, output, reasons,
    ))
}
