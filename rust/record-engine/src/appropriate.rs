//! The calls with a list of types for features, which says which nodes may have which features.
//! A record that obeys the list is appropriate: hence the names of the calls.

use crate::code::length;
use crate::{Refusal, foreign};

/// Writes the written record of a record, as [`rewrite`](crate::rewrite) does, if the record
/// obeys a list of types for features. Takes 28 KiB of stack.
///
/// ```
/// use record_engine::{FEATURES, GraphFault, Refusal, Side, rewrite_appropriate};
/// let diamond = record_engine::table(&[0x01, 0x03, 0x05, 0x0F]).expect("at most 8 types");
/// // Feature 0 is for type 1 alone, the others are for all types.
/// let mut list = [3; FEATURES];
/// list[0] = 1;
/// // A root with feature 0.
/// let record = |root| [2, root, 1, 0, 0, 0, 0, 0, 0, 0, 1, 2, 0, 0, 0, 0, 0, 0, 0, 0];
/// let mut output = [0; record_engine::LONGEST_RECORD];
/// let length = rewrite_appropriate(4, &diamond, &list, &record(1), &mut output)?;
/// assert_eq!(output[..length], record(1));
/// // Top is not below type 1.
/// let refused = rewrite_appropriate(4, &diamond, &list, &record(3), &mut output);
/// assert_eq!(refused, Err(Refusal::Graph(GraphFault::Inappropriate, Side::First)));
/// // The diamond has no type 4.
/// let refused = rewrite_appropriate(4, &diamond, &[4; FEATURES], &record(1), &mut output);
/// assert_eq!(refused, Err(Refusal::TypeList));
/// # Ok::<(), record_engine::Refusal>(())
/// ```
///
/// # Errors
///
/// Refused by [`Refusal::Table`] (1 to 3), [`Refusal::TypeList`] (17), [`Refusal::Graph`]
/// (4 to 7 and 18), the record counting as the first, and [`Refusal::NoRoom`] (8), looked for
/// in this order.
pub fn rewrite_appropriate(
    n: usize,
    table: &[u8],
    list: &[u8],
    record: &[u8],
    output: &mut [u8],
) -> Result<usize, Refusal> {
    length(foreign::record_rewrite_appropriate(
        n, table, list, record, output,
    ))
}

/// Writes the common part of two records, as [`generalize`](crate::generalize) does, if the
/// records obey a list of types for features. The common part obeys the list too. Takes 108
/// KiB of stack.
///
/// ```
/// use record_engine::{FEATURES, GraphFault, Refusal, Side, generalize_appropriate};
/// let diamond = record_engine::table(&[0x01, 0x03, 0x05, 0x0F]).expect("at most 8 types");
/// // Feature 0 is for type 1 alone, the others are for no type.
/// let mut list = [0; FEATURES];
/// list[0] = 1;
/// // A root with feature 0, and the node that it leads to.
/// let record = |root, leaf| [2, root, 1, 0, 0, 0, 0, 0, 0, 0, 1, leaf, 0, 0, 0, 0, 0, 0, 0, 0];
/// let [one, two, other] = [record(1, 1), record(1, 2), record(2, 1)];
/// let mut output = [0; record_engine::LONGEST_RECORD];
/// let length = generalize_appropriate(4, &diamond, &list, &one, &two, &mut output)?;
/// assert_eq!(output[..length], record(1, 3));
/// // Type 2 is not below type 1.
/// let refused = generalize_appropriate(4, &diamond, &list, &one, &other, &mut output);
/// assert_eq!(refused, Err(Refusal::Graph(GraphFault::Inappropriate, Side::Second)));
/// # Ok::<(), record_engine::Refusal>(())
/// ```
///
/// # Errors
///
/// Refused by [`Refusal::Table`] (1 to 3), [`Refusal::TypeList`] (17), [`Refusal::Graph`]
/// (4 to 7 and 18), the first record's before the second's, [`Refusal::TooLarge`] (11) and
/// [`Refusal::NoRoom`] (8), looked for in this order.
pub fn generalize_appropriate(
    n: usize,
    table: &[u8],
    list: &[u8],
    first: &[u8],
    second: &[u8],
    output: &mut [u8],
) -> Result<usize, Refusal> {
    length(foreign::record_generalize_appropriate(
        n, table, list, first, second, output,
    ))
}

/// Writes the combination of two records, as [`unify`](crate::unify) does, if the records obey
/// a list of types for features. The combination obeys the list too. Takes 136 KiB of stack.
///
/// A difference need not obey the list. Combine a difference with [`unify`](crate::unify):
///
/// ```
/// use record_engine::{FEATURES, GraphFault, Refusal, Side};
/// use record_engine::{difference, unify, unify_appropriate};
/// let diamond = record_engine::table(&[0x01, 0x03, 0x05, 0x0F]).expect("at most 8 types");
/// // Feature 0 is for type 1 alone, the others are for no type.
/// let mut list = [0; FEATURES];
/// list[0] = 1;
/// // A root with feature 0, and the node that it leads to.
/// let record = |root, leaf| [2, root, 1, 0, 0, 0, 0, 0, 0, 0, 1, leaf, 0, 0, 0, 0, 0, 0, 0, 0];
/// let [general, specific, rest] = [record(1, 3), record(1, 2), record(3, 2)];
/// let mut output = [0; record_engine::LONGEST_RECORD];
/// let length = unify_appropriate(4, &diamond, &list, &general, &specific, &mut output)?;
/// assert_eq!(output[..length], specific);
/// // The difference leaves type 1 to the general record, so its root is top.
/// let length = difference(4, &diamond, &general, &specific, &mut output)?;
/// assert_eq!(output[..length], rest);
/// let refused = unify_appropriate(4, &diamond, &list, &general, &rest, &mut output);
/// assert_eq!(refused, Err(Refusal::Graph(GraphFault::Inappropriate, Side::Second)));
/// let length = unify(4, &diamond, &general, &rest, &mut output)?;
/// assert_eq!(output[..length], specific);
/// # Ok::<(), record_engine::Refusal>(())
/// ```
///
/// # Errors
///
/// Refused by [`Refusal::Table`] (1 to 3), [`Refusal::TypeList`] (17), [`Refusal::Graph`]
/// (4 to 7 and 18), the first record's before the second's, where no graph is below both by
/// [`Refusal::Cycle`] (9) or [`Refusal::Clash`] (10), then by [`Refusal::TooLarge`] (11) and
/// [`Refusal::NoRoom`] (8), looked for in this order.
pub fn unify_appropriate(
    n: usize,
    table: &[u8],
    list: &[u8],
    first: &[u8],
    second: &[u8],
    output: &mut [u8],
) -> Result<usize, Refusal> {
    length(foreign::record_unify_appropriate(
        n, table, list, first, second, output,
    ))
}
