//! Type tables in bytes: the check whether a table is accepted, the table of the house types,
//! and small tables by hand.

use crate::code::{length, nothing};
use crate::{Refusal, foreign};

/// Tells whether a type table is accepted. No call over an accepted table is refused by
/// [`Refusal::Table`]. Takes 8 KiB of stack.
///
/// ```
/// use record_engine::{Refusal, TableFault, check_table};
/// let diamond = record_engine::table(&[0x01, 0x03, 0x05, 0x0F]).expect("at most 8 types");
/// assert_eq!(check_table(4, &diamond), Ok(()));
/// // The table has rows for four types, not for five.
/// assert_eq!(check_table(5, &diamond), Err(Refusal::Table(TableFault::Size)));
/// ```
///
/// # Errors
///
/// Refused by [`Refusal::Table`] (1 to 3).
pub fn check_table(n: usize, table: &[u8]) -> Result<(), Refusal> {
    nothing(foreign::record_check_table(n, table))
}

/// The number of the house types.
pub const HOUSE_TYPES: usize = 64;

/// The length of the table of the house types.
pub const HOUSE_TABLE_LENGTH: usize = 8 * HOUSE_TYPES;

/// Writes the table of the house types, for n = [`HOUSE_TYPES`], into the first
/// [`HOUSE_TABLE_LENGTH`] bytes of the output, and gives their number. The other bytes are
/// unchanged. A house type has three grades of 0 to 3. Its number is
/// 16 × first + 4 × second + third. A house type is below another when each of its grades is at
/// most the other's, and a grade of 3 says nothing. Takes 8 KiB of stack.
///
/// ```
/// use record_engine::{HOUSE_TABLE_LENGTH, HOUSE_TYPES};
/// let mut table = [0; HOUSE_TABLE_LENGTH];
/// record_engine::house_table(&mut table)?;
/// // The meet of the grades 1, 2, 3 and the grades 3, 0, 3 is 1, 0, 3.
/// let first = [1, 16 + 4 * 2 + 3, 0, 0, 0, 0, 0, 0, 0, 0];
/// let second = [1, 16 * 3 + 3, 0, 0, 0, 0, 0, 0, 0, 0];
/// let mut output = [0; record_engine::LONGEST_RECORD];
/// let length = record_engine::unify(HOUSE_TYPES, &table, &first, &second, &mut output)?;
/// assert_eq!(output[..length], [1, 16 + 3, 0, 0, 0, 0, 0, 0, 0, 0]);
/// # Ok::<(), record_engine::Refusal>(())
/// ```
///
/// # Errors
///
/// Refused by [`Refusal::NoRoom`] (8).
pub fn house_table(output: &mut [u8]) -> Result<usize, Refusal> {
    length(foreign::record_house_table(output))
}

/// The bytes of a table of at most 8 types, made from the first byte of each row. For more than
/// 8 types it gives none, because their rows have bits beyond the first byte. It does not check
/// the table: [`check_table`] does.
///
/// ```
/// let two = record_engine::table(&[0x01, 0x03]);
/// assert_eq!(two, Some(vec![1, 0, 0, 0, 0, 0, 0, 0, 3, 0, 0, 0, 0, 0, 0, 0]));
/// assert_eq!(record_engine::table(&[0xFF; 9]), None);
/// ```
pub fn table(first_bytes: &[u8]) -> Option<Vec<u8>> {
    let rows = first_bytes.iter().map(|&byte| [byte, 0, 0, 0, 0, 0, 0, 0]);
    (first_bytes.len() <= 8).then(|| rows.flatten().collect())
}
