//! All small graphs over a table, in the order of the bytes of their records: the call that
//! gives the next record, and an iterator over all records.

use crate::code::length_or_end;
use crate::{Refusal, foreign};

/// The length of the longest listed record. An output of this many bytes always has room for
/// [`next`].
pub const LONGEST_LISTED: usize = 32;

/// Writes the listed record that follows the given one, and gives its length. After the last
/// listed record it gives none and leaves the output unchanged. A record of no bytes asks for
/// the first listed record. The listed records are the written records that have at most 3
/// nodes, no range, and only features below `features`, which is 1 or 2. Of two listed records,
/// the one with the lesser byte where they first differ comes first. The number of listed
/// records does not slow a call down. Takes 12 KiB of stack.
///
/// ```
/// use record_engine::Refusal;
/// let diamond = record_engine::table(&[0x01, 0x03, 0x05, 0x0F]).expect("at most 8 types");
/// let mut output = [0; record_engine::LONGEST_LISTED];
/// let length = record_engine::next(4, &diamond, 2, &[], &mut output)?;
/// assert_eq!(length, Some(10));
/// assert_eq!(output[..10], [1, 1, 0, 0, 0, 0, 0, 0, 0, 0]);
/// // The first record of two nodes follows the last record of one node.
/// let top = [1, 3, 0, 0, 0, 0, 0, 0, 0, 0];
/// let length = record_engine::next(4, &diamond, 2, &top, &mut output)?;
/// assert_eq!(length, Some(20));
/// let two = [2, 1, 1, 0, 0, 0, 0, 0, 0, 0, 1, 1, 0, 0, 0, 0, 0, 0, 0, 0];
/// assert_eq!(output[..20], two);
/// // A record with feature 2 is accepted but not listed.
/// let other = [2, 1, 4, 0, 0, 0, 0, 0, 0, 0, 1, 1, 0, 0, 0, 0, 0, 0, 0, 0];
/// let refused = record_engine::next(4, &diamond, 2, &other, &mut output);
/// assert_eq!(refused, Err(Refusal::NotListed));
/// # Ok::<(), Refusal>(())
/// ```
///
/// Over two types and one feature there are three listed records: chains of one, two and three
/// nodes.
///
/// ```
/// let two = record_engine::table(&[0x01, 0x03]).expect("at most 8 types");
/// let mut output = [0; record_engine::LONGEST_LISTED];
/// let chain = [
///     3, 1, 1, 0, 0, 0, 0, 0, 0, 0, 1, 1, 1, 0, 0, 0, 0, 0, 0, 0, 2, 1, 0, 0, 0, 0, 0, 0, 0, 0,
/// ];
/// assert_eq!(record_engine::next(2, &two, 1, &chain, &mut output), Ok(None));
/// assert_eq!(output, [0; record_engine::LONGEST_LISTED]);
/// ```
///
/// # Errors
///
/// Refused by [`Refusal::Table`] (1 to 3), where the record has bytes by [`Refusal::Graph`]
/// (4 to 7), the record counting as the first, then by [`Refusal::FeatureCount`] (23),
/// [`Refusal::NotListed`] (24) and [`Refusal::NoRoom`] (8), looked for in this order.
pub fn next(
    n: usize,
    table: &[u8],
    features: usize,
    record: &[u8],
    output: &mut [u8],
) -> Result<Option<usize>, Refusal> {
    length_or_end(foreign::record_next(n, table, features, record, output))
}

/// An iterator over the listed records of a table and a number of features, from the first to
/// the last. It makes a call of [`next`] for each record.
///
/// ```
/// use record_engine::Listing;
/// let diamond = record_engine::table(&[0x01, 0x03, 0x05, 0x0F]).expect("at most 8 types");
/// assert_eq!(Listing::new(4, &diamond, 1)?.count(), 39);
/// assert_eq!(Listing::new(4, &diamond, 2)?.count(), 462);
/// let lone = Listing::new(4, &diamond, 2)?.take_while(|record| record[0] == 1);
/// let types: Vec<u8> = lone.map(|record| record[1]).collect();
/// assert_eq!(types, [1, 2, 3]);
/// # Ok::<(), record_engine::Refusal>(())
/// ```
#[derive(Clone, Debug)]
pub struct Listing<'a> {
    n: usize,
    table: &'a [u8],
    features: usize,
    /// The record that the iterator gives next; none at the end.
    upcoming: Option<Vec<u8>>,
}

impl<'a> Listing<'a> {
    /// The listing over a table of n types and a number of features, which is 1 or 2.
    ///
    /// ```
    /// use record_engine::{Listing, Refusal};
    /// let two = record_engine::table(&[0x01, 0x03]).expect("at most 8 types");
    /// let refused = Listing::new(2, &two, 3).err();
    /// assert_eq!(refused, Some(Refusal::FeatureCount));
    /// ```
    ///
    /// # Errors
    ///
    /// Refused by [`Refusal::Table`] (1 to 3) and [`Refusal::FeatureCount`] (23).
    pub fn new(n: usize, table: &'a [u8], features: usize) -> Result<Listing<'a>, Refusal> {
        let upcoming = after(n, table, features, &[])?;
        Ok(Listing {
            n,
            table,
            features,
            upcoming,
        })
    }
}

impl Iterator for Listing<'_> {
    type Item = Vec<u8>;

    fn next(&mut self) -> Option<Vec<u8>> {
        let record = self.upcoming.take()?;
        self.upcoming = after(self.n, self.table, self.features, &record)
            .expect("a listed record is refused by no number");
        Some(record)
    }
}

impl std::iter::FusedIterator for Listing<'_> {}

/// The listed record that follows a record, if there is one.
fn after(
    n: usize,
    table: &[u8],
    features: usize,
    record: &[u8],
) -> Result<Option<Vec<u8>>, Refusal> {
    let mut output = [0; LONGEST_LISTED];
    let length = next(n, table, features, record, &mut output)?;
    Ok(length.map(|length| output[..length].to_vec()))
}
