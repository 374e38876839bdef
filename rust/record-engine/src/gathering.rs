//! A gathering: records are added one after another, and the gathering keeps their common part.

use crate::code::{length, order_of};
use crate::options::written;
use crate::{LONGEST_RECORD, Order, Refusal, foreign};

/// This many bytes are enough for a gathering over every table. They hold the number of types,
/// the longest table, the length of the common part, and the longest record.
pub const GATHERING_LENGTH: usize = 1 + 8 * 64 + 2 + LONGEST_RECORD;

/// A gathering over one table, in bytes of its own. It keeps the common part of the records
/// that were added so far, which is the least graph above all accepted records. Whatever calls
/// are made, the bytes of a gathering are those that the accepted additions alone give, in
/// their order.
///
/// ```
/// use record_engine::{Gathering, LONGEST_RECORD, Order, Refusal};
/// let diamond = record_engine::table(&[0x01, 0x03, 0x05, 0x0F]).expect("at most 8 types");
/// // A root of type 3 whose feature 0 leads to a node of the type given.
/// let record = |leaf| [2, 3, 1, 0, 0, 0, 0, 0, 0, 0, 1, leaf, 0, 0, 0, 0, 0, 0, 0, 0];
/// let mut output = [0; LONGEST_RECORD];
/// let mut gathering = Gathering::begin(4, &diamond)?;
/// // Nothing has been added.
/// assert_eq!(gathering.finish(&mut output), Err(Refusal::NothingGathered));
/// assert_eq!(gathering.order(&record(1)), Err(Refusal::NothingGathered));
/// // The first record is its own common part.
/// assert_eq!(gathering.add(&record(1))?, 20);
/// assert_eq!(gathering.order(&record(2))?, Order::Neither);
/// // The join of the types 1 and 2 is top, so both records are below the new common part.
/// gathering.add(&record(2))?;
/// assert_eq!(gathering.order(&record(2))?, Order::Under);
/// // A refused record is not added. A record without bytes is malformed.
/// assert!(gathering.add(&[]).is_err());
/// let length = gathering.finish(&mut output)?;
/// assert_eq!(output[..length], record(3));
/// // The gathering stays open. With a lone node of type 3, only the root is in common.
/// let lone = [1, 3, 0, 0, 0, 0, 0, 0, 0, 0];
/// gathering.add(&lone)?;
/// let length = gathering.finish(&mut output)?;
/// assert_eq!(output[..length], lone);
/// # Ok::<(), record_engine::Refusal>(())
/// ```
#[derive(Clone, Debug, PartialEq, Eq)]
pub struct Gathering {
    bytes: Vec<u8>,
}

impl Gathering {
    /// A gathering over a table, with nothing added yet.
    ///
    /// # Errors
    ///
    /// Refused by [`Refusal::Table`] (1 to 3).
    pub fn begin(n: usize, table: &[u8]) -> Result<Gathering, Refusal> {
        let mut bytes = vec![0; GATHERING_LENGTH];
        gathering_begin(n, table, &mut bytes)?;
        Ok(Gathering { bytes })
    }

    /// Adds a record, and gives the length of the common part.
    ///
    /// # Errors
    ///
    /// Refused by [`Refusal::Graph`] (4 to 7), the record counting as the first, and
    /// [`Refusal::TooLarge`] (11). The gathering is then as it was.
    pub fn add(&mut self, record: &[u8]) -> Result<usize, Refusal> {
        gathering_add(&mut self.bytes, record)
    }

    /// The order of the record, as the first, and of the common part so far, as the second.
    ///
    /// # Errors
    ///
    /// Refused by [`Refusal::Graph`] (4 to 7), the record counting as the first, and before
    /// the first addition by [`Refusal::NothingGathered`] (16).
    pub fn order(&self, record: &[u8]) -> Result<Order, Refusal> {
        gathering_order(&self.bytes, record)
    }

    /// The common part so far, as a written record. The gathering stays open.
    ///
    /// ```
    /// use record_engine::{Refusal, Table};
    /// let mut gathering = Table::from_order(4, &[])?.gathering();
    /// assert_eq!(gathering.common_part(), Err(Refusal::NothingGathered));
    /// let lone = |node_type| [1, node_type, 0, 0, 0, 0, 0, 0, 0, 0];
    /// gathering.add(&lone(1))?;
    /// gathering.add(&lone(2))?;
    /// assert_eq!(gathering.common_part()?, lone(3));
    /// # Ok::<(), Refusal>(())
    /// ```
    ///
    /// # Errors
    ///
    /// Refused by [`Refusal::NothingGathered`] (16) before the first addition.
    pub fn common_part(&self) -> Result<Vec<u8>, Refusal> {
        written(|output| self.finish(output))
    }

    /// Writes the common part so far, as a written record, and gives its length. The gathering
    /// stays open.
    ///
    /// # Errors
    ///
    /// Refused by [`Refusal::NothingGathered`] (16) before the first addition, and by
    /// [`Refusal::NoRoom`] (8).
    pub fn finish(&self, output: &mut [u8]) -> Result<usize, Refusal> {
        gathering_finish(&self.bytes, output)
    }
}

/// Begins a gathering over a table in a buffer that the caller lends. Gives the number of bytes
/// that the gathering uses so far, 3 + 8 × n. The other bytes are unchanged. Takes 8 KiB of
/// stack.
///
/// The parts of a gathering are: n, 1 byte; the table, 8 × n bytes; the length of the common
/// part, 2 bytes, low byte first, 0 before the first addition; the common part as a written
/// record; and room. Common part and room have at least [`LONGEST_RECORD`] bytes together.
///
/// ```
/// use record_engine::{GATHERING_LENGTH, gathering_add, gathering_begin, gathering_finish};
/// let diamond = record_engine::table(&[0x01, 0x03, 0x05, 0x0F]).expect("at most 8 types");
/// let lone = |node_type| [1, node_type, 0, 0, 0, 0, 0, 0, 0, 0];
/// let mut gathering = [0; GATHERING_LENGTH];
/// assert_eq!(gathering_begin(4, &diamond, &mut gathering)?, 3 + 8 * 4);
/// gathering_add(&mut gathering, &lone(1))?;
/// gathering_add(&mut gathering, &lone(2))?;
/// let mut output = [0; record_engine::LONGEST_RECORD];
/// let length = gathering_finish(&gathering, &mut output)?;
/// assert_eq!(output[..length], lone(3));
/// # Ok::<(), record_engine::Refusal>(())
/// ```
///
/// # Errors
///
/// Refused by [`Refusal::Table`] (1 to 3), and by [`Refusal::NoRoom`] (8) where fewer than
/// 1 + 8 × n + 2 + [`LONGEST_RECORD`] bytes are lent. [`GATHERING_LENGTH`] are enough for every
/// table.
pub fn gathering_begin(n: usize, table: &[u8], gathering: &mut [u8]) -> Result<usize, Refusal> {
    length(foreign::record_gathering_begin(n, table, gathering))
}

/// Adds a record to a gathering in a lent buffer, and gives the length of the new common part.
/// Takes 108 KiB of stack.
///
/// # Errors
///
/// Refused by [`Refusal::Graph`] (4 to 7), the record counting as the first, and
/// [`Refusal::TooLarge`] (11). A refusal changes no byte. Bytes that hold no gathering are
/// refused by the first fault that is found: by [`Refusal::Table`] for the table; by
/// [`Refusal::Graph`] for the record, then for the common part, which counts as the second; and
/// last by [`Refusal::NoRoom`] where the common part has no room.
pub fn gathering_add(gathering: &mut [u8], record: &[u8]) -> Result<usize, Refusal> {
    length(foreign::record_gathering_add(gathering, record))
}

/// Tells the order of a record, as the first, and of the common part of a gathering in a lent
/// buffer, as the second. Takes 28 KiB of stack.
///
/// # Errors
///
/// Refused by [`Refusal::Graph`] (4 to 7), the record counting as the first, and before the
/// first addition by [`Refusal::NothingGathered`] (16). Bytes that hold no gathering are
/// refused as by [`gathering_add`].
pub fn gathering_order(gathering: &[u8], record: &[u8]) -> Result<Order, Refusal> {
    order_of(foreign::record_gathering_order(gathering, record))
}

/// Writes the common part of a gathering in a lent buffer, as a written record, and gives its
/// length. The gathering stays open. Takes 28 KiB of stack.
///
/// # Errors
///
/// Refused by [`Refusal::NothingGathered`] (16) before the first addition, and by
/// [`Refusal::NoRoom`] (8). Bytes that hold no gathering are refused by [`Refusal::Table`]
/// for the table, and by [`Refusal::Graph`] for the common part, which counts as the second.
pub fn gathering_finish(gathering: &[u8], output: &mut [u8]) -> Result<usize, Refusal> {
    length(foreign::record_gathering_finish(gathering, output))
}
