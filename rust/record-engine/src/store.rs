//! A store: up to 16 versions of a program in one buffer. It keeps the common part of the
//! versions, and the difference of each version from the common part.

use crate::code::length;
use crate::options::written;
use crate::{Refusal, Table, foreign};

/// The most bytes that a store has.
pub const STORE_LENGTH: usize = 16_384;

/// The most versions that a store keeps. Their numbers are 0 to 15.
pub const VERSIONS: usize = 16;

/// A store of up to [`VERSIONS`] versions of a program over one table, in bytes that it owns or
/// borrows. The common part of the programs stands in it once, and each program stands in it as
/// its difference from the common part.
///
/// A store does not hold its [`Table`]: hand in the same table at every call. The used bytes
/// depend only on the programs and their versions, whichever calls were made. They are those of
/// an empty store of the same length into which the programs are put in the order of their
/// versions. A refused call changes no byte.
///
/// ```
/// use record_engine::{Refusal, Store, Table};
/// let diamond = Table::from_order(4, &[])?;
/// // A root of type 3 whose features 0 and 1 lead to one node, of the type given.
/// let program = |leaf| [2, 3, 3, 0, 0, 0, 0, 0, 0, 0, 1, 1, leaf, 0, 0, 0, 0, 0, 0, 0, 0];
/// let mut store = Store::new();
/// assert_eq!(store.used(), [0, 0]);
/// // A put and a drop give the number of used bytes.
/// assert_eq!(store.put(&diamond, 0, &program(3))?, 37);
/// // The second program takes 20 bytes for its difference and 2 bytes for the length of it.
/// assert_eq!(store.put(&diamond, 7, &program(1))?, 37 + 22);
/// assert!(store.versions().eq([0, 7]));
/// assert_eq!(store.read(&diamond, 7)?, program(1));
/// // Version 7 is present, and version 1 is absent.
/// let present = store.put(&diamond, 7, &program(2));
/// assert_eq!(present, Err(Refusal::WrongVersion));
/// assert_eq!(store.drop(&diamond, 1), Err(Refusal::WrongVersion));
/// // The used bytes are all that has to be saved.
/// let saved = store.used().to_vec();
/// let mut opened = Store::holding(&saved);
/// assert_eq!(opened.drop(&diamond, 0)?, 37);
/// assert_eq!(opened.read(&diamond, 7)?, program(1));
/// # Ok::<(), Refusal>(())
/// ```
///
/// A store may also use bytes that the caller lends:
///
/// ```
/// use record_engine::{Refusal, Store, Table};
/// let diamond = Table::from_order(4, &[])?;
/// let lone = |node_type| [1, node_type, 0, 0, 0, 0, 0, 0, 0, 0];
/// let mut bytes = [7; 40];
/// let mut store = Store::empty_in(&mut bytes);
/// store.put(&diamond, 0, &lone(1))?;
/// store.put(&diamond, 1, &lone(2))?;
/// // A third program has no room.
/// let refused = store.put(&diamond, 2, &lone(3));
/// assert_eq!(refused, Err(Refusal::NoStoreRoom));
/// assert_eq!(store.used().len(), 38);
/// assert_eq!(bytes[38..], [7, 7]);
/// # Ok::<(), Refusal>(())
/// ```
#[derive(Clone, Debug, PartialEq, Eq)]
pub struct Store<B = Vec<u8>> {
    bytes: B,
}

impl Store {
    /// An empty store in [`STORE_LENGTH`] bytes of its own.
    pub fn new() -> Store {
        Store::holding(&[])
    }

    /// A store in [`STORE_LENGTH`] bytes of its own that begins with saved bytes. Saved bytes
    /// that hold programs hold the same programs in a longer buffer, but perhaps not in a
    /// shorter one: the way of the programs may take more bytes than its end uses.
    pub fn holding(saved: &[u8]) -> Store {
        let mut bytes = saved.to_vec();
        bytes.resize(STORE_LENGTH.max(saved.len()), 0);
        Store { bytes }
    }
}

impl Default for Store {
    fn default() -> Store {
        Store::new()
    }
}

impl<B> Store<B> {
    /// A store over bytes as they are. If the bytes hold no store, each call is refused by 4 of
    /// the first graph.
    pub fn over(bytes: B) -> Store<B> {
        Store { bytes }
    }

    /// The bytes that the store uses as its buffer.
    pub fn into_bytes(self) -> B {
        self.bytes
    }
}

impl<B: AsRef<[u8]>> Store<B> {
    /// The written record of the program that was put under a version.
    ///
    /// ```
    /// use record_engine::{Refusal, Store, Table};
    /// let diamond = Table::from_order(4, &[])?;
    /// let lone = |node_type| [1, node_type, 0, 0, 0, 0, 0, 0, 0, 0];
    /// let mut store = Store::new();
    /// store.put(&diamond, 2, &lone(1))?;
    /// assert_eq!(store.read(&diamond, 2)?, lone(1));
    /// assert_eq!(store.read(&diamond, 3), Err(Refusal::WrongVersion));
    /// # Ok::<(), Refusal>(())
    /// ```
    ///
    /// # Errors
    ///
    /// Refused as by [`store_read`], except for 1 to 3 and 8.
    pub fn read(&self, table: &Table, version: usize) -> Result<Vec<u8>, Refusal> {
        let (n, table) = (table.n(), table.as_bytes());
        written(|output| store_read(n, table, self.bytes(), version, output))
    }

    /// The versions that exist, by the map, which is the first two bytes. A missing byte of the
    /// map counts as 0.
    pub fn versions(&self) -> impl Iterator<Item = usize> + use<B> {
        let map = self.map();
        (0..VERSIONS).filter(move |version| map >> version & 1 == 1)
    }

    /// All bytes of the buffer.
    pub fn bytes(&self) -> &[u8] {
        self.bytes.as_ref()
    }

    /// The used bytes, which are all that has to be saved. The lengths in the store tell where
    /// they end. If the lengths lead beyond the buffer, the used bytes end with the buffer.
    pub fn used(&self) -> &[u8] {
        let bytes = self.bytes();
        let parts = match self.map().count_ones() {
            0 => 0,
            versions => 1 + versions,
        };
        let end = (0..parts).fold(2, |at, _| at + 2 + number(bytes.get(at..).unwrap_or(&[])));
        &bytes[..end.min(bytes.len())]
    }

    /// The first two bytes as a number: bit v is set when version v exists.
    fn map(&self) -> usize {
        number(self.bytes())
    }
}

impl<B: AsRef<[u8]> + AsMut<[u8]>> Store<B> {
    /// An empty store in the given bytes. It changes the first two bytes alone. Fewer than two
    /// bytes, or more than [`STORE_LENGTH`], hold no store.
    pub fn empty_in(mut bytes: B) -> Store<B> {
        bytes.as_mut().iter_mut().take(2).for_each(|byte| *byte = 0);
        Store { bytes }
    }

    /// Stores a program under a version that is absent, and gives the number of used bytes.
    ///
    /// ```
    /// use record_engine::{Refusal, Store, Table};
    /// let diamond = Table::from_order(4, &[])?;
    /// let lone = |node_type| [1, node_type, 0, 0, 0, 0, 0, 0, 0, 0];
    /// let mut store = Store::new();
    /// assert_eq!(store.put(&diamond, 0, &lone(1))?, store.used().len());
    /// // The last version is 15.
    /// let above = store.put(&diamond, 16, &lone(1));
    /// assert_eq!(above, Err(Refusal::WrongVersion));
    /// # Ok::<(), Refusal>(())
    /// ```
    ///
    /// # Errors
    ///
    /// Refused as by [`store_put`], except for 1 to 3.
    pub fn put(&mut self, table: &Table, version: usize, record: &[u8]) -> Result<usize, Refusal> {
        let (n, table) = (table.n(), table.as_bytes());
        store_put(n, table, self.bytes.as_mut(), version, record)
    }

    /// Removes a version that exists, and gives the number of used bytes.
    ///
    /// ```
    /// use record_engine::{Refusal, Store, Table};
    /// let diamond = Table::from_order(4, &[])?;
    /// let mut store = Store::new();
    /// store.put(&diamond, 9, &[1, 3, 0, 0, 0, 0, 0, 0, 0, 0])?;
    /// store.drop(&diamond, 9)?;
    /// assert_eq!(store.used(), Store::new().used());
    /// assert_eq!(store.drop(&diamond, 9), Err(Refusal::WrongVersion));
    /// # Ok::<(), Refusal>(())
    /// ```
    ///
    /// # Errors
    ///
    /// Refused as by [`store_drop`], except for 1 to 3.
    pub fn drop(&mut self, table: &Table, version: usize) -> Result<usize, Refusal> {
        let (n, table) = (table.n(), table.as_bytes());
        store_drop(n, table, self.bytes.as_mut(), version)
    }
}

/// The number in the first two bytes, low byte first. A missing byte counts as 0.
fn number(bytes: &[u8]) -> usize {
    let byte = |place: usize| bytes.get(place).map_or(0, |&byte| usize::from(byte));
    byte(0) + 256 * byte(1)
}

/// Puts a record into a store in a lent buffer, under a version, 0 to 15, that is absent. Gives
/// the number of used bytes. The bytes behind them are unchanged. Two zero bytes are an empty
/// store. Takes 252 KiB of stack.
///
/// ```
/// use record_engine::{LONGEST_RECORD, Refusal, STORE_LENGTH, store_drop, store_put, store_read};
/// let diamond = record_engine::table(&[0x01, 0x03, 0x05, 0x0F]).expect("at most 8 types");
/// let lone = |node_type| [1, node_type, 0, 0, 0, 0, 0, 0, 0, 0];
/// let mut store = [0; STORE_LENGTH];
/// // The map has 2 bytes. The common part and the difference have 2 + 10 bytes each.
/// assert_eq!(store_put(4, &diamond, &mut store, 15, &lone(1))?, 26);
/// assert_eq!(store[..4], [0, 0x80, 10, 0]);
/// assert_eq!(store[4..14], lone(1));
/// let mut output = [0; LONGEST_RECORD];
/// let length = store_read(4, &diamond, &store, 15, &mut output)?;
/// assert_eq!(output[..length], lone(1));
/// assert_eq!(store_drop(4, &diamond, &mut store, 15)?, 2);
/// let absent = store_read(4, &diamond, &store, 15, &mut output);
/// assert_eq!(absent, Err(Refusal::WrongVersion));
/// # Ok::<(), Refusal>(())
/// ```
///
/// # Errors
///
/// Refused by [`Refusal::Table`] (1 to 3), by [`GraphFault::Malformed`] (4), as the first,
/// where the bytes hold no store, by [`Refusal::Graph`] (4 to 7) of the record, which counts
/// as the second, by [`Refusal::WrongVersion`] (20) where the version is above 15 or present,
/// then by the first of [`Refusal::TooLarge`] (11), [`Refusal::NoWantedType`] (13) and
/// [`Refusal::NoStoreRoom`] (21) on the [way](crate#store) of all programs. A refusal changes
/// no byte.
///
/// [`GraphFault::Malformed`]: crate::GraphFault::Malformed
pub fn store_put(
    n: usize,
    table: &[u8],
    store: &mut [u8],
    version: usize,
    record: &[u8],
) -> Result<usize, Refusal> {
    length(foreign::record_store_put(n, table, store, version, record))
}

/// Writes the written record of the program that was put under a version into a store in a lent
/// buffer, and gives its length. Takes 240 KiB of stack.
///
/// # Errors
///
/// Refused by [`Refusal::Table`] (1 to 3), by [`GraphFault::Malformed`] (4), as the first,
/// where the bytes hold no store, by [`Refusal::WrongVersion`] (20) where the version is above
/// 15 or absent, then by [`Refusal::NoRoom`] (8).
///
/// [`GraphFault::Malformed`]: crate::GraphFault::Malformed
pub fn store_read(
    n: usize,
    table: &[u8],
    store: &[u8],
    version: usize,
    output: &mut [u8],
) -> Result<usize, Refusal> {
    length(foreign::record_store_read(n, table, store, version, output))
}

/// Removes a version from a store in a lent buffer, and gives the number of used bytes. The
/// bytes behind them are unchanged. Takes 240 KiB of stack.
///
/// # Errors
///
/// Refused by [`Refusal::Table`] (1 to 3), by [`GraphFault::Malformed`] (4), as the first,
/// where the bytes hold no store, by [`Refusal::WrongVersion`] (20) where the version is above
/// 15 or absent, then by the first of [`Refusal::TooLarge`] (11), [`Refusal::NoWantedType`]
/// (13) and [`Refusal::NoStoreRoom`] (21) on the [way](crate#store) of the other programs. A
/// refusal changes no byte. A drop may be refused because the other programs have a larger
/// common part, or because one of them has no difference from it.
///
/// [`GraphFault::Malformed`]: crate::GraphFault::Malformed
pub fn store_drop(
    n: usize,
    table: &[u8],
    store: &mut [u8],
    version: usize,
) -> Result<usize, Refusal> {
    length(foreign::record_store_drop(n, table, store, version))
}
