//! A gathering in a lent buffer. Its parts are the number of types, the table, the length of the
//! common part so far (two bytes, low byte first), the common part, and room for the longest
//! record.

use crate::bounds::{Bounds, Side};
use crate::calls::read_both;
use crate::generalize::generalize;
use crate::graph::Graph;
use crate::order::{self, Order};
use crate::table::Table;
use crate::write::write;
use crate::{Refusal, rewrite};

/// The length of the longest record.
const LONGEST: usize = 4854;

/// Begins a gathering over a table, and gives the number of used bytes.
pub fn gathering_begin(n: usize, table: &[u8], gathering: &mut [u8]) -> Result<usize, Refusal> {
    Table::open(n, table)?;
    let head = 1 + table.len();
    if gathering.len() < head + 2 + LONGEST {
        return Err(Refusal::of(8));
    }
    gathering[0] = n as u8;
    gathering[1..head].copy_from_slice(table);
    gathering[head..head + 2].fill(0);
    Ok(head + 2)
}

/// Adds a record, the first, to what is gathered, the second, and gives the length of the new
/// common part.
pub fn gathering_add(gathering: &mut [u8], record: &[u8]) -> Result<usize, Refusal> {
    let n = gathering.first().map_or(0, |&byte| usize::from(byte));
    let (head, rest) = gathering.split_at_mut(gathering.len().min(1 + 8 * n));
    let (count, room) = rest.split_at_mut(rest.len().min(2));
    let length = low_first(count);
    let (table, joins) = Bounds::open(n, head.get(1..).unwrap_or(&[]), Side::Joins)?;
    let (mut a, mut b, mut common) = (Graph::empty(), Graph::empty(), Graph::empty());
    let written = if length == 0 {
        a.read(n, record).map_err(Refusal::of)?;
        write(&a, room)?
    } else {
        let part = &room[..length.min(room.len())];
        read_both(&table, None, [record, part], [&mut a, &mut b])?;
        generalize(&joins, &a, &b, &mut common)?;
        write(&common, room)?
    };
    count.copy_from_slice(&[written as u8, (written >> 8) as u8]);
    Ok(written)
}

/// The order of a record, the first, to what is gathered.
pub fn gathering_order(gathering: &[u8], record: &[u8]) -> Result<Order, Refusal> {
    let parts = Parts::of(gathering);
    let table = Table::open(parts.n, parts.table)?;
    let (mut a, mut b) = (Graph::empty(), Graph::empty());
    let Some(part) = parts.gathered else {
        a.read(parts.n, record).map_err(Refusal::of)?;
        return Err(Refusal::of(16));
    };
    read_both(&table, None, [record, part], [&mut a, &mut b])?;
    Ok(order::order(&table, &a, &b))
}

/// Writes what is gathered, which stays.
pub fn gathering_finish(gathering: &[u8], output: &mut [u8]) -> Result<usize, Refusal> {
    let parts = Parts::of(gathering);
    let Some(part) = parts.gathered else {
        Table::open(parts.n, parts.table)?;
        return Err(Refusal::of(16));
    };
    // What is gathered is the second record.
    let written = rewrite(parts.n, parts.table, part, output);
    written.map_err(|refusal| Refusal {
        second: matches!(refusal.number, 4..=7),
        ..refusal
    })
}

/// The parts of a gathering. A part that is cut off ends where the bytes end.
struct Parts<'a> {
    n: usize,
    table: &'a [u8],
    /// The common part so far; none if its length is 0.
    gathered: Option<&'a [u8]>,
}

impl Parts<'_> {
    fn of(gathering: &[u8]) -> Parts<'_> {
        let (count, rest) = split(gathering, 1);
        let n = low_first(count);
        let (table, rest) = split(rest, 8 * n);
        let (length, room) = split(rest, 2);
        let length = low_first(length);
        Parts {
            n,
            table,
            gathered: (length > 0).then(|| split(room, length).0),
        }
    }
}

/// The first `count` bytes, or all if there are fewer, and the other bytes.
fn split(bytes: &[u8], count: usize) -> (&[u8], &[u8]) {
    bytes.split_at(bytes.len().min(count))
}

/// The number that bytes state, low byte first.
fn low_first(bytes: &[u8]) -> usize {
    bytes
        .iter()
        .rfold(0, |high, &byte| 256 * high + usize::from(byte))
}
