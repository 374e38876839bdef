//! Gathering while the session is open (Paper 4): programs are added one after another, and
//! the gathering keeps their common part by folding. Its bytes are n (1 byte), the table
//! (8 × n bytes), the length of the common part so far (2 bytes, low byte first, 0 before the
//! first addition), the record of the common part, and room for the longest record. Bytes that
//! hold no gathering are split into these parts as far as they go. A fault in a part is then
//! refused: first in the table, then in the program, as the first graph, then in the common
//! part, as the second.

use crate::calls::{self, written_by};
use crate::record::LONGEST_RECORD;
use crate::reply::{Refusal, Reply, Side};
use crate::table::Table;

/// This many bytes are enough for a gathering over every table.
pub const LONGEST_GATHERING: usize = bytes_for(64);

/// The bytes of a gathering over n types: "a gathering can hold the longest record".
pub const fn bytes_for(n: usize) -> usize {
    1 + 8 * n + 2 + LONGEST_RECORD
}

/// The common part of the accepted programs among some programs, "folded in their order", and
/// the number of accepted programs. Without an accepted program there is no common part.
pub fn folded(n: usize, table: &[u8], programs: &[Vec<u8>]) -> (Option<Vec<u8>>, usize) {
    let mut so_far = None;
    let mut count = 0;
    for program in programs {
        if let Ok(common) = joined(n, table, so_far.as_deref(), program) {
            so_far = Some(common);
            count += 1;
        }
    }
    (so_far, count)
}

/// The common part of what was gathered and one more program. For the first program it is the
/// program's own written record.
fn joined(
    n: usize,
    table: &[u8],
    so_far: Option<&[u8]>,
    program: &[u8],
) -> Result<Vec<u8>, Refusal> {
    written_by(|output| match so_far {
        None => calls::rewrite(n, table, program, output),
        Some(part) => calls::generalize(n, table, program, part, output),
    })
}

/// "A gathering is begun with one accepted table and keeps it." Tells how many bytes are
/// used. Refuses by 8 if the longest record would have no room.
pub fn begin(n: usize, table: &[u8], gathering: &mut [u8]) -> Reply {
    if let Err(fault) = Table::accept(n, table) {
        return Reply::Refused(Refusal::Table(fault));
    }
    if gathering.len() < bytes_for(n) {
        return Reply::Refused(Refusal::NoRoom);
    }
    let head = [&[n as u8], table, &[0, 0]].concat();
    gathering[..head.len()].copy_from_slice(&head);
    Reply::Length(head.len())
}

/// Adds a program, and tells the length of the common part. "A refused addition changes
/// nothing."
pub fn add(gathering: &mut [u8], program: &[u8]) -> Reply {
    let parts = Parts::of(gathering);
    let common = match joined(parts.n, parts.table, parts.gathered, program) {
        Ok(common) => common,
        Err(refusal) => return Reply::Refused(refusal),
    };
    if common.len() > parts.room.len() {
        return Reply::Refused(Refusal::NoRoom);
    }
    let at = 1 + parts.table.len();
    let [low, high, ..] = common.len().to_le_bytes();
    gathering[at..at + 2].copy_from_slice(&[low, high]);
    gathering[at + 2..][..common.len()].copy_from_slice(&common);
    Reply::Length(common.len())
}

/// The order of a program, "as first graph, to the common part of those added so far".
/// Before the first addition it is 16, "checked after the graph's 4 to 7".
pub fn order(gathering: &[u8], program: &[u8]) -> Reply {
    let parts = Parts::of(gathering);
    match parts.gathered {
        Some(part) => calls::order(parts.n, parts.table, program, part),
        None => match joined(parts.n, parts.table, None, program) {
            Ok(_) => Reply::Refused(Refusal::NothingGathered),
            Err(refusal) => Reply::Refused(refusal),
        },
    }
}

/// "Finishing writes the common part and leaves the gathering open." 16 comes before 8.
pub fn finish(gathering: &[u8], output: &mut [u8]) -> Reply {
    let parts = Parts::of(gathering);
    if let Err(fault) = Table::accept(parts.n, parts.table) {
        return Reply::Refused(Refusal::Table(fault));
    }
    let Some(part) = parts.gathered else {
        return Reply::Refused(Refusal::NothingGathered);
    };
    match calls::rewrite(parts.n, parts.table, part, output) {
        Reply::Refused(Refusal::Graph(fault, _)) => {
            Reply::Refused(Refusal::Graph(fault, Side::Second))
        }
        reply => reply,
    }
}

/// The parts of a gathering. If the bytes end in a part, the part ends there too. A missing
/// byte of the length counts as 0.
struct Parts<'a> {
    n: usize,
    table: &'a [u8],
    /// The common part so far; none if its length is 0.
    gathered: Option<&'a [u8]>,
    /// All that stands behind the length.
    room: &'a [u8],
}

impl Parts<'_> {
    fn of(gathering: &[u8]) -> Parts<'_> {
        let (count, rest) = split(gathering, 1);
        let n = low_first(count);
        let (table, rest) = split(rest, 8 * n);
        let (length, room) = split(rest, 2);
        let gathered = match low_first(length) {
            0 => None,
            length => Some(split(room, length).0),
        };
        Parts {
            n,
            table,
            gathered,
            room,
        }
    }
}

/// The first `count` bytes, or all if there are fewer, and the other bytes.
fn split(bytes: &[u8], count: usize) -> (&[u8], &[u8]) {
    bytes.split_at(count.min(bytes.len()))
}

/// The number that bytes state, the low byte first.
fn low_first(bytes: &[u8]) -> usize {
    bytes
        .iter()
        .rfold(0, |high, &byte| 256 * high + usize::from(byte))
}
