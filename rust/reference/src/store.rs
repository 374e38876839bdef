//! A patient's versions in one buffer (Paper 11): up to 16 programs over one table, kept as
//! their common part and each program's difference from it. The bytes are "a map of 16 bits
//! (2 bytes, low byte first) saying which exist, then the length and record of their common
//! part, then the length and difference of each version that exists". No call trusts the
//! bytes: it restores the programs from them, puts the programs into an empty store one after
//! another, and compares the result with the bytes.

use crate::calls::{accept_graph, accept_table, deliver, reply};
use crate::canonical::canonical;
use crate::difference::difference;
use crate::generalize::generalize;
use crate::graph::Graph;
use crate::reader::Reader;
use crate::record::{self, GraphFault};
use crate::reply::{Refusal, Reply, Side};
use crate::table::Table;
use crate::unify::unify;
use std::collections::BTreeMap;

/// "Lend up to 16,384 bytes."
pub const LONGEST_STORE: usize = 16_384;

/// "Keep up to 16 versions of a program."
pub const VERSIONS: usize = 16;

/// "An empty store is two zero bytes."
pub const EMPTY: [u8; 2] = [0, 0];

/// The programs by their versions.
pub type Programs = BTreeMap<usize, Graph>;

/// "Put names a version number from 0 to 15 that is absent." Tells the used length.
pub fn put(n: usize, table: &[u8], store: &mut [u8], version: usize, program: &[u8]) -> Reply {
    let changed = accept_store(n, table, store).and_then(|(table, mut programs)| {
        let program = accept_graph(&table, program, Side::Second)?;
        if version >= VERSIONS || programs.contains_key(&version) {
            return Err(Refusal::WrongVersion);
        }
        programs.insert(version, program);
        way(&table, &programs, store.len())
    });
    reply(changed.map(|state| settle(&state, store)))
}

/// "Read gives back the written record that was put."
pub fn read(n: usize, table: &[u8], store: &[u8], version: usize, output: &mut [u8]) -> Reply {
    let result = accept_store(n, table, store).and_then(|(_, programs)| {
        let program = programs.get(&version).ok_or(Refusal::WrongVersion)?;
        deliver(program, output)
    });
    reply(result)
}

/// "Drop removes the one named." Tells the used length.
pub fn drop(n: usize, table: &[u8], store: &mut [u8], version: usize) -> Reply {
    let changed = accept_store(n, table, store).and_then(|(table, mut programs)| {
        programs.remove(&version).ok_or(Refusal::WrongVersion)?;
        way(&table, &programs, store.len())
    });
    reply(changed.map(|state| settle(&state, store)))
}

/// "The table is checked first, then the buffer, where one holding no state so reached within
/// its length is 4 of the first graph." Gives the table and the programs that are held.
fn accept_store(n: usize, table: &[u8], store: &[u8]) -> Result<(Table, Programs), Refusal> {
    let table = accept_table(n, table)?;
    let no_state = Refusal::Graph(GraphFault::Malformed, Side::First);
    let programs = held(&table, store).ok_or(no_state)?;
    Ok((table, programs))
}

/// Puts a state in the first bytes of a store. "Bytes past the used ones may hold anything":
/// they stay.
fn settle(state: &[u8], store: &mut [u8]) -> Reply {
    store[..state.len()].copy_from_slice(state);
    Reply::Length(state.len())
}

/// The bytes "of an empty store into which the programs were put in version order under their
/// numbers", in so many bytes; or "the first number met on that way".
pub fn way(table: &Table, programs: &Programs, room: usize) -> Result<Vec<u8>, Refusal> {
    let mut state = EMPTY.to_vec();
    let mut common: Option<Graph> = None;
    for (&last, program) in programs {
        // "Each step of that way stores the common part of its programs, folded in version
        // order, and every program's difference from it."
        let folded = match common {
            None => program.clone(),
            Some(before) => generalize(table, &before, program),
        };
        if !record::can_hold(&folded) {
            return Err(Refusal::TooLarge);
        }
        let differences = programs.range(..=last).map(|(&version, program)| {
            let difference = difference(table, &folded, program)?;
            Ok((version, difference))
        });
        state = state_of(&folded, &differences.collect::<Result<_, _>>()?);
        // "After a step's 11 and 13, too few bytes for its state is 21."
        if state.len() > room {
            return Err(Refusal::NoStoreRoom);
        }
        common = Some(folded);
    }
    Ok(state)
}

/// The bytes of a common part and the differences from it.
fn state_of(common: &Graph, differences: &Programs) -> Vec<u8> {
    let map = differences.keys().map(|version| 1 << version).sum();
    let mut state = low_first(map).to_vec();
    for part in [common].into_iter().chain(differences.values()) {
        let record = record::write(&canonical(part));
        state.extend(low_first(record.len()));
        state.extend(record);
    }
    state
}

/// A number as 2 bytes, "low byte first".
fn low_first(number: usize) -> [u8; 2] {
    u16::try_from(number).expect("two bytes").to_le_bytes()
}

/// The programs that a buffer holds: those whose way, in a buffer of this length, ends in the
/// buffer's first bytes. There is at most one such list of programs, since each program is the
/// combination of the common part and the program's difference.
pub fn held(table: &Table, store: &[u8]) -> Option<Programs> {
    // "A buffer above 16,384 bytes is 4."
    if store.len() > LONGEST_STORE {
        return None;
    }
    let programs = restored(table, store)?;
    let state = way(table, &programs, store.len()).ok()?;
    store.starts_with(&state).then_some(programs)
}

/// The combinations of the common part and each difference, if the bytes have the form of a
/// store.
fn restored(table: &Table, store: &[u8]) -> Option<Programs> {
    let mut reader = Reader::new(store);
    let map = number(&mut reader)?;
    if map == 0 {
        return Some(Programs::new());
    }
    let common = part(table, &mut reader)?;
    let exist = (0..VERSIONS).filter(|version| map >> version & 1 == 1);
    exist
        .map(|version| {
            let difference = part(table, &mut reader)?;
            let program = unify(table, &common, &difference).ok()?;
            record::can_hold(&program).then_some((version, program))
        })
        .collect()
}

/// A length and an accepted record of that length.
fn part(table: &Table, reader: &mut Reader) -> Option<Graph> {
    let length = number(reader)?;
    record::read(table, reader.take(length)?).ok()
}

/// A number of 2 bytes, low byte first.
fn number(reader: &mut Reader) -> Option<usize> {
    let low = reader.byte()?;
    let high = reader.byte()?;
    Some(usize::from(u16::from_le_bytes([low, high])))
}
