//! A store: up to 16 programs in one buffer. The buffer has a map of the versions that exist, the
//! common part of the programs, and the difference of each program from it. Each part stands
//! behind its length in two bytes. A call trusts a buffer only after it has gone the way of the
//! programs again.

use crate::Refusal;
use crate::bounds::{Bounds, Side};
use crate::difference::difference;
use crate::generalize::generalize;
use crate::graph::Graph;
use crate::lists::BY_NUMBER;
use crate::order::node_map;
use crate::table::Table;
use crate::unify::combine;
use crate::write::{renumber, write};

const LONGEST: usize = 16_384;
const VERSIONS: usize = 16;
/// The number of bytes of the map. An empty store uses no other bytes.
const MAP: usize = 2;

/// The programs by version, in written numbering.
type Programs = [Option<Graph>; VERSIONS];

/// Puts a record, which counts as the second, into a store under a version. Gives the number of
/// used bytes.
pub fn store_put(
    n: usize,
    table: &[u8],
    store: &mut [u8],
    version: usize,
    record: &[u8],
) -> Result<usize, Refusal> {
    let types = Types::open(n, table)?;
    let mut opened = Store::empty(&types);
    opened.open(store)?;
    opened.put(version, record, store.len())?;
    Ok(settle(opened.used(), store))
}

/// Writes the record of a version.
pub fn store_read(
    n: usize,
    table: &[u8],
    store: &[u8],
    version: usize,
    output: &mut [u8],
) -> Result<usize, Refusal> {
    let types = Types::open(n, table)?;
    let mut opened = Store::empty(&types);
    opened.open(store)?;
    write(opened.program(version)?, output)
}

/// Drops a version, and gives the number of used bytes.
pub fn store_drop(
    n: usize,
    table: &[u8],
    store: &mut [u8],
    version: usize,
) -> Result<usize, Refusal> {
    let types = Types::open(n, table)?;
    let mut opened = Store::empty(&types);
    opened.open(store)?;
    opened.drop(version, store.len())?;
    Ok(settle(opened.used(), store))
}

fn settle(state: &[u8], store: &mut [u8]) -> usize {
    store[..state.len()].copy_from_slice(state);
    state.len()
}

/// A table with its meets and joins.
struct Types {
    table: Table,
    meets: Bounds,
    joins: Bounds,
}

impl Types {
    /// The table of some bytes, or 1, 2 or 3.
    fn open(n: usize, bytes: &[u8]) -> Result<Types, Refusal> {
        let (table, joins) = Bounds::open(n, bytes, Side::Joins)?;
        let meets = Bounds::of(&table, Side::Meets)?;
        Ok(Types {
            table,
            meets,
            joins,
        })
    }
}

/// A store that was read: its programs and its state.
struct Store<'a> {
    types: &'a Types,
    programs: Programs,
    state: State,
}

/// The state after some steps of the way: the bytes, how many of them are used, and the common
/// part.
struct State {
    bytes: [u8; LONGEST],
    used: usize,
    common: Graph,
}

impl Store<'_> {
    fn empty(types: &Types) -> Store<'_> {
        Store {
            types,
            programs: [const { None }; VERSIONS],
            state: State {
                bytes: [0; LONGEST],
                used: MAP,
                common: Graph::empty(),
            },
        }
    }

    /// Reads a buffer into this empty store, or gives 4 if the buffer holds no store.
    fn open(&mut self, buffer: &[u8]) -> Result<(), Refusal> {
        let is_held = buffer.len() <= LONGEST
            && self.restore(buffer).is_some()
            && self.go(buffer.len()).is_ok()
            && buffer.starts_with(self.used());
        if is_held { Ok(()) } else { Err(Refusal::of(4)) }
    }

    /// Reads the programs, which are the combinations of the common part and each difference, if
    /// the buffer has the form of a store.
    fn restore(&mut self, buffer: &[u8]) -> Option<()> {
        let (&map, mut rest) = buffer.split_first_chunk::<MAP>()?;
        let map = u16::from_le_bytes(map);
        if map == 0 {
            return Some(());
        }
        let n = self.types.table.n;
        let mut common = Graph::empty();
        rest = read_part(n, rest, &mut common)?;
        for (version, program) in self.programs.iter_mut().enumerate() {
            if map >> version & 1 == 1 {
                let mut part = Graph::empty();
                rest = read_part(n, rest, &mut part)?;
                let program = program.insert(Graph::empty());
                combine(&self.types.meets, &common, &part, program).ok()?;
            }
        }
        Some(())
    }

    /// Puts a record, which counts as the second, under a version that is absent.
    fn put(&mut self, version: usize, record: &[u8], room: usize) -> Result<(), Refusal> {
        let mut graph = Graph::empty();
        let read = graph.read(self.types.table.n, record);
        read.map_err(Refusal::of_second)?;
        let place = self.programs.get_mut(version);
        let place = place.filter(|program| program.is_none());
        renumber(&graph, place.ok_or(Refusal::of(20))?.insert(Graph::empty()));
        if self.programs[version + 1..].iter().all(Option::is_none) {
            // The way that was gone is the beginning of the new one.
            self.step(version, room)
        } else {
            self.go(room)
        }
    }

    /// Drops a version that exists.
    fn drop(&mut self, version: usize, room: usize) -> Result<(), Refusal> {
        let place = self.programs.get_mut(version);
        let place = place.filter(|program| program.is_some());
        *place.ok_or(Refusal::of(20))? = None;
        self.go(room)
    }

    /// The program of a version that exists.
    fn program(&self, version: usize) -> Result<&Graph, Refusal> {
        let program = self.programs.get(version).and_then(Option::as_ref);
        program.ok_or(Refusal::of(20))
    }

    /// The bytes of the state.
    fn used(&self) -> &[u8] {
        &self.state.bytes[..self.state.used]
    }

    /// Goes the way of the programs in a buffer of this length, or gives the first of 11, 13 and
    /// 21.
    fn go(&mut self, room: usize) -> Result<(), Refusal> {
        self.state.bytes[..MAP].fill(0);
        self.state.used = MAP;
        for version in 0..VERSIONS {
            if self.programs[version].is_some() {
                self.step(version, room)?;
            }
        }
        Ok(())
    }

    /// Goes one step further, to the program of a version.
    fn step(&mut self, version: usize, room: usize) -> Result<(), Refusal> {
        let Store {
            types,
            programs,
            state,
        } = self;
        let Types { table, joins, .. } = types;
        let program = programs[version].as_ref().expect("a program");
        if state.used == MAP {
            state.common = program.clone();
        } else {
            let mut common = Graph::empty();
            generalize(joins, &state.common, program, &mut common)?;
            state.common = common;
        }
        let common = &state.common;
        let output = &mut state.bytes[..room];
        let mut end = write_part(common, output, MAP);
        for program in programs[..=version].iter().flatten() {
            let below = node_map(table, program, common).expect("below the common part");
            let mut rest = Graph::empty();
            difference(table, BY_NUMBER, common, program, &below, &mut rest, None)?;
            end = end.and_then(|place| write_part(&rest, output, place));
        }
        state.used = end.ok_or(Refusal::of(21))?;
        state.bytes[version / 8] |= 1 << (version % 8);
        Ok(())
    }
}

/// Reads a record behind its length, and gives the bytes that follow it.
fn read_part<'a>(n: usize, bytes: &'a [u8], graph: &mut Graph) -> Option<&'a [u8]> {
    let (&length, rest) = bytes.split_first_chunk::<2>()?;
    let (record, rest) = rest.split_at_checked(u16::from_le_bytes(length).into())?;
    graph.read(n, record).ok()?;
    Some(rest)
}

/// Writes the length of a graph's record and the record, if there is room. Gives the place behind
/// them.
fn write_part(graph: &Graph, output: &mut [u8], place: usize) -> Option<usize> {
    let (count, rest) = output[place..].split_first_chunk_mut::<2>()?;
    let length = write(graph, rest).ok()?;
    *count = (length as u16).to_le_bytes();
    Some(place + 2 + length)
}
