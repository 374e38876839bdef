//! Random calls on a store (Paper 11): with programs that have much in common, with versions
//! that are present or absent, and on buffers whose bytes no call wrote.

use super::Xorshift;
use super::graphs::{Ranges, Shape, graph, graph_above, graph_well_above, low_graph, renumbered};
use super::inputs::{damaged_record, record_of};
use super::tables::TableBytes;
use crate::graph::{Graph, Node};
use crate::record::{self, LONGEST_RECORD};
use crate::store::{LONGEST_STORE, VERSIONS};
use crate::table::{Table, Type};

/// A call on a store.
#[derive(Clone, Debug, PartialEq, Eq)]
pub enum StoreCall {
    /// Puts a record as a version.
    Put(usize, Vec<u8>),
    /// Reads a version into so many bytes.
    Read(usize, usize),
    /// Drops a version.
    Drop(usize),
}

/// The template of the programs of one store: a graph. Most programs are above it.
pub struct Template {
    table: Table,
    first: Graph,
    shape: Shape,
    ranges: Ranges,
    /// Versions are mostly below this number, so that calls often name a present version.
    versions: usize,
    /// In one of five templates, most programs are lone tops or strides of this many nodes. The
    /// common part of two strides is larger than they are, or too large for a record.
    strides: Option<usize>,
}

impl Template {
    /// A template over a table that is accepted.
    pub fn new(
        random: &mut Xorshift,
        table: &TableBytes,
        shape: Shape,
        ranges: Ranges,
    ) -> Template {
        Template {
            table: table.accepted(),
            first: low_graph(random, table.n, &shape),
            shape,
            ranges,
            versions: *random.choose(&[1, 3, 6, VERSIONS]),
            strides: match random.chance(1, 5) {
                true => Some(*random.choose(&[12, 25, 45, 45])),
                false => None,
            },
        }
    }

    /// A program: mostly a graph above the template, sometimes well above it, the template
    /// itself, a graph of its shape, or a lone top; sometimes damaged.
    pub fn program(&self, random: &mut Xorshift) -> Vec<u8> {
        let (table, first) = (&self.table, &self.first);
        if let Some(nodes) = self.strides.filter(|_| random.chance(5, 6)) {
            let [one, two] = strides(nodes, table.top());
            let lone = Graph::lone(table.top());
            let graph = random
                .choose(&[one.clone(), one, two.clone(), two, lone])
                .clone();
            return record_of(random, &graph, self.ranges);
        }
        let graph = match random.pick(16) {
            0 | 1 => return damaged_record(random, table.n(), self.ranges),
            2 => graph(random, table.n(), &self.shape),
            3 => first.clone(),
            4 => Graph::lone(table.top()),
            5..10 => graph_well_above(random, table, first),
            _ => graph_above(random, table, first),
        };
        record_of(random, &graph, self.ranges)
    }

    /// A version, which may be there or not, or be none at all.
    pub fn version(&self, random: &mut Xorshift) -> usize {
        match random.pick(12) {
            0 => random.pick(VERSIONS),
            1 => *random.choose(&[15, 16, 17, 31, 32, 255, 256, 1 << 16, 1 << 32, usize::MAX]),
            _ => random.pick(self.versions),
        }
    }

    /// A call on a store.
    pub fn call(&self, random: &mut Xorshift) -> StoreCall {
        let version = self.version(random);
        match random.pick(7) {
            0..4 => StoreCall::Put(version, self.program(random)),
            4 => {
                let few = random.pick(60);
                let room = *random.choose(&[0, few, LONGEST_RECORD]);
                StoreCall::Read(version, room)
            }
            _ => StoreCall::Drop(version),
        }
    }
}

/// The length of a buffer that a store is kept in, 2 to 16,384.
pub fn store_length(random: &mut Xorshift) -> usize {
    let few = random.between(2, 60);
    let some = random.between(60, 400);
    let any = random.between(2, LONGEST_STORE);
    *random.choose(&[few, some, some, some, any, any, LONGEST_STORE])
}

/// Two graphs with the given number of nodes in a row. In one graph feature 0 leads to the next
/// node and feature 1 to the next but one; in the other graph it is the other way round. Their
/// common part has about a sixth of the square of that number of nodes. From 39 nodes on it has
/// more than 255.
pub fn strides(nodes: usize, node_type: Type) -> [Graph; 2] {
    [[1, 2], [2, 1]].map(|[zero, one]| {
        let node = |number: usize| {
            let links = [(0, number + zero), (1, number + one)];
            Node::new(node_type, links.into_iter().filter(|link| link.1 < nodes))
        };
        Graph {
            nodes: (0..nodes).map(node).collect(),
        }
    })
}

/// A buffer made from one that may hold a store over a table. It has another map, a part with
/// other bytes or another meaning, a part missing or twice, or another length.
pub fn damaged_store(random: &mut Xorshift, table: &TableBytes, store: &[u8]) -> Vec<u8> {
    let mut damaged = match Parts::of(store) {
        Some(mut state) if random.chance(2, 3) => {
            let parts = &mut state.parts;
            let place = random.pick(parts.len().max(1));
            match random.pick(6) {
                0 => state.map ^= 1 << random.pick(VERSIONS),
                1 if !parts.is_empty() => {
                    parts.remove(place);
                }
                2 if !parts.is_empty() => {
                    let part = random.choose(parts).clone();
                    parts.insert(place, part);
                }
                3 => parts.reverse(),
                _ if !parts.is_empty() => {
                    parts[place] = changed_part(random, table, &parts[place]);
                }
                _ => state.map = random.pick(1 << VERSIONS),
            }
            state.bytes()
        }
        _ => store.to_vec(),
    };
    match random.pick(8) {
        0 if !damaged.is_empty() => {
            let place = random.pick(damaged.len().min(120));
            damaged[place] ^= 1 << random.pick(8);
        }
        1 if !damaged.is_empty() => {
            let place = random.pick(damaged.len().min(120));
            damaged[place] = random.byte();
        }
        2 => damaged.truncate(random.pick(damaged.len() + 1)),
        3 => damaged.truncate(random.pick(4)),
        4 => damaged.resize(random.between(LONGEST_STORE, LONGEST_STORE + 2), 7),
        5 => damaged.extend((0..random.pick(9)).map(|_| random.byte())),
        _ => {}
    }
    damaged
}

/// A record that may mean the same and be written in another way, or mean something else.
fn changed_part(random: &mut Xorshift, table: &TableBytes, part: &[u8]) -> Vec<u8> {
    let accepted = table.accepted();
    let Ok(graph) = record::read(&accepted, part) else {
        return part.to_vec();
    };
    match random.pick(5) {
        0 => record::write(&renumbered(random, &graph)),
        1 => record::write_spelling(&graph, |_| true),
        2 => record::write(&Graph::lone(accepted.top())),
        3 => damaged_record(random, table.n, Ranges::Present),
        _ => record::write(&graph_above(random, &accepted, &graph)),
    }
}

/// A buffer by its parts: the map, the records behind it, and what follows them.
struct Parts {
    map: usize,
    parts: Vec<Vec<u8>>,
    rest: Vec<u8>,
}

impl Parts {
    /// The parts of a buffer, if its lengths lead so far.
    fn of(store: &[u8]) -> Option<Parts> {
        let (map, mut rest) = number(store)?;
        let count = match map.count_ones() {
            0 => 0,
            versions => 1 + versions,
        };
        let mut parts = Vec::new();
        for _ in 0..count {
            let (length, behind) = number(rest)?;
            let (part, behind) = behind.split_at_checked(length)?;
            parts.push(part.to_vec());
            rest = behind;
        }
        Some(Parts {
            map,
            parts,
            rest: rest.to_vec(),
        })
    }

    /// The buffer, each part behind its length.
    fn bytes(&self) -> Vec<u8> {
        let two = |number: usize| [number as u8, (number >> 8) as u8];
        let mut store = two(self.map).to_vec();
        for part in &self.parts {
            store.extend(two(part.len()));
            store.extend(part);
        }
        store.extend(&self.rest);
        store
    }
}

/// The number of the first two bytes, low byte first, and the others.
fn number(bytes: &[u8]) -> Option<(usize, &[u8])> {
    let (&two, rest) = bytes.split_first_chunk()?;
    Some((usize::from(u16::from_le_bytes(two)), rest))
}
