//! Records: reads bytes into a graph, with refusals 4 to 7, and writes a graph to bytes.
//! The four checks are made in this order, each on the whole record before the next one.
//! Writing keeps the numbering of the graph and spells out no full range. To write document
//! 01's written form, write the graph that `canonical` gives.

use crate::graph::{Feature, Graph, Node};
use crate::label::{Label, Range};
use crate::reader::Reader;
use crate::table::{Table, Type};
use std::collections::BTreeMap;

/// A record has at most this many nodes.
pub const MOST_NODES: usize = 255;

/// A record has at most this many links.
pub const MOST_LINKS: usize = 2048;

/// The longest record: the count, 255 nodes of 11 bytes, 2,048 targets.
pub const LONGEST_RECORD: usize = 1 + 11 * MOST_NODES + MOST_LINKS;

/// Whether a graph has no more nodes and links than a record can have. A result that has more
/// is refused by 11.
pub fn can_hold(graph: &Graph) -> bool {
    graph.nodes.len() <= MOST_NODES && graph.link_count() <= MOST_LINKS
}

/// Bit 7 of the type byte: the two bytes of a range follow it. The other bits are
/// the type.
pub const HAS_RANGE: u8 = 1 << 7;

/// Why a record is not accepted.
#[derive(Clone, Copy, Debug, PartialEq, Eq)]
pub enum GraphFault {
    /// 4: N is 0, the record is short or has bytes left over, or has more than 2,048 links.
    Malformed,
    /// 5: a type that is 0 or at least n, a target at least N, or a lowest level above
    /// the highest.
    OutOfRange,
    /// 6: a node reaches itself.
    Cyclic,
    /// 7: a node the root does not reach.
    Unreached,
    /// 18: a link that the list of types for features forbids. Reading a record never gives it.
    Inappropriate,
}

impl GraphFault {
    /// The number of this fault in the papers.
    pub fn number(self) -> u8 {
        match self {
            GraphFault::Malformed => 4,
            GraphFault::OutOfRange => 5,
            GraphFault::Cyclic => 6,
            GraphFault::Unreached => 7,
            GraphFault::Inappropriate => 18,
        }
    }
}

/// Reads a record; the graph keeps the numbering of the record.
pub fn read(table: &Table, record: &[u8]) -> Result<Graph, GraphFault> {
    let Some(graph) = parse(record) else {
        return Err(GraphFault::Malformed);
    };
    if graph.link_count() > MOST_LINKS {
        return Err(GraphFault::Malformed);
    }
    judged(table, graph)
}

/// The graph of the nodes, if it is not refused by 5, 6 or 7.
pub(crate) fn judged(table: &Table, graph: Graph) -> Result<Graph, GraphFault> {
    let label_stands = |node: &Node| {
        !node.label.is_contradiction() && usize::from(node.label.node_type) < table.n()
    };
    let targets_stand = |node: &Node| {
        node.links
            .values()
            .all(|&target| target < graph.nodes.len())
    };
    if !graph
        .nodes
        .iter()
        .all(|node| label_stands(node) && targets_stand(node))
    {
        return Err(GraphFault::OutOfRange);
    }
    if graph.bottom_up().is_none() {
        return Err(GraphFault::Cyclic);
    }
    if graph.reached().len() != graph.nodes.len() {
        return Err(GraphFault::Unreached);
    }
    Ok(graph)
}

/// The nodes as the bytes give them; none if N is 0 or the length does not fit.
fn parse(record: &[u8]) -> Option<Graph> {
    let mut reader = Reader::new(record);
    let count = reader.byte()?;
    if count == 0 {
        return None;
    }
    let mut nodes = Vec::new();
    for _ in 0..count {
        let label = label(&mut reader)?;
        let map = reader.take(8)?;
        let mut links = BTreeMap::new();
        for feature in features(map) {
            links.insert(feature, usize::from(reader.byte()?));
        }
        nodes.push(Node { label, links });
    }
    reader.at_end().then_some(Graph { nodes })
}

/// Reads a type byte and, if its bit 7 is set, the lowest and the highest level. Without the
/// bit the range is full.
fn label(reader: &mut Reader) -> Option<Label> {
    let type_byte = reader.byte()?;
    let range = match type_byte & HAS_RANGE {
        0 => Range::FULL,
        _ => Range {
            lowest: reader.byte()?,
            highest: reader.byte()?,
        },
    };
    Some(Label {
        node_type: type_byte & !HAS_RANGE,
        range,
    })
}

/// The features of a map, lowest first.
fn features(map: &[u8]) -> Vec<Feature> {
    (0..64)
        .filter(|&feature| map[usize::from(feature / 8)] >> (feature % 8) & 1 == 1)
        .collect()
}

/// The bytes of a graph of at most 255 nodes, in its own numbering. "A written
/// record never writes the full range."
pub fn write(graph: &Graph) -> Vec<u8> {
    write_spelling(graph, |_| false)
}

/// The same bytes, but with the full range spelled out at the nodes that pass a test. Calls
/// read such records too.
pub fn write_spelling(graph: &Graph, mut spelled: impl FnMut(usize) -> bool) -> Vec<u8> {
    let byte = |number: usize| u8::try_from(number).expect("at most 255 nodes");
    let mut record = vec![byte(graph.nodes.len())];
    for (number, node) in graph.nodes.iter().enumerate() {
        let mut map = [0; 8];
        for &feature in node.links.keys() {
            map[usize::from(feature / 8)] |= 1 << (feature % 8);
        }
        let Label { node_type, range } = node.label;
        if range == Range::FULL && !spelled(number) {
            record.push(type_bits(node_type));
        } else {
            record.extend([
                type_bits(node_type) | HAS_RANGE,
                range.lowest,
                range.highest,
            ]);
        }
        record.extend(map);
        record.extend(node.links.values().map(|&target| byte(target)));
    }
    record
}

/// A type as bits 0 to 6 of a byte.
fn type_bits(node_type: Type) -> u8 {
    assert!(node_type < HAS_RANGE, "a type has 7 bits, not {node_type}");
    node_type
}
