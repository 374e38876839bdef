//! Random inputs in bytes: records and whole `mapcalc` inputs, with ranges and without. They
//! are valid, or damaged in each way that document 01 and Paper 7 refuse.

use super::Xorshift;
use super::graphs::{Ranges, Shape, graph, label, low_pair, pair, range};
use super::tables::{TableBytes, damaged_table, rival_table, valid_table};
use crate::graph::{Graph, Node};
use crate::label::Range;
use crate::mapcalc;
use crate::record::{self, HAS_RANGE, MOST_NODES};
use crate::table::{CONTRADICTION, MOST_TYPES, Table, Type};

/// The record of a graph in its own numbering. If ranges are present, full ranges are spelled
/// out at all nodes, at some, or at none.
pub fn record_of(random: &mut Xorshift, graph: &Graph, ranges: Ranges) -> Vec<u8> {
    match ranges {
        Ranges::Absent => record::write(graph),
        Ranges::Present => {
            let spelled = *random.choose(&[0, 0, 1, 4]);
            record::write_spelling(graph, |_| random.chance(spelled, 4))
        }
    }
}

/// A record that is accepted over any table of n types.
pub fn valid_record(random: &mut Xorshift, n: usize, ranges: Ranges) -> Vec<u8> {
    let shape = Shape::any(random).ranged(random, ranges);
    let graph = graph(random, n, &shape);
    record_of(random, &graph, ranges)
}

/// A record that is probably, but not surely, refused.
pub fn damaged_record(random: &mut Xorshift, n: usize, ranges: Ranges) -> Vec<u8> {
    let shape = match random.chance(1, 8) {
        true => Shape::any(random),
        false => Shape::small(random, 6, 3),
    };
    let shape = shape.ranged(random, ranges);
    let mut graph = graph(random, n, &shape);
    let kinds = match ranges {
        Ranges::Absent => 8,
        Ranges::Present => 11,
    };
    // Damage to the graph first, so that several faults may stand together.
    for _ in 0..random.between(1, 2) {
        let count = graph.nodes.len();
        let (node, other) = (random.pick(count), random.pick(count));
        let feature = *random.choose(&shape.features);
        match random.pick(kinds) {
            0 => graph.nodes[node].label.node_type = CONTRADICTION,
            1 => graph.nodes[node].label.node_type = type_at_least(random, n),
            // A target at N or above.
            2 if count < MOST_NODES => {
                let far = random.between(count, 255);
                let target = *random.choose(&[count, far]);
                graph.nodes[node].links.insert(feature, target);
            }
            // Any link at all: it may loop, and may leave nodes unreached.
            3 | 4 => {
                graph.nodes[node].links.insert(feature, other);
            }
            // A node that nothing reaches, which may have a link to itself.
            5 if count < MOST_NODES => {
                let target = *random.choose(&[count, other]);
                let label = label(random, n, &shape);
                graph.nodes.push(Node::new(label, [(feature, target)]));
            }
            // A dropped link.
            6 => {
                graph.nodes[node].links.pop_last();
            }
            // Links past 2,048, all to the first node or the last.
            7 if random.chance(1, 4) => {
                while graph.nodes.len() < 40 {
                    let label = label(random, n, &shape);
                    graph.nodes.push(Node::new(label, []));
                }
                let target = *random.choose(&[0, graph.nodes.len() - 1]);
                for node in &mut graph.nodes {
                    node.links = (0..64).map(|feature| (feature, target)).collect();
                }
            }
            // A lowest level above the highest, by one level or by more.
            8 => {
                let highest = random.pick(255);
                let lowest = *random.choose(&[highest + 1, 255]);
                graph.nodes[node].label.range = Range {
                    lowest: lowest as u8,
                    highest: highest as u8,
                };
            }
            // A type that is none, with a range behind it.
            9 | 10 => {
                let label = &mut graph.nodes[node].label;
                label.range = range(random);
                label.node_type = match random.chance(1, 2) {
                    true => CONTRADICTION,
                    false => type_at_least(random, n),
                };
            }
            _ => {}
        }
    }
    if ranges == Ranges::Present && random.chance(1, 8) {
        return without_levels(random, graph);
    }
    let mut record = record_of(random, &graph, ranges);
    match random.pick(12) {
        0 => {
            let length = random.pick(record.len());
            record.truncate(length);
        }
        1 => record.push(random.byte()),
        2 => record[0] = random.byte(),
        3 => record[0] = 0,
        4 => {
            let place = random.pick(record.len());
            record[place] ^= 1 << random.pick(8);
        }
        5 if random.chance(1, 3) => {
            let length = random.pick(30);
            record = (0..length).map(|_| random.byte()).collect();
        }
        _ => {}
    }
    record
}

/// A number of 7 bits that is no type.
fn type_at_least(random: &mut Xorshift, n: usize) -> Type {
    random.between(n, usize::from(HAS_RANGE) - 1) as Type
}

/// The record of a graph whose last type byte has bit 7. Its range is missing in whole or in
/// part, and what follows the range may be missing too. If the last node has no links, the
/// record is too short.
pub fn without_levels(random: &mut Xorshift, mut graph: Graph) -> Vec<u8> {
    let last = graph.nodes.last_mut().expect("a node");
    last.label.range = range(random);
    let behind = 8 + last.links.len();
    let number = graph.nodes.len() - 1;
    let mut record = record::write_spelling(&graph, |node| node == number);
    let levels = record.len() - behind - 2;
    let cut = random.between(1, 2);
    match random.chance(1, 2) {
        true => record.truncate(levels + 2 - cut),
        false => {
            record.drain(levels..levels + cut);
        }
    }
    record
}

/// Two records over a table: mostly those of a pair of graphs, sometimes one or
/// both of them damaged.
pub fn pair_of_records(
    random: &mut Xorshift,
    table: &TableBytes,
    shape: &Shape,
    ranges: Ranges,
) -> [Vec<u8>; 2] {
    records_of_pair(random, table, shape, ranges, pair)
}

/// The same for pairs of graphs of any kind.
pub(super) fn records_of_pair(
    random: &mut Xorshift,
    table: &TableBytes,
    shape: &Shape,
    ranges: Ranges,
    pair: impl FnOnce(&mut Xorshift, &Table, &Shape) -> (Graph, Graph),
) -> [Vec<u8>; 2] {
    // A table that is refused may state any n.
    let n = table.n.clamp(2, MOST_TYPES);
    let mut records = match Table::accept(table.n, &table.bytes) {
        Ok(accepted) => {
            let (first, second) = pair(random, &accepted, shape);
            [first, second].map(|graph| record_of(random, &graph, ranges))
        }
        Err(_) => [0, 1].map(|_| valid_record(random, n, ranges)),
    };
    for record in &mut records {
        if random.chance(1, 16) {
            *record = damaged_record(random, n, ranges);
        }
    }
    records
}

/// A whole input of `mapcalc`: mostly valid, sometimes damaged in any of its parts.
pub fn mapcalc_input(random: &mut Xorshift, ranges: Ranges) -> Vec<u8> {
    let kind = random.pick(12);
    let table = match kind {
        0 => damaged_table(random),
        1 => rival_table(random),
        _ => valid_table(random),
    };
    let (mut first, mut second) = match Table::accept(table.n, &table.bytes) {
        Ok(accepted) => {
            let shape = Shape::any(random).ranged(random, ranges);
            let (first, second) = match kind {
                // Their difference often has a node without a wanted type.
                1 => low_pair(random, &accepted, &shape),
                _ => pair(random, &accepted, &shape),
            };
            let first = record_of(random, &first, ranges);
            (first, record_of(random, &second, ranges))
        }
        Err(_) => {
            let first = valid_record(random, 4, ranges);
            (first, valid_record(random, 4, ranges))
        }
    };
    let types = table.n.clamp(2, MOST_TYPES);
    if random.chance(1, 12) {
        first = damaged_record(random, types, ranges);
    }
    if random.chance(1, 12) {
        second = damaged_record(random, types, ranges);
    }
    // n must fit its byte, and for most inputs the table must be as long as n says.
    let n = table.n.min(255) as u8;
    let mut bytes = table.bytes;
    if !random.chance(1, 20) {
        bytes.resize(8 * usize::from(n), 0);
    }
    let operation = *random.choose(&mapcalc::Operation::ALL);
    let mut input = mapcalc::input(operation.byte(), n, &bytes, &first, &second);
    match random.pick(40) {
        0 => input[0] = random.byte(),
        1 => {
            let length = random.pick(input.len());
            input.truncate(length);
        }
        2 => input.push(random.byte()),
        3 => {
            let place = random.pick(input.len());
            input[place] = random.byte();
        }
        _ => {}
    }
    input
}
