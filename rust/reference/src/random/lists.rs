//! Random lists of types for features (Paper 9): lists that given graphs obey, lists that one
//! graph breaks and others obey, damaged lists, and whole inputs of the calls that take a
//! list.

use super::Xorshift;
use super::graphs::{Ranges, Shape, pair, type_above};
use super::inputs::{damaged_record, record_of, valid_record};
use super::tables::{TableBytes, damaged_table, valid_table};
use crate::graph::{FEATURES, Feature, Graph};
use crate::table::{CONTRADICTION, MOST_TYPES, Table, Type};

/// A list that all these graphs obey. Every other entry is the least there can be, which
/// is 0 for a feature that none of the graphs has.
pub fn obeyed_list(random: &mut Xorshift, table: &Table, graphs: &[&Graph]) -> Vec<u8> {
    let entry = |least: Type| match random.chance(1, 2) {
        true => least,
        false => type_above(random, table, least),
    };
    least_list(table, graphs).map(entry).to_vec()
}

/// A list that a graph breaks while others obey it, if there is one.
pub fn broken_list(
    random: &mut Xorshift,
    table: &Table,
    obeying: &[&Graph],
    breaking: &Graph,
) -> Option<Vec<u8>> {
    let least = least_list(table, obeying);
    let forbids = |entry: Type, (node_type, _): (Type, Feature)| !table.below(node_type, entry);
    let mut links = typed_links(breaking);
    links.retain(|&link| forbids(least[usize::from(link.1)], link));
    if links.is_empty() {
        return None;
    }
    let link = *random.choose(&links);
    let place = usize::from(link.1);
    let entries: Vec<Type> = table
        .types()
        .filter(|&entry| table.below(least[place], entry) && forbids(entry, link))
        .collect();
    let mut list = obeyed_list(random, table, obeying);
    list[place] = *random.choose(&entries);
    Some(list)
}

/// The list, damaged: its length is not 64, or some entries are no types.
pub fn damaged_list(random: &mut Xorshift, n: usize, mut list: Vec<u8>) -> Vec<u8> {
    match random.pick(5) {
        kind @ 0..3 => resize(random, kind, n, &mut list),
        _ => {
            for _ in 0..random.between(1, 2) {
                let any = random.between(n, 255);
                list[random.pick(FEATURES)] = *random.choose(&[n, any]) as u8;
            }
        }
    }
    list
}

/// Gives a list another length than 64, in one of three ways: 63, 65 with a last entry
/// below the bound, or any.
pub(super) fn resize(random: &mut Xorshift, kind: usize, bound: usize, list: &mut Vec<u8>) {
    match kind {
        0 => list.truncate(FEATURES - 1),
        1 => list.push(random.pick(bound) as u8),
        _ => {
            let shorter = random.pick(FEATURES);
            let longer = random.between(FEATURES + 1, 3 * FEATURES);
            let length = *random.choose(&[shorter, longer]);
            list.resize(length, 0);
        }
    }
}

/// A list for given graphs. All graphs obey it; or, if there is such a list, one graph breaks
/// it and some of the others obey it. One list in eight is damaged.
pub fn any_list(random: &mut Xorshift, table: &Table, graphs: &[&Graph]) -> Vec<u8> {
    let mut obeying = graphs.to_vec();
    let breaking = obeying.remove(random.pick(graphs.len()));
    obeying.retain(|_| random.chance(3, 4));
    let broken = match random.chance(2, 3) {
        true => broken_list(random, table, &obeying, breaking),
        false => None,
    };
    let list = broken.unwrap_or_else(|| obeyed_list(random, table, graphs));
    match random.chance(1, 8) {
        true => damaged_list(random, table.n(), list),
        false => list,
    }
}

/// What a call on two graphs with a list takes.
#[derive(Clone, Debug, PartialEq, Eq)]
pub struct InputWithList {
    /// The table.
    pub table: TableBytes,
    /// The list.
    pub list: Vec<u8>,
    /// The first record and the second.
    pub records: [Vec<u8>; 2],
}

/// A whole input: mostly valid, sometimes damaged in any of its parts.
pub fn input_with_list(random: &mut Xorshift, ranges: Ranges) -> InputWithList {
    let table = match random.chance(1, 8) {
        true => damaged_table(random),
        false => valid_table(random),
    };
    // A table that is refused may state any n.
    let n = table.n.clamp(2, MOST_TYPES);
    let (list, mut records) = match Table::accept(table.n, &table.bytes) {
        Ok(accepted) => {
            let shape = match random.chance(1, 6) {
                true => Shape::any(random),
                false => Shape::small(random, 9, 4),
            };
            let shape = shape.ranged(random, ranges);
            let (first, second) = pair(random, &accepted, &shape);
            let list = any_list(random, &accepted, &[&first, &second]);
            let records = [first, second].map(|graph| record_of(random, &graph, ranges));
            (list, records)
        }
        Err(_) => {
            let list = (0..FEATURES).map(|_| random.pick(n) as u8).collect();
            let list = match random.chance(1, 2) {
                true => damaged_list(random, n, list),
                false => list,
            };
            (list, [0, 1].map(|_| valid_record(random, n, ranges)))
        }
    };
    for record in &mut records {
        if random.chance(1, 16) {
            *record = damaged_record(random, n, ranges);
        }
    }
    InputWithList {
        table,
        list,
        records,
    }
}

/// The list with the least entries that all these graphs obey: for each feature the join
/// of the types that have it.
fn least_list(table: &Table, graphs: &[&Graph]) -> [Type; FEATURES] {
    let mut list = [CONTRADICTION; FEATURES];
    for (node_type, feature) in graphs.iter().flat_map(|graph| typed_links(graph)) {
        let entry = &mut list[usize::from(feature)];
        *entry = table.join(*entry, node_type);
    }
    list
}

/// The links of a graph, each as the type of the node that it leaves and its feature.
fn typed_links(graph: &Graph) -> Vec<(Type, Feature)> {
    let links = graph.nodes.iter().flat_map(|node| {
        let typed = |&feature: &Feature| (node.label.node_type, feature);
        node.links.keys().map(typed)
    });
    links.collect()
}
