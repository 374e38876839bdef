//! All small graphs in order (Paper 14): "over a table, a number of features F of 1 or 2, and
//! at most 3 nodes, list all written records without ranges that use features below F, in the
//! order of their bytes". The code makes all of them and sorts them.

use crate::canonical::canonical;
use crate::graph::{Feature, Graph, Node};
use crate::record;
use crate::table::{MOST_TYPES, Table, Type};
use std::sync::OnceLock;

/// A listed graph has at most this many nodes.
const MOST_LISTED: usize = 3;

/// "F of 1 or 2".
const MOST_FEATURES: usize = 2;

/// The list for each number of types and of features. It does not depend on the order of the
/// types. Each list is made once.
static LISTINGS: [[OnceLock<Listing>; MOST_FEATURES]; MOST_TYPES + 1] =
    [const { [const { OnceLock::new() }; MOST_FEATURES] }; MOST_TYPES + 1];

/// The listed records, in order.
pub struct Listing {
    records: Vec<Box<[u8]>>,
}

impl Listing {
    /// The list over a table and a number of features; none if the number is not 1 or 2.
    pub fn of(table: &Table, features: usize) -> Option<&'static Listing> {
        let by_features = &LISTINGS[table.n()];
        let listing = by_features.get(features.checked_sub(1)?)?;
        Some(listing.get_or_init(|| Listing::made(table.n(), features)))
    }

    fn made(n: usize, features: usize) -> Listing {
        let types: Vec<Type> = (1..n as Type).collect();
        let mut records = Vec::new();
        for count in 1..=MOST_LISTED {
            let all_types = all_choices(&types, count);
            for links in written_links(count, features) {
                for types in &all_types {
                    let record = record::write(&graph(types, &links));
                    records.push(record.into_boxed_slice());
                }
            }
        }
        records.sort_unstable();
        Listing { records }
    }

    /// The records, in order.
    pub fn records(&self) -> impl ExactSizeIterator<Item = &[u8]> {
        self.records.iter().map(|record| &**record)
    }

    /// Whether bytes are a listed record.
    pub fn has(&self, bytes: &[u8]) -> bool {
        let found = self
            .records
            .binary_search_by(|record| (**record).cmp(bytes));
        found.is_ok()
    }

    /// The first listed record after the given bytes. No bytes come before all records.
    pub fn after(&self, bytes: &[u8]) -> Option<&[u8]> {
        let place = self.records.partition_point(|record| **record <= *bytes);
        self.records.get(place).map(|record| &**record)
    }
}

/// For each node and feature the target, if there is a link.
type Links = Vec<Option<usize>>;

/// The links of all graphs with this number of nodes that are in written form: no node reaches
/// itself, the root reaches all nodes, and nodes are numbered by first visit. Types do not
/// matter here.
fn written_links(count: usize, features: usize) -> Vec<Links> {
    let mut targets: Vec<Option<usize>> = (0..count).map(Some).collect();
    targets.push(None);
    let mut all = all_choices(&targets, count * features);
    all.retain(|links| {
        let graph = graph(&vec![1; count], links);
        graph.bottom_up().is_some() && canonical(&graph) == graph
    });
    all
}

/// The graph of these types and links.
fn graph(types: &[Type], links: &[Option<usize>]) -> Graph {
    let features = links.len() / types.len();
    let nodes = types.iter().zip(links.chunks(features));
    let nodes = nodes.map(|(&node_type, targets)| {
        let links = (0..).zip(targets);
        let links = links.filter_map(|(feature, target)| Some((feature as Feature, (*target)?)));
        Node::new(node_type, links)
    });
    Graph {
        nodes: nodes.collect(),
    }
}

/// Every way to choose one of the options for each of the places.
fn all_choices<T: Copy>(options: &[T], places: usize) -> Vec<Vec<T>> {
    (0..places).fold(vec![Vec::new()], |begun, _| {
        let longer = begun.iter().flat_map(|chosen| {
            let with = |&option: &T| [&chosen[..], &[option]].concat();
            options.iter().map(with).collect::<Vec<_>>()
        });
        longer.collect()
    })
}

#[cfg(test)]
mod tests {
    use super::*;
    use crate::notation;
    use crate::random::{chain, diamond};

    fn listed(table: &Table, features: usize) -> Vec<Vec<u8>> {
        let listing = Listing::of(table, features).expect("1 or 2 features");
        listing.records().map(<[u8]>::to_vec).collect()
    }

    /// "Over a two-type table with F of 1 the list has three records: chains of one, two
    /// and three nodes."
    #[test]
    fn three_chains_over_two_types() {
        let chains = ["1", "1[0: 1]", "1[0: 1[0: 1]]"];
        let chains = chains.map(|text| record::write(&notation::graph(2, text)));
        assert_eq!(listed(&chain(2).accepted(), 1), chains);
    }

    /// Of k types that are not 0: chains of up to three nodes with one feature; with two
    /// also three ways to lead to a second node, and sixteen to lead to three nodes.
    #[test]
    fn how_many_there_are() {
        for k in 1..=4 {
            let table = chain(k + 1).accepted();
            assert_eq!(listed(&table, 1).len(), k + k * k + k * k * k);
            assert_eq!(listed(&table, 2).len(), k + 3 * k * k + 16 * k * k * k);
        }
    }

    #[test]
    fn each_is_read_and_written_as_it_is_and_comes_after_the_one_before() {
        let table = diamond().accepted();
        for features in [1, 2] {
            let records = listed(&table, features);
            for bytes in &records {
                let graph = record::read(&table, bytes).expect("a listed record is read");
                assert_eq!(record::write(&canonical(&graph)), *bytes);
            }
            assert!(records.windows(2).all(|pair| pair[0] < pair[1]));
            let listing = Listing::of(&table, features).expect("1 or 2 features");
            assert_eq!(listing.after(&[]), records.first().map(|first| &**first));
            let last = records.last().expect("a record");
            assert!(listing.has(last) && listing.after(last).is_none());
        }
        assert!(Listing::of(&table, 0).is_none() && Listing::of(&table, 3).is_none());
    }
}
