//! The common part of two graphs: generalization, the join in the lattice of
//! graphs. Its paths are those in both graphs, each with the join of its two
//! types and the smallest range holding both, and two paths share exactly when
//! they share in both. A path whose node is top and unshared is kept too.

use crate::graph::{Graph, Node, ROOT};
use crate::table::Table;
use std::collections::BTreeMap;

/// The common part, of any size. It has a node for each pair of nodes that one path leads to.
///
/// A path in both graphs leads to a pair of nodes, one of each. Two paths share
/// in both exactly when they lead to the same pair, so the pairs are the classes
/// of sharing paths; and what follows a path depends on its pair alone.
pub fn generalize(table: &Table, first: &Graph, second: &Graph) -> Graph {
    let mut number = BTreeMap::from([((ROOT, ROOT), ROOT)]);
    let mut pairs = vec![(ROOT, ROOT)];
    let mut nodes = Vec::new();
    while nodes.len() < pairs.len() {
        let (u, v) = pairs[nodes.len()];
        let (u, v) = (&first.nodes[u], &second.nodes[v]);
        let mut links = BTreeMap::new();
        for (&feature, &left) in &u.links {
            if let Some(&right) = v.links.get(&feature) {
                let target = *number.entry((left, right)).or_insert_with(|| {
                    pairs.push((left, right));
                    pairs.len() - 1
                });
                links.insert(feature, target);
            }
        }
        nodes.push(Node {
            label: u.label.join(table, v.label),
            links,
        });
    }
    Graph { nodes }
}
