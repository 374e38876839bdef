//! The canonical form, which is document 01's written form: nodes are numbered by first
//! visit from the root, depth first, lowest feature first. Two graphs mean the same
//! exactly when their canonical forms are equal.

use crate::graph::{Graph, Node, ROOT};
use std::collections::BTreeMap;

/// The same graph with its nodes numbered as in the written record. Nodes that the root
/// does not reach are left out, for they are not visited.
pub fn canonical(graph: &Graph) -> Graph {
    let visits = Visits::of(graph);
    let renumbered = |old: &usize| {
        let node = &graph.nodes[*old];
        Node {
            label: node.label,
            links: node
                .links
                .iter()
                .map(|(&feature, target)| (feature, visits.number[target]))
                .collect(),
        }
    };
    Graph {
        nodes: visits.order.iter().map(renumbered).collect(),
    }
}

/// The nodes that the root reaches, in the order of first visit. The place of a node is
/// its number in the written record.
pub fn first_visits(graph: &Graph) -> Vec<usize> {
    Visits::of(graph).order
}

/// The nodes visited so far, in order, and the number each has got.
#[derive(Default)]
struct Visits {
    order: Vec<usize>,
    number: BTreeMap<usize, usize>,
}

impl Visits {
    /// All visits from the root.
    fn of(graph: &Graph) -> Visits {
        let mut visits = Visits::default();
        visits.visit(graph, ROOT);
        visits
    }

    /// Numbers a node and all that hangs below it, unless it has a number.
    /// In an acyclic graph of N nodes this goes at most N − 1 links down.
    fn visit(&mut self, graph: &Graph, node: usize) {
        if self.number.contains_key(&node) {
            return;
        }
        self.number.insert(node, self.order.len());
        self.order.push(node);
        for &target in graph.nodes[node].links.values() {
            self.visit(graph, target);
        }
    }
}
