//! Graphs in memory. A node has a label and links, and node 0 is the root. Nothing here
//! bounds the number of nodes or links, so these are also document 01's graphs of any
//! size. Helpers give the incoming links, the nodes that the root reaches, and an order of
//! the nodes in which each node stands after its targets. That order exists exactly when
//! no node reaches itself.

use crate::label::Label;
use std::collections::{BTreeMap, BTreeSet};

/// A feature, 0 to 63.
pub type Feature = u8;

/// The number of features.
pub const FEATURES: usize = 64;

/// The number of the root.
pub const ROOT: usize = 0;

/// A node: its label, and the target of each of its features.
#[derive(Clone, Debug, PartialEq, Eq, PartialOrd, Ord)]
pub struct Node {
    /// The type of the node and its range.
    pub label: Label,
    /// The links that leave the node.
    pub links: BTreeMap<Feature, usize>,
}

impl Node {
    /// A node with a label, or with a type and the full range, and these links.
    pub fn new(label: impl Into<Label>, links: impl IntoIterator<Item = (Feature, usize)>) -> Node {
        Node {
            label: label.into(),
            links: links.into_iter().collect(),
        }
    }
}

/// A link, named by where it leaves. The derived order is document 01's:
/// by parent number, then feature.
#[derive(Clone, Copy, Debug, PartialEq, Eq, PartialOrd, Ord)]
pub struct Link {
    /// The node the link leaves.
    pub parent: usize,
    /// Its feature.
    pub feature: Feature,
}

/// A graph; node 0 is the root.
#[derive(Clone, Debug, PartialEq, Eq, PartialOrd, Ord)]
pub struct Graph {
    /// The nodes in the order of their numbers.
    pub nodes: Vec<Node>,
}

impl Graph {
    /// A graph of one node without links.
    pub fn lone(label: impl Into<Label>) -> Graph {
        Graph {
            nodes: vec![Node::new(label, [])],
        }
    }

    /// How many links there are in all.
    pub fn link_count(&self) -> usize {
        self.nodes.iter().map(|node| node.links.len()).sum()
    }

    /// For each node the links that enter it, least first.
    pub fn incoming(&self) -> Vec<Vec<Link>> {
        let mut incoming = vec![Vec::new(); self.nodes.len()];
        for (parent, node) in self.nodes.iter().enumerate() {
            for (&feature, &target) in &node.links {
                incoming[target].push(Link { parent, feature });
            }
        }
        incoming
    }

    /// The nodes that the root reaches, with the root itself.
    pub fn reached(&self) -> BTreeSet<usize> {
        let mut reached = BTreeSet::new();
        let mut waiting = vec![ROOT];
        while let Some(node) = waiting.pop() {
            if reached.insert(node) {
                waiting.extend(self.nodes[node].links.values());
            }
        }
        reached
    }

    /// All nodes, each after all its targets; no list if some node reaches itself.
    ///
    /// A node is listed as soon as all its targets are listed. A node that reaches itself
    /// waits for itself and is never listed. If some nodes are never listed, each of them
    /// has a target among them, so a walk from target to target meets one of them twice.
    /// So all nodes are listed exactly when no node reaches itself.
    pub fn bottom_up(&self) -> Option<Vec<usize>> {
        let incoming = self.incoming();
        let mut unlisted_targets: Vec<usize> =
            self.nodes.iter().map(|node| node.links.len()).collect();
        let mut listed: Vec<usize> = (0..self.nodes.len())
            .filter(|&node| unlisted_targets[node] == 0)
            .collect();
        let mut done = 0;
        while done < listed.len() {
            for link in &incoming[listed[done]] {
                unlisted_targets[link.parent] -= 1;
                if unlisted_targets[link.parent] == 0 {
                    listed.push(link.parent);
                }
            }
            done += 1;
        }
        (listed.len() == self.nodes.len()).then_some(listed)
    }
}
