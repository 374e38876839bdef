//! The combination of two graphs: unification, the meet in the lattice of
//! graphs. Sharing is the smallest equivalence that holds the sharing of both
//! and passes down equal features; a class has the meet of all types in it and
//! the overlap of all ranges. A class that reaches itself is a loop (9), a class
//! of type 0 or without a level a clash (10).

use crate::graph::{Feature, Graph, Node, ROOT};
use crate::label::Label;
use crate::reply::Refusal;
use crate::table::Table;
use std::collections::BTreeMap;

/// The combination, of any size. A loop (9) is refused before a clash (10).
pub fn unify(table: &Table, first: &Graph, second: &Graph) -> Result<Graph, Refusal> {
    let combined = quotient(table, first, second);
    if combined.bottom_up().is_none() {
        return Err(Refusal::Cycle);
    }
    if combined
        .nodes
        .iter()
        .any(|node| node.label.is_contradiction())
    {
        return Err(Refusal::Clash);
    }
    Ok(combined)
}

/// The graph of the classes. It may have loops and clashes.
///
/// The paper's classes are of paths. A path of either graph leads to a node of
/// it, and paths leading to one node are in one class, so classes of the nodes of
/// both graphs say the same: both roots are in one class (the empty path), and
/// where two nodes are in one class so are their targets by an equal feature.
/// Every node is reached from its root, so every class is one of paths.
fn quotient(table: &Table, first: &Graph, second: &Graph) -> Graph {
    let mut classes = Classes::apart(first, second);
    let mut to_merge = vec![(ROOT, first.nodes.len() + ROOT)];
    while let Some((a, b)) = to_merge.pop() {
        to_merge.extend(classes.merge(table, a, b));
    }
    classes.graph()
}

/// A class of nodes: its members, the meet of their labels, and for each feature
/// one of the targets, all of which are in one class or about to be merged.
struct Class {
    members: Vec<usize>,
    meet: Label,
    links: BTreeMap<Feature, usize>,
}

/// The nodes of both graphs in classes. The numbers of the second graph's nodes follow
/// those of the first.
struct Classes {
    /// The class of each node.
    class_of: Vec<usize>,
    /// The classes. The number of a class is that of its least member.
    standing: BTreeMap<usize, Class>,
}

impl Classes {
    /// Every node in a class of its own.
    fn apart(first: &Graph, second: &Graph) -> Classes {
        let mut standing = BTreeMap::new();
        for (graph, offset) in [(first, 0), (second, first.nodes.len())] {
            for (place, node) in graph.nodes.iter().enumerate() {
                let class = Class {
                    members: vec![offset + place],
                    meet: node.label,
                    links: node
                        .links
                        .iter()
                        .map(|(&feature, &target)| (feature, offset + target))
                        .collect(),
                };
                standing.insert(offset + place, class);
            }
        }
        Classes {
            class_of: (0..standing.len()).collect(),
            standing,
        }
    }

    /// Puts two nodes into one class. Gives the pairs of nodes that have to share because
    /// these two share: their targets by equal features.
    fn merge(&mut self, table: &Table, a: usize, b: usize) -> Vec<(usize, usize)> {
        let kept = self.class_of[a].min(self.class_of[b]);
        let gone = self.class_of[a].max(self.class_of[b]);
        if kept == gone {
            return Vec::new();
        }
        let merged = self.standing.remove(&gone).expect("a standing class");
        let class = self.standing.get_mut(&kept).expect("a standing class");
        for &member in &merged.members {
            self.class_of[member] = kept;
        }
        class.members.extend(merged.members);
        class.meet = class.meet.meet(table, merged.meet);
        let mut passed_down = Vec::new();
        for (feature, target) in merged.links {
            let present = *class.links.entry(feature).or_insert(target);
            passed_down.push((present, target));
        }
        passed_down
    }

    /// The classes as the nodes of a graph. The class of the roots has node 0
    /// for its least member, so it comes first and is the root.
    fn graph(&self) -> Graph {
        let number: BTreeMap<usize, usize> = self.standing.keys().copied().zip(0..).collect();
        let node = |class: &Class| Node {
            label: class.meet,
            links: class
                .links
                .iter()
                .map(|(&feature, &target)| (feature, number[&self.class_of[target]]))
                .collect(),
        };
        Graph {
            nodes: self.standing.values().map(node).collect(),
        }
    }
}
