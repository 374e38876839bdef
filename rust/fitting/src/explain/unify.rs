//! The classes of nodes of a combination, with loops and clashes, to tell why there is no
//! combination. The combination itself is the engine's answer.

use crate::graph::{Graph, Link, Node};
use crate::table::Table;
use std::collections::BTreeMap;

/// The classes as the nodes of a graph that may loop and clash. Class 0 has all roots.
pub struct Combination {
    pub graph: Graph,
    /// For each class its nodes. A node is the place of its graph among the graphs, and its number in
    /// that graph.
    pub members: Vec<Vec<(usize, usize)>>,
}

/// Merges all roots, and the targets of merged nodes by equal features.
pub fn unify(table: &Table, graphs: &[Graph]) -> Combination {
    // Where the nodes of each graph begin among all.
    let mut begins = Vec::new();
    let mut all = Vec::new();
    for (side, graph) in graphs.iter().enumerate() {
        begins.push(all.len());
        all.extend((0..graph.nodes.len()).map(|node| (side, node)));
    }
    let mut classes = Classes {
        leader: (0..all.len()).collect(),
        links: Vec::new(),
    };
    for &(side, node) in &all {
        let links = graphs[side].nodes[node].links.iter();
        let place = |link: &Link| (link.feature, link.target + begins[side]);
        classes.links.push(links.map(place).collect());
    }
    for &root in &begins {
        classes.merge(0, root);
    }
    // Classes by number, the roots' first.
    let mut numbers = BTreeMap::new();
    let mut members: Vec<Vec<(usize, usize)>> = Vec::new();
    for (place, &member) in all.iter().enumerate() {
        let number = *numbers.entry(classes.leader_of(place)).or_insert_with(|| {
            members.push(Vec::new());
            members.len() - 1
        });
        members[number].push(member);
    }
    let mut nodes: Vec<Node> = Vec::new();
    for class in &members {
        let labels = class.iter().map(|&(side, node)| &graphs[side].nodes[node]);
        let label = labels.cloned().reduce(|a, b| Node {
            node_type: table.meet(a.node_type, b.node_type),
            levels: a.levels.overlap(b.levels),
            links: Vec::new(),
        });
        nodes.push(label.expect("a class has a member"));
    }
    for (leader, &number) in &numbers {
        let link = |(&feature, &target): (&u8, &usize)| Link {
            feature,
            target: numbers[&classes.leader_of(target)],
        };
        nodes[number].links = classes.links[*leader].iter().map(link).collect();
    }
    Combination {
        graph: Graph { nodes },
        members,
    }
}

/// Nodes in classes. The leader of a node is the node itself or an earlier node of its class.
struct Classes {
    leader: Vec<usize>,
    /// The links of a class stand at its leader.
    links: Vec<BTreeMap<u8, usize>>,
}

impl Classes {
    fn leader_of(&self, mut place: usize) -> usize {
        while self.leader[place] != place {
            place = self.leader[place];
        }
        place
    }

    fn merge(&mut self, a: usize, b: usize) {
        let mut waiting = vec![(a, b)];
        while let Some((a, b)) = waiting.pop() {
            let (a, b) = (self.leader_of(a), self.leader_of(b));
            let (kept, gone) = (a.min(b), a.max(b));
            if kept == gone {
                continue;
            }
            self.leader[gone] = kept;
            for (feature, target) in std::mem::take(&mut self.links[gone]) {
                let other = *self.links[kept].entry(feature).or_insert(target);
                waiting.push((other, target));
            }
        }
    }
}
