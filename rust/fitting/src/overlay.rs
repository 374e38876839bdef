//! How a general graph lies over a specific one, for messages and pictures. Either each path of the
//! general graph leads to a node of the specific one, or something keeps the general graph from
//! being above. Whether one record is below another is the engine's answer.

use crate::graph::Graph;
use crate::table::Table;
use std::collections::VecDeque;

/// An accepted graph, and the name that messages give it.
#[derive(Clone, Copy)]
pub struct Named<'a> {
    pub graph: &'a Graph,
    pub name: &'a str,
}

/// For each node of the general graph, the node of the specific one that it lies over. If the
/// general graph is not above, it is the first reason why, on a shortest path.
pub fn image(table: &Table, general: Named, specific: Named) -> Result<Vec<usize>, String> {
    let (above, below) = (general.name, specific.name);
    let mut images: Vec<Option<(usize, Vec<u8>)>> = vec![None; general.graph.nodes.len()];
    images[0] = Some((0, Vec::new()));
    let mut waiting = VecDeque::from([0]);
    while let Some(over) = waiting.pop_front() {
        let (under, path) = images[over].clone().expect("a node that waits is met");
        let (g, s) = (&general.graph.nodes[over], &specific.graph.nodes[under]);
        let place = table.path(&path);
        if !table.below(s.node_type, g.node_type) {
            let [g, s] = [g, s].map(|node| table.type_shown(node.node_type));
            return Err(format!(
                "at {place}, type {s} of {below} is not below type {g} of {above}"
            ));
        }
        if g.levels.overlap(s.levels) != s.levels {
            return Err(format!(
                "at {place}, levels {} of {below} are not inside levels {} of {above}",
                s.levels, g.levels
            ));
        }
        for link in &g.links {
            let path = [&path[..], &[link.feature]].concat();
            let place = table.path(&path);
            let Some(target) = s.target(link.feature) else {
                return Err(format!("{place} of {above} is missing in {below}"));
            };
            match &images[link.target] {
                Some((met, _)) if *met == target => {}
                Some((_, first)) => {
                    let first = table.path(first);
                    return Err(format!(
                        "{first} and {place} share in {above} and not in {below}"
                    ));
                }
                None => {
                    images[link.target] = Some((target, path));
                    waiting.push_back(link.target);
                }
            }
        }
    }
    let images = images.into_iter().flatten();
    Ok(images.map(|(under, _)| under).collect())
}
