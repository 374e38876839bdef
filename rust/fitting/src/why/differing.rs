//! Finds all of a specific graph that a general graph does not give. It is told if the engine gives
//! no difference because no difference is the most general.

use super::{Kept, Said, bare, laid, over};
use crate::graph::Graph;
use crate::table::Table;
use record_engine::Reason;
use std::collections::{BTreeMap, BTreeSet};

/// A link, by parent and feature.
type Place = (usize, u8);

/// All that differs, each link with its reason. A difference would keep a part of it.
pub fn differing(table: &Table, general: &Graph, specific: &Graph) -> Kept {
    let over = over(table, general, specific);
    let said = |node: usize| {
        let (own, over) = (bare(&specific.nodes[node]), &over[node]);
        (own != *over).then(|| Said {
            over: over.clone(),
            added: own.clone(),
            own,
        })
    };
    let groups = Groups::new(table, general, specific);
    let mut kept = Kept {
        links: BTreeMap::new(),
        nodes: BTreeMap::from([(0, said(0))]),
    };
    for (parent, node) in specific.nodes.iter().enumerate() {
        for link in &node.links {
            let said = said(link.target);
            let reason = if !groups.is_covered((parent, link.feature)) {
                Reason::Bare
            } else if groups.count(link.target) > 1 {
                Reason::Groups
            } else if said.is_some() {
                Reason::Wanted
            } else {
                continue;
            };
            kept.links.insert((parent, link.feature), reason);
            kept.nodes.insert(link.target, said);
        }
    }
    kept
}

/// The links of a specific graph in groups. Links that enter one node are in one group if the
/// general graph leads them to one node too.
struct Groups {
    /// The group of each link that something of the general graph lies over.
    covered: BTreeMap<Place, usize>,
    /// For each node the groups of the links that enter it.
    entering: Vec<BTreeSet<usize>>,
}

impl Groups {
    fn new(table: &Table, general: &Graph, specific: &Graph) -> Groups {
        let image = laid(table, general, specific);
        // A group goes by a node of the general graph that its links lead to.
        let mut covered: BTreeMap<Place, usize> = BTreeMap::new();
        let mut groups: Vec<usize> = (0..general.nodes.len()).collect();
        for (parent, node) in general.nodes.iter().enumerate() {
            for link in &node.links {
                let place = (image[parent], link.feature);
                let before = *covered.entry(place).or_insert(link.target);
                // A link of which two lead to other nodes joins their groups.
                let [kept, gone] = [before, link.target].map(|node| groups[node]);
                for group in groups.iter_mut().filter(|group| **group == gone) {
                    *group = kept;
                }
            }
        }
        for group in covered.values_mut() {
            *group = groups[*group];
        }
        let mut entering = vec![BTreeSet::new(); specific.nodes.len()];
        let mut alone = general.nodes.len();
        for (parent, node) in specific.nodes.iter().enumerate() {
            for link in &node.links {
                let group = covered.get(&(parent, link.feature)).copied();
                entering[link.target].insert(group.unwrap_or(alone));
                alone += 1;
            }
        }
        Groups { covered, entering }
    }

    /// Whether something of the general graph lies over a link.
    fn is_covered(&self, place: Place) -> bool {
        self.covered.contains_key(&place)
    }

    /// In how many groups the links are that enter a node.
    fn count(&self, node: usize) -> usize {
        self.entering[node].len()
    }
}

#[cfg(test)]
mod tests {
    use super::*;
    use crate::engine;
    use crate::why::{kept, word};
    use reference::random::{self, Ranges, Shape, Xorshift};
    use reference::record;

    /// What a difference keeps is among all that differs, for the same reasons, and of what
    /// differs by itself the difference keeps a link to each node.
    #[test]
    fn a_difference_keeps_some_of_what_differs() {
        let mut random = Xorshift::stored(39);
        let mut met: BTreeMap<&str, usize> = BTreeMap::new();
        for round in 0..3_000 {
            let bytes = random::valid_table(&mut random);
            let table = Table::from_bytes(&bytes.bytes);
            let shape = match round % 2 {
                0 => Shape::shared(&mut random),
                _ => Shape::small(&mut random, 8, 3),
            };
            let shape = shape.ranged(&mut random, Ranges::Present);
            let specific = random::graph(&mut random, table.n, &shape);
            let general = random::graph_above(&mut random, &bytes.accepted(), &specific);
            let [general, specific] = [general, specific].map(|graph| {
                let written = engine::rewrite(&table, &record::write(&graph));
                written.expect("an accepted record")
            });
            let Ok((difference, reasons)) = engine::explain(&table, None, &general, &specific)
            else {
                continue;
            };
            let [general, specific, difference] =
                [general, specific, difference].map(|record| Graph::of_written(&record));
            let all = differing(&table, &general, &specific);
            let kept = kept(&table, &general, &specific, &difference, &reasons);
            for (link, &reason) in &kept.links {
                let target = specific.nodes[link.0].target(link.1).expect("a link");
                let is_said = kept.nodes[&target].is_some();
                if reason != Reason::Wanted || is_said {
                    assert_eq!(all.links.get(link), Some(&reason));
                    *met.entry(word(reason)).or_default() += 1;
                }
            }
            for (node, said) in &kept.nodes {
                assert!(said.is_none() || all.nodes[node].is_some());
            }
            for &(parent, feature) in all.links.keys() {
                let target = specific.nodes[parent].target(feature).expect("a link");
                assert!(kept.nodes.contains_key(&target));
            }
        }
        let enough = met.len() == 3 && met.values().all(|&count| count > 500);
        assert!(enough || !random::is_stored(), "{met:?}");
    }
}
