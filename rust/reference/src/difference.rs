//! The difference of two graphs g and s, for s below g: the most general graph whose
//! combination with g is s. It is a part of s with wanted types and ranges. The code
//! follows document 01's rules word for word: groups of incoming links, wanted labels,
//! kept links. It refuses by 12, then by 13 if a node of s, kept or not, has no wanted
//! type (Paper 6). Each kept link has a reason (Paper 13). A reading order may decide
//! which link of a group is the least (Paper 10).

use crate::canonical::{canonical, first_visits};
use crate::graph::{Graph, Link, Node, ROOT};
use crate::label::Label;
use crate::link_order::LinkOrder;
use crate::order::{Morphism, subsumption};
use crate::reply::Refusal;
use crate::table::Table;
use std::collections::{BTreeMap, BTreeSet};

/// Why a difference keeps a link.
#[derive(Clone, Copy, Debug, PartialEq, Eq, PartialOrd, Ord)]
pub enum Reason {
    /// 1: "nothing of the general graph lies over the link".
    Bare,
    /// 2: "else", where "the node it enters has two or more groups".
    Groups,
    /// 3: "else", "kept for a wanted type or range or for what hangs below".
    Wanted,
}

impl Reason {
    /// All three.
    pub const ALL: [Reason; 3] = [Reason::Bare, Reason::Groups, Reason::Wanted];

    /// The byte that stands beside the link.
    pub fn byte(self) -> u8 {
        match self {
            Reason::Bare => 1,
            Reason::Groups => 2,
            Reason::Wanted => 3,
        }
    }
}

/// A difference with its reasons.
#[derive(Clone, Debug, PartialEq, Eq)]
pub struct Explained {
    /// The difference, in canonical form.
    pub graph: Graph,
    /// A reason for each of its links "in record order": by the number of the parent
    /// in the difference, then by feature.
    pub reasons: Vec<Reason>,
}

/// The difference of s from g.
pub fn difference(table: &Table, g: &Graph, s: &Graph) -> Result<Graph, Refusal> {
    difference_explained(table, g, s).map(|explained| explained.graph)
}

/// The difference of s from g, and why it keeps each of its links.
pub fn difference_explained(table: &Table, g: &Graph, s: &Graph) -> Result<Explained, Refusal> {
    difference_by(&LinkOrder::ByParent, table, g, s)
}

/// The difference of s from g, with its reasons, that keeps the least links by an order.
pub fn difference_by(
    order: &LinkOrder,
    table: &Table,
    g: &Graph,
    s: &Graph,
) -> Result<Explained, Refusal> {
    // "Number s as written." Written numbering does not follow a list.
    let s = canonical(s);
    let Some(morphism) = subsumption(table, g, &s) else {
        return Err(Refusal::NotBelow);
    };
    let overlay = Overlay::new(g, &s, &morphism);
    let wanted: Vec<Label> = (0..s.nodes.len())
        .map(|node| overlay.wanted_label(table, node))
        .collect::<Option<_>>()
        .ok_or(Refusal::NoWantedType)?;
    let kept = overlay.kept_links(order, table, &wanted);
    // Kept nodes carry their wanted types and ranges. A node that a kept link leaves
    // is the root or is itself entered by a kept link, by the last condition for one
    // group. So the kept nodes are those the root reaches by kept links, and the
    // canonical form leaves out the others.
    let nodes = s.nodes.iter().enumerate().map(|(parent, node)| Node {
        label: wanted[parent],
        links: node
            .links
            .iter()
            .map(|(&feature, &target)| (feature, target))
            .filter(|&(feature, _)| kept.contains_key(&Link { parent, feature }))
            .collect(),
    });
    let part = Graph {
        nodes: nodes.collect(),
    };
    // The difference numbers its nodes by its own visits: s may have other numbers.
    let reasons = first_visits(&part).into_iter().flat_map(|parent| {
        let features = part.nodes[parent].links.keys();
        features.map(move |&feature| Link { parent, feature })
    });
    Ok(Explained {
        reasons: reasons.map(|link| kept[&link]).collect(),
        graph: canonical(&part),
    })
}

/// The graph s, and for its nodes and links what of g lies over them.
struct Overlay<'a> {
    g: &'a Graph,
    s: &'a Graph,
    /// For each node of s the nodes of g over it.
    nodes_over: Vec<Vec<usize>>,
    /// For each node of g the links of s under the links of g that enter it.
    links_under: Vec<BTreeSet<Link>>,
    /// The links of s that some link of g lies over.
    covered: BTreeSet<Link>,
}

impl<'a> Overlay<'a> {
    fn new(g: &'a Graph, s: &'a Graph, morphism: &Morphism) -> Overlay<'a> {
        let mut nodes_over = vec![Vec::new(); s.nodes.len()];
        for (over, &node) in morphism.image.iter().enumerate() {
            nodes_over[node].push(over);
        }
        // A link of g lies over the link of s with the same feature that leaves
        // the node its own parent lies over.
        let link_under = |link: &Link| Link {
            parent: morphism.image[link.parent],
            feature: link.feature,
        };
        let links_under: Vec<BTreeSet<Link>> = g
            .incoming()
            .iter()
            .map(|links| links.iter().map(link_under).collect())
            .collect();
        Overlay {
            g,
            s,
            nodes_over,
            covered: links_under.iter().flatten().copied().collect(),
            links_under,
        }
    }

    /// The greatest type whose meet with the meet of all g types over the node
    /// (top if none) equals the type in s, if there is a greatest; and the widest
    /// range whose overlap with that of all g ranges over the node (full if none)
    /// equals the range in s.
    fn wanted_label(&self, table: &Table, node: usize) -> Option<Label> {
        let labels_over = self.nodes_over[node]
            .iter()
            .map(|&over| self.g.nodes[over].label);
        let over = Label::meet_of(table, labels_over);
        Label::wanted(table, over, self.s.nodes[node].label)
    }

    /// The groups of the links that enter a node other than the root. Two are in
    /// one group when two links of g that enter one node of g lie over them,
    /// closed transitively; a link with nothing of g over it stays alone.
    fn groups(&self, node: usize, incoming: &[Link]) -> Vec<BTreeSet<Link>> {
        let mut groups: Vec<BTreeSet<Link>> = incoming
            .iter()
            .map(|&link| BTreeSet::from([link]))
            .collect();
        for &over in &self.nodes_over[node] {
            let together = &self.links_under[over];
            let (joined, others): (Vec<_>, Vec<_>) = groups
                .into_iter()
                .partition(|group| !group.is_disjoint(together));
            groups = others;
            groups.push(joined.into_iter().flatten().collect());
        }
        groups
    }

    /// Why a link is kept, given the number of groups of the node that it enters.
    fn reason(&self, link: Link, groups: usize) -> Reason {
        if !self.covered.contains(&link) {
            Reason::Bare
        } else if groups >= 2 {
            Reason::Groups
        } else {
            Reason::Wanted
        }
    }

    /// The links of s that the difference keeps, and why. Nodes are taken after all
    /// their targets, so which links leaving a node are kept is settled before it.
    fn kept_links(
        &self,
        order: &LinkOrder,
        table: &Table,
        wanted: &[Label],
    ) -> BTreeMap<Link, Reason> {
        let incoming = self.s.incoming();
        let mut kept = BTreeMap::new();
        for node in self.s.bottom_up().expect("an acyclic graph") {
            if node == ROOT {
                continue;
            }
            let groups = self.groups(node, &incoming[node]);
            let keeps = match groups.as_slice() {
                [group] => {
                    let nothing_over = group.is_disjoint(&self.covered);
                    let a_leaving_link_is_kept = self.s.nodes[node].links.keys().any(|&feature| {
                        kept.contains_key(&Link {
                            parent: node,
                            feature,
                        })
                    });
                    // The wanted type is not top, or the wanted range is not full.
                    let something_wanted = wanted[node] != Label::top(table);
                    nothing_over || something_wanted || a_leaving_link_is_kept
                }
                _ => true,
            };
            if keeps {
                let least_links = groups.iter().filter_map(|group| order.least(group));
                kept.extend(least_links.map(|link| (link, self.reason(link, groups.len()))));
            }
        }
        kept
    }
}
