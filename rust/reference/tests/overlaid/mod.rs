//! A graph s below a graph g, as the paths of both. Tests use it to compare what a difference keeps
//! of s, and why, with the papers' sentences. It uses no code that computes the difference.

use reference::canonical::canonical;
use reference::difference::{Explained, Reason};
use reference::graph::{Graph, Link};
use reference::label::Label;
use reference::paths::{Path, paths};
use reference::random::{self, Ranges, Shape, Xorshift};
use reference::table::Table;
use std::collections::{BTreeMap, BTreeSet};

/// A graph s below a graph g, by the paths of both.
struct Overlaid<'a> {
    s: &'a Graph,
    g: &'a Graph,
    paths_of_s: BTreeMap<Path, usize>,
    paths_of_g: BTreeMap<Path, usize>,
}

impl<'a> Overlaid<'a> {
    fn new(s: &'a Graph, g: &'a Graph) -> Overlaid<'a> {
        let (paths_of_s, paths_of_g) = (paths(s), paths(g));
        Overlaid {
            s,
            g,
            paths_of_s,
            paths_of_g,
        }
    }

    /// The nodes of g that the paths over a link of s lead to: of the paths that lead to
    /// its source in s, followed by its feature, those that are paths of g.
    fn over(&self, link: Link) -> BTreeSet<usize> {
        let to_source = self.paths_of_s.iter().filter(|&(_, &x)| x == link.parent);
        to_source
            .map(|(path, _)| [path.as_slice(), &[link.feature]].concat())
            .filter_map(|path| self.paths_of_g.get(&path).copied())
            .collect()
    }

    /// The groups that the links that enter a node of s fall into: two are in one where
    /// paths of g over them share, closed transitively.
    fn groups(&self, node: usize) -> Vec<BTreeSet<Link>> {
        // Each group with the nodes of g that paths over its links lead to.
        let mut groups: Vec<(BTreeSet<Link>, BTreeSet<usize>)> = Vec::new();
        for &link in &self.s.incoming()[node] {
            let mut joined = (BTreeSet::from([link]), self.over(link));
            groups.retain(|(links, over)| {
                let apart = over.is_disjoint(&joined.1);
                if !apart {
                    joined.0.extend(links);
                    joined.1.extend(over);
                }
                apart
            });
            groups.push(joined);
        }
        groups.into_iter().map(|(links, _)| links).collect()
    }

    /// The wanted label of a node of s.
    fn wanted(&self, table: &Table, node: usize) -> Option<Label> {
        let labels_over = self
            .paths_of_g
            .iter()
            .filter(|&(path, _)| self.paths_of_s[path] == node)
            .map(|(_, &over)| self.g.nodes[over].label);
        let over = Label::meet_of(table, labels_over);
        Label::wanted(table, over, self.s.nodes[node].label)
    }

    /// These links of s and no others are kept: of each node other than the root, the
    /// least of each group or none, by document 01's sentence.
    fn assert_kept(
        &self,
        table: &Table,
        kept: &BTreeSet<Link>,
        key: impl Fn(Link) -> (usize, usize),
    ) {
        for (parent, node) in self.s.nodes.iter().enumerate().skip(1) {
            let groups = self.groups(parent);
            let alone = groups.len() == 1;
            let bare = || {
                groups
                    .iter()
                    .flatten()
                    .all(|&link| self.over(link).is_empty())
            };
            let wants = || self.wanted(table, parent) != Some(Label::top(table));
            let mut leaving = node.links.keys().map(|&feature| Link { parent, feature });
            let keeps = !alone || bare() || wants() || leaving.any(|link| kept.contains(&link));
            for group in &groups {
                let least = group.iter().copied().min_by_key(|&link| key(link));
                let expected: Vec<Link> = least.filter(|_| keeps).into_iter().collect();
                let found: Vec<Link> = group.intersection(kept).copied().collect();
                assert_eq!(found, expected, "{:?} {:?}", self.g, self.s);
            }
        }
    }
}

/// A table for the graphs of a round, of all kinds in turn, and what they are like: small,
/// and half of them with ranges.
pub fn table_and_shape(random: &mut Xorshift, round: usize) -> (Table, Shape) {
    let table = match round % 4 {
        0 => random::rival_table(random),
        _ => random::valid_table(random),
    };
    let ranges = [Ranges::Absent, Ranges::Present][round / 4 % 2];
    let shape = Shape::small(random, 8, 3).ranged(random, ranges);
    (table.accepted(), shape)
}

/// The links of a graph in record order.
pub fn links(graph: &Graph) -> Vec<Link> {
    let nodes = graph.nodes.iter().enumerate();
    let links = nodes.flat_map(|(parent, node)| {
        let features = node.links.keys();
        features.map(move |&feature| Link { parent, feature })
    });
    links.collect()
}

/// Holds the links that a difference keeps, and their reasons, against the paths of s and
/// g; links of s are ordered by a key. Gives each reason with whether the link's node wants
/// a label that is not top, and whether a kept link leaves its node.
pub fn facts_of_reasons(
    table: &Table,
    g: &Graph,
    s: &Graph,
    explained: &Explained,
    key: impl Fn(Link) -> (usize, usize),
) -> Vec<(Reason, bool, bool)> {
    // "Number s as written."
    let s = &canonical(s);
    let (rest, overlaid) = (&explained.graph, Overlaid::new(s, g));
    // Each path of the difference is one of s, so its nodes are nodes of s.
    let mut in_s = BTreeMap::new();
    for (path, node) in paths(rest) {
        let under = overlaid.paths_of_s[&path];
        assert_eq!(*in_s.entry(node).or_insert(under), under);
    }
    let kept = links(rest);
    assert_eq!(explained.reasons.len(), kept.len());
    let link_of_s = |link: &Link| Link {
        parent: in_s[&link.parent],
        feature: link.feature,
    };
    overlaid.assert_kept(table, &kept.iter().map(link_of_s).collect(), key);
    let facts = kept.iter().zip(&explained.reasons).map(|(link, &reason)| {
        let entered = rest.nodes[link.parent].links[&link.feature];
        let bare = overlaid.over(link_of_s(link)).is_empty();
        let groups = overlaid.groups(in_s[&entered]).len();
        let expected = match (bare, groups) {
            (true, _) => Reason::Bare,
            (false, 2..) => Reason::Groups,
            _ => Reason::Wanted,
        };
        assert_eq!(reason, expected, "{link:?} {g:?} {s:?}");
        let wanted = overlaid.wanted(table, in_s[&entered]);
        assert_eq!(wanted, Some(rest.nodes[entered].label));
        let says_something = wanted != Some(Label::top(table));
        let a_kept_link_leaves = !rest.nodes[entered].links.is_empty();
        let has_cause = says_something || a_kept_link_leaves;
        assert!(reason != Reason::Wanted || has_cause, "{g:?} {s:?}");
        (reason, says_something, a_kept_link_leaves)
    });
    facts.collect()
}
