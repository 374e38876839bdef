//! Why a difference keeps its links. This module finds the links of the difference in the specific
//! graph, and gives the engine's reasons in words and for a picture.

mod differing;

use crate::explain::listed;
use crate::graph::{Graph, Levels, Node};
use crate::json::{self, Json};
use crate::overlay::{Named, image};
use crate::table::Table;
pub use differing::differing;
use record_engine::Reason;
use std::collections::BTreeMap;

/// What a difference keeps of a specific graph.
pub struct Kept {
    /// The kept links of the specific graph, by parent and feature.
    pub links: BTreeMap<(usize, u8), Reason>,
    /// For each kept node of the specific graph, what the difference says there, if anything.
    pub nodes: BTreeMap<usize, Option<Said>>,
}

/// What a difference says at a node. The three nodes have no links.
#[derive(Clone, Debug, PartialEq, Eq)]
pub struct Said {
    /// What the general graph says there: all of it that lies over the node.
    pub over: Node,
    /// What the specific graph says there.
    pub own: Node,
    /// What the difference says there.
    pub added: Node,
}

impl Said {
    /// What the difference does here, over a general graph of this name.
    fn words(&self, table: &Table, general: &str) -> String {
        match self.added.levels {
            Levels::FULL => format!("adds {} to what {general} gives", label(table, &self.added)),
            _ => format!(
                "{} becomes {}",
                label(table, &self.over),
                self.becomes(table)
            ),
        }
    }

    /// What is new at the node: only the levels, if the type is the same.
    fn becomes(&self, table: &Table) -> String {
        match self.over.node_type == self.own.node_type && self.over.levels != Levels::FULL {
            true => self.own.levels.to_string(),
            false => label(table, &self.own),
        }
    }
}

/// The type of a node and, if its range is not full, its levels, as messages show them.
pub fn label(table: &Table, node: &Node) -> String {
    let name = table.type_shown(node.node_type);
    match node.levels {
        Levels::FULL => name,
        levels => format!("{name}{levels}"),
    }
}

/// Finds the links of a difference in the specific graph. Each link has a reason.
pub fn kept(
    table: &Table,
    general: &Graph,
    specific: &Graph,
    difference: &Graph,
    reasons: &[Reason],
) -> Kept {
    let over = over(table, general, specific);
    let mut reasons = reasons.iter();
    let mut kept = Kept {
        links: BTreeMap::new(),
        nodes: BTreeMap::new(),
    };
    for (node, under) in difference
        .nodes
        .iter()
        .zip(laid(table, difference, specific))
    {
        let said = (!table.says_nothing(node)).then(|| Said {
            over: over[under].clone(),
            own: bare(&specific.nodes[under]),
            added: bare(node),
        });
        kept.nodes.insert(under, said);
        for link in &node.links {
            let reason = *reasons.next().expect("a reason for each link");
            kept.links.insert((under, link.feature), reason);
        }
    }
    kept
}

/// For each node of a general graph the node of the specific one that it lies over.
fn laid(table: &Table, general: &Graph, specific: &Graph) -> Vec<usize> {
    let [upper, lower] = [general, specific].map(|graph| Named { graph, name: "" });
    image(table, upper, lower).expect("the general graph is above")
}

/// For each node of a specific graph, what a general graph says there: the meet of the types and the
/// overlap of the levels that lie over the node.
fn over(table: &Table, general: &Graph, specific: &Graph) -> Vec<Node> {
    let nothing = Node {
        node_type: table.top(),
        levels: Levels::FULL,
        links: Vec::new(),
    };
    let mut over = vec![nothing; specific.nodes.len()];
    for (node, under) in general.nodes.iter().zip(laid(table, general, specific)) {
        let here = &mut over[under];
        here.node_type = table.meet(here.node_type, node.node_type);
        here.levels = here.levels.overlap(node.levels);
    }
    over
}

/// A node without its links.
fn bare(node: &Node) -> Node {
    Node {
        links: Vec::new(),
        ..node.clone()
    }
}

/// A reason in a word.
pub fn word(reason: Reason) -> &'static str {
    match reason {
        Reason::Bare => "new",
        Reason::Groups => "apart",
        Reason::Wanted => "more",
    }
}

/// What the word of a reason means, over a general graph of this name.
pub fn meaning(reason: Reason, general: &str) -> String {
    match reason {
        Reason::Bare => format!("{general} has no such link"),
        Reason::Groups => format!("{general} does not join all links to the node"),
        Reason::Wanted => format!("leads to what {general} does not give"),
    }
}

/// A kept part of the specific graph: where it is, why it is kept, and what is said there.
pub struct Line {
    pub path: Vec<u8>,
    pub reason: Reason,
    /// What the difference says at the node there, if it says anything.
    pub said: Option<Said>,
    pub words: String,
}

/// How a message names the general graph.
#[derive(Clone, Copy)]
pub enum General<'a> {
    /// One with a name.
    Named(&'a str),
    /// What the specific graph and another, of this name, have in common.
    CommonWith(&'a str),
    /// What the specific graph and several others have in common.
    CommonWithAll,
}

impl General<'_> {
    /// Why a link is kept, in words. `others` are other paths that lead to its node.
    fn words(
        self,
        table: &Table,
        reason: Reason,
        said: Option<&Said>,
        others: &[Vec<u8>],
    ) -> String {
        let (who, lacks, splits) = match self {
            General::Named(general) => return named(table, general, reason, said),
            General::CommonWith(other) => (
                "both",
                meaning(Reason::Bare, other),
                format!("not so in {other}"),
            ),
            General::CommonWithAll => (
                "all",
                "not all have such a link".to_string(),
                "not so in all".to_string(),
            ),
        };
        let there = |said: &Said| {
            let [own, over] = [&said.own, &said.over].map(|node| label(table, node));
            format!("{own}, where {who} say {over}")
        };
        let others: Vec<String> = others.iter().map(|path| table.path(path)).collect();
        let joined = match others.is_empty() {
            true => None,
            false => Some(format!("one node with {}", listed(&others))),
        };
        match (reason, joined, said) {
            (Reason::Wanted, _, Some(said)) => there(said),
            (Reason::Wanted, _, None) => "for what is kept below it".to_string(),
            (Reason::Groups, joined, said) => {
                let joined = joined.unwrap_or_default();
                let said = said.map_or(String::new(), |said| format!("; {}", there(said)));
                format!("{joined}, {splits}{said}")
            }
            (Reason::Bare, joined, said) => {
                let own = said.map(|said| label(table, &said.own));
                let what: Vec<String> = own.into_iter().chain(joined).collect();
                match what.is_empty() {
                    true => lacks,
                    false => format!("{}; {lacks}", what.join(", ")),
                }
            }
        }
    }
}

/// Why a link to a node is kept by the difference from a general graph of this name.
fn named(table: &Table, general: &str, reason: Reason, said: Option<&Said>) -> String {
    match (reason, said) {
        (Reason::Wanted, Some(said)) => said.words(table, general),
        (Reason::Wanted, None) => "for what is kept below it".to_string(),
        (Reason::Groups, Some(said)) => {
            format!(
                "{}; {}",
                meaning(reason, general),
                said.words(table, general)
            )
        }
        _ => meaning(reason, general),
    }
}

/// The root, where the difference says something there, and the kept links.
pub fn lines(table: &Table, specific: &Graph, kept: &Kept, general: General) -> Vec<Line> {
    let paths = specific.paths();
    let path_of = |parent: usize, feature: u8| {
        let path = paths[parent].clone().expect("the root reaches every node");
        [&path[..], &[feature]].concat()
    };
    // For each node a path for each link that leads to it.
    let mut entering = vec![Vec::new(); specific.nodes.len()];
    for (parent, node) in specific.nodes.iter().enumerate() {
        for link in &node.links {
            entering[link.target].push(path_of(parent, link.feature));
        }
    }
    let line = |path, reason, node: usize| {
        let said = kept.nodes.get(&node).and_then(Option::as_ref);
        let others = entering[node].iter().filter(|other| **other != path);
        let others: Vec<Vec<u8>> = others.cloned().collect();
        Line {
            words: general.words(table, reason, said, &others),
            path,
            reason,
            said: said.cloned(),
        }
    };
    let is_said = matches!(kept.nodes.get(&0), Some(Some(_)));
    let root = is_said.then(|| line(Vec::new(), Reason::Wanted, 0));
    let links = kept.links.iter().map(|(&(parent, feature), &reason)| {
        let target = specific.nodes[parent].target(feature);
        let target = target.expect("a kept link is a link of the graph");
        line(path_of(parent, feature), reason, target)
    });
    root.into_iter().chain(links).collect()
}

/// Lines as text, each after a prefix.
pub fn text(table: &Table, lines: &[Line], prefix: &str) -> String {
    let paths: Vec<String> = lines.iter().map(|line| table.path(&line.path)).collect();
    let widths = paths.iter().map(|path| path.chars().count());
    let width = widths.max().unwrap_or(0);
    let text = paths.iter().zip(lines).map(|(path, line)| {
        let (word, words) = (word(line.reason), &line.words);
        format!("{prefix}{path:width$}  {word:5}  {words}\n")
    });
    text.collect()
}

/// Lines as JSON.
pub fn json(table: &Table, lines: &[Line]) -> Json {
    let line = |line: &Line| {
        let said = line.said.as_ref();
        Json::object([
            ("path", json::path(table, &line.path)),
            ("reason", word(line.reason).into()),
            ("says", said.map(|said| label(table, &said.own)).into()),
            ("over", said.map(|said| label(table, &said.over)).into()),
            ("words", line.words.as_str().into()),
        ])
    };
    Json::List(lines.iter().map(line).collect())
}

#[cfg(test)]
mod tests {
    use super::*;
    use crate::{draw, notation};

    #[test]
    fn reasons_stand_at_the_links_of_the_specific_graph() {
        let table = Table::from_text("type a\ntype b\n").expect("a table");
        let graph = |text| notation::read(&table, text).expect("a graph").graph;
        let specific = graph("top[0: X a, 1: X, 2: X, 3: b[4: top]]");
        let difference = graph("top[0: X top, 2: X, 3: top[4: top]]");
        let reasons = [Reason::Groups, Reason::Groups, Reason::Wanted, Reason::Bare];
        let general = graph("top[0: X a, 1: X, 2: a, 3: b]");
        let kept = kept(&table, &general, &specific, &difference, &reasons);
        assert_eq!(
            text(
                &table,
                &lines(&table, &specific, &kept, General::Named("g")),
                "# "
            ),
            "# path 0    apart  g does not join all links to the node\n\
             # path 2    apart  g does not join all links to the node\n\
             # path 3    more   for what is kept below it\n\
             # path 3.4  new    g has no such link\n"
        );
        let over = draw::Over {
            kept: &kept,
            general: "g",
            kept_only: false,
            legend: true,
        };
        let dot = draw::dot_over(&table, &specific, over);
        for line in [
            "  n0_0 [shape=plain, fontsize=13, label=\"0\\napart\"];\n",
            "  n0_0 -> n1 [weight=8, penwidth=2.5];\n",
            "  n0_1 -> n1 [weight=8, color=\"#9a9a9a\"];\n",
            "  n2_4 [shape=plain, fontsize=13, label=\"4\\nnew\"];\n",
        ] {
            assert!(dot.contains(line), "{dot}");
        }
    }
}
