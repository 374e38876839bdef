//! Why an operation on accepted records is refused by 9 to 13: the paths at which the records loop,
//! clash or are not below each other, the size of the result, or the types that restore. Also finds
//! where records contradict each other, for `compare`.

use super::unify::unify;
use super::{Cause, Place, listed};
use crate::engine::{self, Operation};
use crate::graph::{Graph, Levels, Node};
use crate::input::Input;
use crate::overlay::{Named, image};
use crate::table::Table;
use std::collections::BTreeSet;

/// The graphs of the inputs, with their names. An operation on more than two records goes from one
/// to the next, and is refused at the last of these.
struct Group<'a> {
    table: &'a Table,
    graphs: Vec<Graph>,
    names: Vec<&'a str>,
}

/// The cause of a refusal of an operation, by the number of the refusal.
pub fn cause(
    number: u8,
    operation: Option<Operation>,
    table: &Table,
    inputs: &[&Input],
) -> Option<Cause> {
    let group = Group::new(table, inputs)?;
    let (what, advice) = match number {
        9 => group.cycle()?,
        10 => group.clash()?,
        11 => group.too_large(operation?)?,
        12 => group.not_below()?,
        13 => group.no_wanted_type()?,
        _ => return None,
    };
    Some(Cause::new(Place::Whole, what, advice))
}

type Words = (String, String);

/// A contradiction between records, at a place of their combination.
pub struct Contradiction {
    /// A path of the combination to the place.
    pub path: Vec<u8>,
    pub kind: Kind,
    /// What comes together there.
    pub said: Vec<Said>,
}

/// What is said by a node of one of the records.
pub struct Said {
    /// Which of the records.
    pub side: usize,
    pub path: Vec<u8>,
    pub label: String,
}

/// The kind of a contradiction.
#[derive(Clone, Copy, PartialEq, Eq)]
pub enum Kind {
    /// A class of shared paths reaches itself.
    Loop,
    /// A class of shared paths has no type.
    Type,
    /// A class of shared paths has no level.
    Levels,
}

impl Kind {
    pub fn word(self) -> &'static str {
        match self {
            Kind::Loop => "loop",
            Kind::Type => "type",
            Kind::Levels => "levels",
        }
    }

    /// What keeps the combination from being a record.
    pub fn nothing(self, table: &Table) -> String {
        match self {
            Kind::Loop => "the node reaches itself".to_string(),
            Kind::Type => format!("no type but {} is below them", table.type_shown(0)),
            Kind::Levels => "no level is in all of them".to_string(),
        }
    }
}

/// Where accepted records contradict each other.
pub fn contradictions(table: &Table, inputs: &[&Input]) -> Vec<Contradiction> {
    let Some(group) = Group::new(table, inputs) else {
        return Vec::new();
    };
    let combined = unify(table, &group.graphs).graph;
    let looped = combined.cycle().and_then(|cycle| {
        let path = combined.paths()[cycle.node].clone()?;
        let again = [&path[..], &cycle.around].concat();
        let paths = [path.clone(), again].map(|path| Said {
            side: 0,
            label: table.path(&path),
            path,
        });
        Some(Contradiction {
            path,
            kind: Kind::Loop,
            said: paths.into(),
        })
    });
    looped.into_iter().chain(group.clashes()).collect()
}

impl<'a> Group<'a> {
    fn new(table: &'a Table, inputs: &[&'a Input]) -> Option<Group<'a>> {
        let graphs = inputs.iter().map(|input| input.graph(table).ok());
        Some(Group {
            table,
            graphs: graphs.collect::<Option<_>>()?,
            names: inputs.iter().map(|input| &input.shown[..]).collect(),
        })
    }

    /// The general and the specific graph of a difference.
    fn named(&self) -> [Named<'_>; 2] {
        [0, 1].map(|side| Named {
            graph: &self.graphs[side],
            name: self.names[side],
        })
    }

    fn cycle(&self) -> Option<Words> {
        let combined = unify(self.table, &self.graphs).graph;
        let cycle = combined.cycle()?;
        let path = combined.paths()[cycle.node].clone()?;
        let again = [&path[..], &cycle.around].concat();
        let (path, again) = (self.table.path(&path), self.table.path(&again));
        Some((
            format!("in the combination {path} and {again} are one node, which reaches itself"),
            "part what one of the records shares, or leave one of these links out".to_string(),
        ))
    }

    fn clash(&self) -> Option<Words> {
        let clash = self.clashes().into_iter().next()?;
        let label = |said: &Said| {
            let path = self.table.path(&said.path);
            format!("{} ({}, {path})", said.label, self.names[said.side])
        };
        let labels: Vec<String> = clash.said.iter().map(label).collect();
        let (path, labels) = (self.table.path(&clash.path), listed(&labels));
        let nothing = clash.kind.nothing(self.table);
        Some((
            format!("at {path} of the combination {labels} come together, and {nothing}"),
            "change one of them, or part what is shared there".to_string(),
        ))
    }

    /// The classes of the combination without a type or without a level, nearest to the root
    /// first.
    fn clashes(&self) -> Vec<Contradiction> {
        let combination = unify(self.table, &self.graphs);
        let paths = combination.graph.paths();
        let own_paths: Vec<_> = self.graphs.iter().map(Graph::paths).collect();
        let mut clashes = Vec::new();
        for (class, node) in combination.graph.nodes.iter().enumerate() {
            let by_type = (node.node_type == 0).then_some(Kind::Type);
            let by_levels = node.levels.is_empty().then_some(Kind::Levels);
            for kind in by_type.into_iter().chain(by_levels) {
                let members = combination.members[class].iter();
                let members = members.map(|&(side, node)| {
                    let member = &self.graphs[side].nodes[node];
                    let path = own_paths[side][node].clone().unwrap_or_default();
                    (side, path, member)
                });
                clashes.push(Contradiction {
                    path: paths[class].clone().unwrap_or_default(),
                    kind,
                    said: self.said(kind, members),
                });
            }
        }
        clashes.sort_by_key(|clash| (clash.path.len(), clash.path.clone()));
        clashes
    }

    /// What nodes of a class say of types or of levels, each once.
    fn said<'n>(
        &self,
        kind: Kind,
        members: impl Iterator<Item = (usize, Vec<u8>, &'n Node)>,
    ) -> Vec<Said> {
        let mut told = BTreeSet::new();
        let mut said = Vec::new();
        for (side, path, member) in members {
            let (label, says_something) = match kind {
                Kind::Levels => (member.levels.to_string(), member.levels != Levels::FULL),
                Kind::Type | Kind::Loop => (
                    self.table.type_shown(member.node_type),
                    member.node_type != self.table.top(),
                ),
            };
            if says_something && told.insert(label.clone()) {
                said.push(Said { side, path, label });
            }
        }
        said
    }

    fn too_large(&self, operation: Operation) -> Option<Words> {
        let (nodes, links) = match operation {
            Operation::Generalize => self.common_size()?,
            Operation::Unify | Operation::Difference => {
                let combined = unify(self.table, &self.graphs).graph;
                (combined.nodes.len(), combined.link_count())
            }
        };
        Some((
            format!("it has {nodes} nodes and {links} links"),
            "leave parts out, or part the records in smaller ones".to_string(),
        ))
    }

    /// The numbers of nodes and links of the common part of all records. The common part of all
    /// records but the last fits into a record, and the common part with the last does not.
    fn common_size(&self) -> Option<(usize, usize)> {
        let (last, before) = self.graphs.split_last()?;
        let (first, more) = before.split_first()?;
        let mut common = first.encode();
        for graph in more {
            let record = graph.encode();
            common = engine::operate(Operation::Generalize, self.table, &common, &record).ok()?;
        }
        Some(common_size(&Graph::of_written(&common), last))
    }

    fn not_below(&self) -> Option<Words> {
        let [general, specific] = self.named();
        let obstacle = image(self.table, general, specific).err()?;
        let advice = match image(self.table, specific, general) {
            Ok(_) => format!("exchange the two: {} is the more general", specific.name),
            Err(_) => format!(
                "take what both have in common for the general one: `fitting common TABLE {} {}`",
                general.name, specific.name
            ),
        };
        Some((obstacle, advice))
    }

    /// A node of the specific graph without a wanted type: among the types that restore its type,
    /// none is the greatest.
    fn no_wanted_type(&self) -> Option<Words> {
        let table = self.table;
        let [upper, lower] = self.named();
        let (general, specific) = (upper.graph, lower.graph);
        let image = image(table, upper, lower).ok()?;
        let mut over = vec![table.top(); specific.nodes.len()];
        for (node, &under) in general.nodes.iter().zip(&image) {
            over[under] = table.meet(over[under], node.node_type);
        }
        for (number, node) in specific.nodes.iter().enumerate() {
            let restores = |c: u8| table.meet(c, over[number]) == node.node_type;
            let all: Vec<u8> = (0..table.n as u8).filter(|&c| restores(c)).collect();
            let bits = all.iter().fold(0, |bits, &c| bits | 1 << c);
            if table.greatest(bits).is_none() {
                let all: Vec<String> = all.iter().map(|&c| table.type_shown(c)).collect();
                let names = [node.node_type, over[number]].map(|c| table.type_shown(c));
                let path = table.path(specific.paths()[number].as_ref()?);
                let [own, over] = &names;
                let (g, s) = (upper.name, lower.name);
                return Some((
                    format!(
                        "at {path} {s} has {own} under {over} of {g}: {} give {own} with {over}, \
                         and none of these is the greatest",
                        listed(&all),
                    ),
                    "raise or lower the type there, or take another table".to_string(),
                ));
            }
        }
        None
    }
}

/// The numbers of nodes and links of a common part. Its nodes are the pairs of nodes that one path
/// leads to in both graphs.
fn common_size(first: &Graph, second: &Graph) -> (usize, usize) {
    let mut met = BTreeSet::from([(0, 0)]);
    let mut waiting = vec![(0, 0)];
    let mut links = 0;
    while let Some((a, b)) = waiting.pop() {
        for link in &first.nodes[a].links {
            if let Some(target) = second.nodes[b].target(link.feature) {
                links += 1;
                if met.insert((link.target, target)) {
                    waiting.push((link.target, target));
                }
            }
        }
    }
    (met.len(), links)
}
