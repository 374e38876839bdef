//! A record as a graph in memory, for texts, pictures and messages. This module turns bytes into
//! nodes and nodes into bytes. Only the engine tells whether a record is accepted: a graph that is
//! read here may have any types and targets, and a node may reach itself.

use std::collections::VecDeque;
use std::fmt;

/// A record has at most this many nodes.
pub const MOST_NODES: usize = 255;

/// This bit of the type byte says that a lowest and a highest level follow it.
const HAS_LEVELS: u8 = 0x80;

/// A range of levels, from the lowest to the highest, both included.
#[derive(Clone, Copy, Debug, PartialEq, Eq)]
pub struct Levels {
    pub lowest: u8,
    pub highest: u8,
}

impl Levels {
    /// Every level: what a node without a range has.
    pub const FULL: Levels = Levels {
        lowest: 0,
        highest: 255,
    };

    /// The levels in both ranges. If there are none, the lowest is above the highest.
    pub fn overlap(self, other: Levels) -> Levels {
        Levels {
            lowest: self.lowest.max(other.lowest),
            highest: self.highest.min(other.highest),
        }
    }

    /// Whether the range has no level.
    pub fn is_empty(self) -> bool {
        self.lowest > self.highest
    }
}

impl fmt::Display for Levels {
    fn fmt(&self, formatter: &mut fmt::Formatter<'_>) -> fmt::Result {
        match (self.lowest, self.highest) {
            (level, other) if level == other => write!(formatter, "{{{level}}}"),
            (lowest, highest) => write!(formatter, "{{{lowest}..{highest}}}"),
        }
    }
}

/// A link: its feature and the number of the node that it leads to.
#[derive(Clone, Copy, Debug, PartialEq, Eq)]
pub struct Link {
    pub feature: u8,
    pub target: usize,
}

/// A node: its type, its levels, and its links, lowest feature first.
#[derive(Clone, Debug, PartialEq, Eq)]
pub struct Node {
    pub node_type: u8,
    pub levels: Levels,
    pub links: Vec<Link>,
}

impl Node {
    /// The node that a feature leads to.
    pub fn target(&self, feature: u8) -> Option<usize> {
        let place = self.links.binary_search_by_key(&feature, |l| l.feature);
        place.ok().map(|place| self.links[place].target)
    }
}

/// The nodes by their numbers; node 0 is the root.
#[derive(Clone, Debug, Default, PartialEq, Eq)]
pub struct Graph {
    pub nodes: Vec<Node>,
}

/// Why bytes are not the nodes of a record.
#[derive(Clone, Debug, PartialEq, Eq)]
pub enum Malformed {
    /// There is no byte, or byte 0 counts no node.
    NoNodes,
    /// The bytes end within a node, in the part named.
    Ends { node: usize, part: &'static str },
    /// The last node ends here, and bytes follow.
    LeftOver { length: usize },
}

impl Graph {
    /// The nodes of a record.
    pub fn decode(record: &[u8]) -> Result<Graph, Malformed> {
        let count = match record.first() {
            None | Some(0) => return Err(Malformed::NoNodes),
            Some(&count) => usize::from(count),
        };
        let mut rest = &record[1..];
        let mut nodes = Vec::new();
        for node in 0..count {
            let mut take = |length: usize, part| {
                let (taken, after) = rest
                    .split_at_checked(length)
                    .ok_or(Malformed::Ends { node, part })?;
                rest = after;
                Ok(taken)
            };
            let type_byte = take(1, "type")?[0];
            let levels = match type_byte & HAS_LEVELS {
                0 => Levels::FULL,
                _ => match take(2, "levels")? {
                    &[lowest, highest] => Levels { lowest, highest },
                    _ => unreachable!("two bytes were taken"),
                },
            };
            let map = take(8, "feature map")?;
            let features: Vec<u8> = (0..64)
                .filter(|f| map[usize::from(f / 8)] >> (f % 8) & 1 == 1)
                .collect();
            let targets = take(features.len(), "targets")?;
            let link = |(feature, &target): (u8, &u8)| Link {
                feature,
                target: usize::from(target),
            };
            nodes.push(Node {
                node_type: type_byte & !HAS_LEVELS,
                levels,
                links: features.into_iter().zip(targets).map(link).collect(),
            });
        }
        match rest.len() {
            0 => Ok(Graph { nodes }),
            more => Err(Malformed::LeftOver {
                length: record.len() - more,
            }),
        }
    }

    /// The nodes of a record that the engine wrote.
    pub fn of_written(record: &[u8]) -> Graph {
        Graph::decode(record).expect("a written record is well formed")
    }

    /// The bytes of at most 255 nodes, in their own numbering.
    pub fn encode(&self) -> Vec<u8> {
        let byte = |number: usize| u8::try_from(number).expect("at most 255 nodes");
        let mut record = vec![byte(self.nodes.len())];
        for node in &self.nodes {
            if node.levels == Levels::FULL {
                record.push(node.node_type);
            } else {
                let Levels { lowest, highest } = node.levels;
                record.extend([node.node_type | HAS_LEVELS, lowest, highest]);
            }
            let map = node.links.iter().fold(0u64, |map, l| map | 1 << l.feature);
            record.extend(map.to_le_bytes());
            record.extend(node.links.iter().map(|link| byte(link.target)));
        }
        record
    }

    /// How many links there are.
    pub fn link_count(&self) -> usize {
        self.nodes.iter().map(|node| node.links.len()).sum()
    }

    /// For each node a shortest path from the root; none if there is no path.
    pub fn paths(&self) -> Vec<Option<Vec<u8>>> {
        let mut paths = vec![None; self.nodes.len()];
        paths[0] = Some(Vec::new());
        let mut waiting = VecDeque::from([0]);
        while let Some(node) = waiting.pop_front() {
            let path: Vec<u8> = paths[node].clone().unwrap_or_default();
            for link in &self.nodes[node].links {
                if paths[link.target].is_none() {
                    paths[link.target] = Some([&path[..], &[link.feature]].concat());
                    waiting.push_back(link.target);
                }
            }
        }
        paths
    }

    /// A node that reaches itself, on a path of the root if there is one.
    pub fn cycle(&self) -> Option<Cycle> {
        let mut search = Search {
            graph: self,
            state: vec![State::New; self.nodes.len()],
            way: Vec::new(),
        };
        let node = (0..self.nodes.len()).find_map(|start| search.returns(start))?;
        let start = search.way.iter().position(|&(from, _)| from == node)?;
        Some(Cycle {
            node,
            around: search.way[start..].iter().map(|&(_, f)| f).collect(),
            closing: *search.way.last()?,
        })
    }

    /// The capitals of shared nodes, in text and in pictures: `X`, `Y`, `Z` if at most three nodes
    /// are shared, else `X` and the number of the node. A node is shared when two or more links
    /// enter it.
    pub fn capitals(&self) -> Vec<Option<String>> {
        let mut entering = vec![0; self.nodes.len()];
        for link in self.nodes.iter().flat_map(|node| &node.links) {
            entering[link.target] += 1;
        }
        let shared: Vec<usize> = (0..entering.len()).filter(|&n| entering[n] > 1).collect();
        let mut capitals = vec![None; entering.len()];
        for (&node, letter) in shared.iter().zip(["X", "Y", "Z"].into_iter().cycle()) {
            capitals[node] = Some(match shared.len() {
                0..=3 => letter.to_string(),
                _ => format!("X{node}"),
            });
        }
        capitals
    }
}

/// A way from a node back to itself.
#[derive(Clone, Debug, PartialEq, Eq)]
pub struct Cycle {
    pub node: usize,
    /// The features of the way.
    pub around: Vec<u8>,
    /// Its last link, by parent and feature.
    pub closing: (usize, u8),
}

#[derive(Clone, Copy, PartialEq, Eq)]
enum State {
    New,
    OnTheWay,
    Done,
}

/// A search in depth. The way is the list of links from the start of the search to its current node.
struct Search<'a> {
    graph: &'a Graph,
    state: Vec<State>,
    way: Vec<(usize, u8)>,
}

impl Search<'_> {
    /// A node on the way that a link leads back to. The way then stays as it is, with that link at
    /// its end.
    fn returns(&mut self, node: usize) -> Option<usize> {
        match self.state[node] {
            State::Done => return None,
            State::OnTheWay => return Some(node),
            State::New => self.state[node] = State::OnTheWay,
        }
        for link in &self.graph.nodes[node].links {
            self.way.push((node, link.feature));
            let found = self.returns(link.target);
            if found.is_some() {
                return found;
            }
            self.way.pop();
        }
        self.state[node] = State::Done;
        None
    }
}
