//! The inputs that are measured: a table, a specific graph, and two graphs above it, the general
//! one and another. The graphs have ranges or none. The inputs are the same in every run.

use reference::graph::Graph;
use reference::house;
use reference::order::subsumption;
use reference::random::{self, Shape, TableBytes, Xorshift};
use reference::record;
use reference::table::Table;

/// A table of the benchmark, and its name in the output: its number of types and its kind.
pub struct Types {
    pub name: &'static str,
    pub bytes: TableBytes,
    pub accepted: Table,
}

impl Types {
    /// Whether all calls are measured over it, and not only the operations.
    pub fn is_for_all_calls(&self) -> bool {
        matches!(self.name, "4 diamond" | "64 house")
    }

    fn new(name: &'static str, bytes: TableBytes) -> Types {
        let accepted = bytes.accepted();
        Types {
            name,
            bytes,
            accepted,
        }
    }
}

/// The five tables: the diamond, the subsets of six atoms, the house types, 64 types that are not
/// distributive and whose numbers do not follow their order, and 64 types of which each is below
/// the next.
pub fn tables() -> [Types; 5] {
    [
        Types::new("4 diamond", random::diamond()),
        Types::new("64 subsets", random::boolean(6)),
        Types::new("64 house", house::table()),
        Types::new(
            "64 rivals",
            random::large_rival_table(&mut Xorshift::new(64)),
        ),
        Types::new("64 chain", random::chain(64)),
    ]
}

/// The size of a graph, and its name in the output.
#[derive(Clone, Copy, PartialEq, Eq)]
pub struct Size {
    pub name: &'static str,
    pub nodes: usize,
    /// Whether the graph has as many links as a record can have. Otherwise it has some two links a
    /// node.
    is_full: bool,
}

const fn size(name: &'static str, nodes: usize) -> Size {
    Size {
        name,
        nodes,
        is_full: false,
    }
}

pub const SIZES: [Size; 5] = [
    size("8", 8),
    size("40", 40),
    size("100", 100),
    size("255", 255),
    Size {
        name: "255 full",
        nodes: 255,
        is_full: true,
    },
];

/// The size of a lone node. It is only used for the stack.
pub const LONE: Size = size("1", 1);

/// The size of a row without a graph, or with a graph of three nodes.
pub const NO_GRAPH: Size = size("-", 0);

/// The two sizes from which the report computes how a cost grows with the nodes.
pub const SMALLER: Size = SIZES[1];
pub const LARGER: Size = SIZES[3];

/// The bytes of one measurement.
pub struct Input {
    /// The number of types.
    pub n: usize,
    /// The table.
    pub table: Vec<u8>,
    /// The record of a graph of the size that is measured.
    pub specific: Vec<u8>,
    /// The record of a graph above the specific one.
    pub general: Vec<u8>,
    /// The record of another graph above the specific one.
    pub other: Vec<u8>,
}

impl Input {
    /// The first input, by the number of its seed, whose graphs have a difference.
    pub fn new(types: &Types, size: Size) -> Input {
        let mut attempts = (0..).map(|seed| Input::attempt(types, size, seed));
        let input = attempts.find(|x| {
            let output = &mut [0; record_engine::LONGEST_RECORD];
            record_engine::difference(x.n, &x.table, &x.general, &x.specific, output).is_ok()
        });
        input.expect("a seed")
    }

    fn attempt(types: &Types, size: Size, seed: u64) -> Input {
        let nodes = size.nodes;
        let links = if size.is_full { 4096 } else { nodes };
        let random = &mut Xorshift::new(nodes as u64 + 1000 * seed);
        let shape = Shape {
            nodes,
            // With these links there are some two for each node, or as many as possible.
            extra_links: links,
            features: if size.is_full { 0..64 } else { 0..24 }.collect(),
            spread: (nodes / 4).max(1),
            tops: 1,
            ranges: 0,
        };
        let specific = random::graph(random, types.bytes.n, &shape);
        let general = weaker(random, &types.accepted, &specific);
        let other = weaker(random, &types.accepted, &specific);
        Input {
            n: types.bytes.n,
            table: types.bytes.bytes.clone(),
            specific: record::write(&specific),
            general: record::write(&general),
            other: record::write(&other),
        }
    }

    /// An input whose three graphs are one chain of `size.nodes` nodes.
    pub fn chain(types: &Types, size: Size) -> Input {
        let top = (types.bytes.n - 1) as u8;
        let chain = record::write(&random::chain_graph(size.nodes, 0, top));
        Input {
            n: types.bytes.n,
            table: types.bytes.bytes.clone(),
            specific: chain.clone(),
            general: chain.clone(),
            other: chain,
        }
    }

    /// An input with a chain whose root also has a link to the last node. In the other graph the
    /// root has a link to a chain of the other nodes. In their combination one chain continues where
    /// the other ends.
    pub fn longest_path(types: &Types, size: Size) -> Input {
        let input = Input::chain(types, size);
        let [mut first, _, mut second] = input.graphs(types);
        if size.nodes > 1 {
            first.nodes[0].links.insert(1, size.nodes - 1);
            second.nodes[0].links = [(1, 1)].into();
        }
        let first = record::write(&first);
        Input {
            specific: first.clone(),
            general: first,
            other: record::write(&second),
            ..input
        }
    }

    /// The graphs with ranges. About half of the nodes of the specific graph have a range. A node
    /// over such a node has the same range, or in one of eight cases a range around it.
    pub fn with_ranges(&self, types: &Types, size: Size) -> Input {
        let random = &mut Xorshift::new(size.nodes as u64);
        let table = &types.accepted;
        let [specific, general, other] = self.graphs(types);
        let mut ranged = specific.clone();
        for node in &mut ranged.nodes {
            if random.chance(1, 2) {
                node.label.range = random::range(random);
            }
        }
        let mut above = |graph: &Graph| {
            let map = subsumption(table, graph, &specific).expect("a graph above");
            let mut above = graph.clone();
            for (node, below) in above.nodes.iter_mut().zip(map.image) {
                let range = ranged.nodes[below].label.range;
                node.label.range = match random.chance(1, 8) {
                    true => random::range_around(random, range),
                    false => range,
                };
            }
            record::write(&above)
        };
        Input {
            n: self.n,
            table: self.table.clone(),
            general: above(&general),
            other: above(&other),
            specific: record::write(&ranged),
        }
    }

    /// The specific graph, the general one and the other.
    pub fn graphs(&self, types: &Types) -> [Graph; 3] {
        [&self.specific, &self.general, &self.other]
            .map(|bytes| record::read(&types.accepted, bytes).expect("a record"))
    }
}

/// A graph above the given one with the same number of nodes. It is made by at most one weakening
/// step for every eight nodes.
fn weaker(random: &mut Xorshift, table: &Table, graph: &Graph) -> Graph {
    let mut weaker = graph.clone();
    for _ in 0..graph.nodes.len() / 8 {
        let step = random::weakened(random, table, &weaker);
        // The number of nodes stays the same, because the benchmark reports it.
        weaker = step
            .filter(|step| step.nodes.len() == graph.nodes.len())
            .unwrap_or(weaker);
    }
    random::renumbered(random, &weaker)
}
