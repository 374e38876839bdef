//! The order of graphs: subsumption. Graph g subsumes s, or s is below g, when
//! every path of g is a path of s, with a type in s below or equal to its type
//! in g and a range inside that in g, and paths that share (corefer) in g share
//! in s. The result has the map from the nodes of g to those of s, which the difference
//! needs.

use crate::graph::{Graph, ROOT};
use crate::table::Table;
use std::collections::BTreeMap;

/// The map that shows that one graph is below another. It maps each node of the upper graph
/// to the one node of the lower graph to which the same paths lead. The node of the upper
/// graph lies over that node of the lower graph.
#[derive(Clone, Debug, PartialEq, Eq)]
pub struct Morphism {
    /// The node of the lower graph, for each node of the upper graph.
    pub image: Vec<usize>,
}

/// Which of two graphs is the broader, seen from the first: "one of four: same,
/// under, above, neither".
#[derive(Clone, Copy, Debug, PartialEq, Eq, PartialOrd, Ord)]
pub enum Order {
    /// Each is below the other.
    Same,
    /// The first is below the second, and not above it.
    Under,
    /// The first is above the second, and not below it.
    Above,
    /// Neither is below the other.
    Neither,
}

impl Order {
    /// All four.
    pub const ALL: [Order; 4] = [Order::Same, Order::Under, Order::Above, Order::Neither];

    /// The answer, given whether the first is below the second and whether the second is
    /// below the first.
    pub fn of(below: bool, above: bool) -> Order {
        match (below, above) {
            (true, true) => Order::Same,
            (true, false) => Order::Under,
            (false, true) => Order::Above,
            (false, false) => Order::Neither,
        }
    }

    /// Whether the first is below the second.
    pub fn is_below(self) -> bool {
        matches!(self, Order::Same | Order::Under)
    }

    /// The word that `mapcalc` prints.
    pub fn word(self) -> &'static str {
        match self {
            Order::Same => "same",
            Order::Under => "under",
            Order::Above => "above",
            Order::Neither => "neither",
        }
    }
}

/// Which of two graphs is the broader.
pub fn order(table: &Table, first: &Graph, second: &Graph) -> Order {
    Order::of(below(table, first, second), below(table, second, first))
}

/// Whether `s` is below `g`.
pub fn below(table: &Table, s: &Graph, g: &Graph) -> bool {
    subsumption(table, g, s).is_some()
}

/// Whether `g` is above `s` and `s` is not above `g`.
pub fn strictly_more_general(table: &Table, g: &Graph, s: &Graph) -> bool {
    below(table, s, g) && !below(table, g, s)
}

/// The morphism from `g` into `s`, where `g` subsumes `s`.
///
/// The paper speaks of all paths of g, which may be too many to list. A path of
/// g leads to a node u of g and, if it is a path of s, to a node x of s. That
/// paths sharing in g share in s says: all paths to one u lead to one x. So the
/// pair (u, x) is found once for each node u; what lies below does not depend on
/// the path taken, and following the links of u once covers all paths through u.
pub fn subsumption(table: &Table, g: &Graph, s: &Graph) -> Option<Morphism> {
    let mut image = BTreeMap::new();
    let mut waiting = vec![(ROOT, ROOT)];
    while let Some((u, x)) = waiting.pop() {
        if let Some(&earlier) = image.get(&u) {
            if earlier != x {
                return None;
            }
            continue;
        }
        image.insert(u, x);
        if !s.nodes[x].label.is_below(table, g.nodes[u].label) {
            return None;
        }
        for (feature, &target) in &g.nodes[u].links {
            let &below_target = s.nodes[x].links.get(feature)?;
            waiting.push((target, below_target));
        }
    }
    // The root reaches every node of g, so every node has its image.
    Some(Morphism {
        image: image.into_values().collect(),
    })
}
