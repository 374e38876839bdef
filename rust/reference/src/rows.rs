//! Planning tables (Papers 2 and 7). A planning table is a graph as "a table of rows, each a
//! parent, a feature and a target", and three bytes for each node, "type, lowest and highest,
//! 0 and 255 for the full range".

use crate::graph::{FEATURES, Feature, Graph, Node};
use crate::label::{Label, Range};
use crate::record::{self, GraphFault, MOST_LINKS, MOST_NODES};
use crate::reply::{Refusal, Side};
use crate::table::Table;

/// One link. The derived order is that "by parent and then feature".
#[derive(Clone, Copy, Debug, PartialEq, Eq, PartialOrd, Ord)]
pub struct Row {
    /// The node the link leaves.
    pub parent: u8,
    /// Its feature.
    pub feature: Feature,
    /// The node it enters.
    pub target: u8,
}

/// "In the planning tool's table each node's type becomes three bytes."
pub const NODE_BYTES: usize = 3;

/// The planning table of a graph.
#[derive(Clone, Debug, PartialEq, Eq)]
pub struct PlanningTable {
    /// The links.
    pub rows: Vec<Row>,
    /// Type, lowest and highest level of each node.
    pub nodes: Vec<u8>,
}

impl PlanningTable {
    /// The table of a graph of at most 255 nodes in its own numbering, its rows "sorted by
    /// parent and then feature".
    pub fn of(graph: &Graph) -> PlanningTable {
        let byte = |number: usize| u8::try_from(number).expect("at most 255 nodes");
        let links = graph.nodes.iter().enumerate().flat_map(|(parent, node)| {
            let row = move |(&feature, &target): (&Feature, &usize)| Row {
                parent: byte(parent),
                feature,
                target: byte(target),
            };
            node.links.iter().map(row)
        });
        let labels = graph.nodes.iter().flat_map(|node| {
            let Label { node_type, range } = node.label;
            [node_type, range.lowest, range.highest]
        });
        PlanningTable {
            rows: links.collect(),
            nodes: labels.collect(),
        }
    }
}

/// The graph of a planning table, "rows in any order and the root being node 0". The graph
/// keeps the numbering of the planning table. Each check is made on the whole planning table
/// before the next one.
pub fn read(table: &Table, rows: &[Row], nodes: &[u8]) -> Result<Graph, Refusal> {
    let of_graph = |fault| Refusal::Graph(fault, Side::First);
    // "Nodes, counted by the type bytes, are 1 to 255 and rows at most 2,048, else 4";
    // "a byte count not divisible by 3 is 4".
    let count = nodes.len() / NODE_BYTES;
    let divisible = nodes.len().is_multiple_of(NODE_BYTES);
    if !divisible || count == 0 || count > MOST_NODES || rows.len() > MOST_LINKS {
        return Err(of_graph(GraphFault::Malformed));
    }
    // "Afterwards a row with a feature above 63 or a node number outside the count is 14".
    let stands = |row: &Row| {
        let [parent, feature, target] = [row.parent, row.feature, row.target].map(usize::from);
        feature < FEATURES && parent < count && target < count
    };
    if !rows.iter().all(stands) {
        return Err(Refusal::RowOutOfRange);
    }
    // "Two rows with one parent and feature are 15".
    let labels = nodes.chunks(NODE_BYTES).map(|bytes| Label {
        node_type: bytes[0],
        range: Range {
            lowest: bytes[1],
            highest: bytes[2],
        },
    });
    let mut graph = Graph {
        nodes: labels.map(|label| Node::new(label, [])).collect(),
    };
    for row in rows {
        let links = &mut graph.nodes[usize::from(row.parent)].links;
        let earlier = links.insert(row.feature, usize::from(row.target));
        if earlier.is_some() {
            return Err(Refusal::RowTwice);
        }
    }
    // "And then 5 for types and 6, 7 and 8 as for records". A type with bit 7 is none of
    // the at most 64 types.
    record::judged(table, graph).map_err(of_graph)
}

#[cfg(test)]
mod tests {
    use super::*;
    use crate::canonical::canonical;
    use crate::graph::ROOT;
    use crate::notation;
    use crate::random::diamond;

    fn row([parent, feature, target]: [u8; 3]) -> Row {
        Row {
            parent,
            feature,
            target,
        }
    }

    /// A shared node with a range, two numberings and two orders of rows.
    #[test]
    fn a_graph_and_its_table() {
        let graph = notation::graph(3, "top[0: X a{10..200}, 9: b[0: X]]");
        let table = PlanningTable::of(&graph);
        assert_eq!(table.rows, [[0, 0, 1], [0, 9, 2], [2, 0, 1]].map(row));
        assert_eq!(table.nodes, [3, 0, 255, 1, 10, 200, 2, 0, 255]);
        let diamond = diamond().accepted();
        assert_eq!(read(&diamond, &table.rows, &table.nodes), Ok(graph.clone()));
        let rows = [[1, 0, 2], [0, 9, 1], [0, 0, 2]].map(row);
        let other = read(&diamond, &rows, &[3, 0, 255, 2, 0, 255, 1, 10, 200]);
        let other = other.expect("a graph");
        assert_eq!(canonical(&other), graph);
        assert_eq!(other.nodes[ROOT].links[&9], 1);
    }
}
