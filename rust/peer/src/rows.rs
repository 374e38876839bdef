//! Planning tables: links as rows, and three bytes for each node. `import` writes the record of a
//! planning table, and `export` fills a planning table from a record.

use crate::Refusal;
use crate::graph::{Graph, Link};
use crate::range::Range;
use crate::table::{Table, bits};
use crate::write::{renumber, write};

/// One link.
#[derive(Clone, Copy, Debug, Default, PartialEq, Eq)]
pub struct Row {
    /// The node that it leaves.
    pub parent: u8,
    /// Its feature.
    pub feature: u8,
    /// The node that it enters.
    pub target: u8,
}

/// How much of a planning table was filled.
#[derive(Clone, Copy, Debug, PartialEq, Eq)]
pub struct Counts {
    /// The number of nodes.
    pub nodes: usize,
    /// The number of rows.
    pub rows: usize,
}

/// Writes the record of a planning table.
pub fn import(
    n: usize,
    table: &[u8],
    rows: &[Row],
    nodes: &[u8],
    output: &mut [u8],
) -> Result<usize, Refusal> {
    Table::open(n, table)?;
    let mut graph = Graph::empty();
    fill(n, rows, nodes, &mut graph).map_err(Refusal::of)?;
    write(&graph, output)
}

/// Reads the graph of a planning table, or gives 4, 14, 15, 5, 6 or 7.
fn fill(n: usize, rows: &[Row], nodes: &[u8], graph: &mut Graph) -> Result<(), u8> {
    let (labels, []) = nodes.as_chunks::<3>() else {
        return Err(4);
    };
    graph.nodes = labels.len();
    if !(1..=255).contains(&graph.nodes) || rows.len() > 2048 {
        return Err(4);
    }
    let is_known = |row: &Row| {
        let [parent, target] = [row.parent, row.target].map(usize::from);
        row.feature < 64 && parent < graph.nodes && target < graph.nodes
    };
    if !rows.iter().all(is_known) {
        return Err(14);
    }
    // The features of each node, and the target of each feature.
    let mut maps = [0u64; 255];
    let mut targets = [[0u8; 64]; 255];
    for row in rows {
        let map = &mut maps[usize::from(row.parent)];
        if *map >> row.feature & 1 == 1 {
            return Err(15);
        }
        *map |= 1 << row.feature;
        targets[usize::from(row.parent)][usize::from(row.feature)] = row.target;
    }
    let mut links = 0;
    for (node, &[node_type, lowest, highest]) in labels.iter().enumerate() {
        graph.types[node] = node_type;
        graph.ranges[node] = Range { lowest, highest };
        for feature in bits(maps[node]) {
            graph.links[links] = Link::new(feature as u8, targets[node][feature]);
            links += 1;
        }
        graph.first[node + 1] = links as u16;
    }
    let has_levels = labels.iter().all(|&[_, lowest, highest]| lowest <= highest);
    graph.judge(n, has_levels)
}

/// Fills a planning table with a record's graph, its nodes numbered as in the written record.
pub fn export(
    n: usize,
    table: &[u8],
    record: &[u8],
    rows: &mut [Row],
    nodes: &mut [u8],
) -> Result<Counts, Refusal> {
    Table::open(n, table)?;
    let (mut graph, mut written) = (Graph::empty(), Graph::empty());
    graph.read(n, record).map_err(Refusal::of)?;
    renumber(&graph, &mut written);
    let counts = Counts {
        nodes: written.nodes,
        rows: written.all_links().len(),
    };
    let rows = rows.get_mut(..counts.rows).ok_or(Refusal::of(8))?;
    let nodes = nodes.get_mut(..3 * counts.nodes).ok_or(Refusal::of(8))?;
    for (node, label) in nodes.chunks_exact_mut(3).enumerate() {
        let Range { lowest, highest } = written.ranges[node];
        label.copy_from_slice(&[written.types[node], lowest, highest]);
        let filled = &mut rows[written.places(node)];
        for (row, link) in filled.iter_mut().zip(written.row(node)) {
            *row = Row {
                parent: node as u8,
                feature: link.feature(),
                target: link.target() as u8,
            };
        }
    }
    Ok(counts)
}
