//! Numbers the nodes of a graph by first visit, and writes records.

use crate::Refusal;
use crate::graph::{Graph, HAS_RANGE, Link};
use crate::range::Range;

/// The nodes in the order of their numbers, and each node's number.
struct Numbering {
    order: [u8; 256],
    number: [u8; 256],
    count: usize,
}

/// Marks a node without a number. It is no number, since numbers are at most 254.
const NONE: u8 = u8::MAX;

/// Numbers the nodes that the root reaches, depth first, lowest feature first.
fn number(graph: &Graph) -> Numbering {
    let mut numbering = Numbering {
        order: [0; 256],
        number: [NONE; 256],
        count: 1,
    };
    numbering.number[0] = 0;
    // For each node on the path down, the places of its links that are still to be followed.
    let mut way = [(0u16, 0u16); 256];
    let mut depth = 0;
    let (mut place, mut end) = (graph.first[0], graph.first[1]);
    loop {
        if place == end {
            if depth == 0 {
                return numbering;
            }
            depth -= 1;
            (place, end) = way[depth];
            continue;
        }
        let target = graph.links[usize::from(place)].target();
        place += 1;
        if numbering.number[target] == NONE {
            numbering.number[target] = numbering.count as u8;
            numbering.order[numbering.count] = target as u8;
            numbering.count += 1;
            way[depth] = (place, end);
            depth += 1;
            (place, end) = (graph.first[target], graph.first[target + 1]);
        }
    }
}

/// Writes the record of the nodes that the root reaches, or gives 8.
pub fn write(graph: &Graph, output: &mut [u8]) -> Result<usize, Refusal> {
    let numbering = number(graph);
    let length = numbering.length(graph);
    let output = output.get_mut(..length).ok_or(Refusal::of(8))?;
    fill(graph, &numbering, output);
    Ok(length)
}

/// Writes the record, and in a second output the mark of each link, or gives 8 or 22. `marks` are
/// in the order of the links in the graph.
pub fn write_marked(
    graph: &Graph,
    marks: &[u8; 2048],
    output: &mut [u8],
    marked: &mut [u8],
) -> Result<usize, Refusal> {
    let numbering = number(graph);
    let length = numbering.length(graph);
    let output = output.get_mut(..length).ok_or(Refusal::of(8))?;
    let rows = numbering.nodes().map(|node| graph.places(node));
    let links = rows.clone().map(|row| row.len()).sum();
    let mut rest = marked.get_mut(..links).ok_or(Refusal::of(22))?;
    for row in rows {
        let (of_row, after) = rest.split_at_mut(row.len());
        of_row.copy_from_slice(&marks[row]);
        rest = after;
    }
    fill(graph, &numbering, output);
    Ok(length)
}

impl Numbering {
    /// The nodes in the order of their numbers.
    fn nodes(&self) -> impl Iterator<Item = usize> + Clone {
        let order = self.order[..self.count].iter();
        order.map(|&node| usize::from(node))
    }

    /// The length of the record.
    fn length(&self, graph: &Graph) -> usize {
        let row_length = |node: usize| {
            9 + 2 * usize::from(graph.ranges[node] != Range::FULL) + graph.places(node).len()
        };
        1 + self.nodes().map(row_length).sum::<usize>()
    }
}

/// Fills the output with the record. The output has the record's length.
fn fill(graph: &Graph, numbering: &Numbering, output: &mut [u8]) {
    output[0] = numbering.count as u8;
    let mut rest = &mut output[1..];
    for node in numbering.nodes() {
        let row = graph.row(node);
        let (node_type, range) = (graph.types[node], graph.ranges[node]);
        let label_length = if range == Range::FULL {
            rest[0] = node_type;
            1
        } else {
            rest[..3].copy_from_slice(&[node_type | HAS_RANGE, range.lowest, range.highest]);
            3
        };
        let (map_bytes, after) = rest[label_length..].split_at_mut(8);
        let (targets, after) = after.split_at_mut(row.len());
        let mut map = 0u64;
        for (target, link) in targets.iter_mut().zip(row) {
            map |= 1 << link.feature();
            *target = numbering.number[link.target()];
        }
        map_bytes.copy_from_slice(&map.to_le_bytes());
        rest = after;
    }
}

/// Makes the same graph with its written numbers.
pub fn renumber(graph: &Graph, written: &mut Graph) {
    let numbering = number(graph);
    written.nodes = numbering.count;
    let mut links = 0;
    for (new, old) in numbering.nodes().enumerate() {
        written.types[new] = graph.types[old];
        written.ranges[new] = graph.ranges[old];
        let row = graph.row(old);
        for (to, from) in written.links[links..].iter_mut().zip(row) {
            *to = Link::new(from.feature(), numbering.number[from.target()]);
        }
        links += row.len();
        written.first[new + 1] = links as u16;
    }
}
