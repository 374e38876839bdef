//! Writes a graph as text. A value that fits into the rest of a line stands there. Otherwise each of
//! its links has its own line, unless the whole text has to stand on one line. A shared node is
//! described where it is first met, lowest feature first. In the other places only its capital
//! stands.

use crate::graph::{Graph, Levels, Node};
use crate::table::Table;
use std::collections::BTreeSet;

/// A line has at most this many characters, if links can be put on lines of their own.
const WIDTH: usize = 80;

/// The text of an accepted graph, with the line's end.
pub fn write(table: &Table, graph: &Graph) -> String {
    write_within(WIDTH, table, graph)
}

/// The text of an accepted graph on one line, however long.
pub fn write_line(table: &Table, graph: &Graph) -> String {
    write_within(usize::MAX, table, graph)
}

fn write_within(width: usize, table: &Table, graph: &Graph) -> String {
    let mut writer = Writer {
        table,
        graph,
        width,
        capitals: graph.capitals(),
        widths: vec![0; graph.nodes.len()],
        first_links: BTreeSet::new(),
        text: String::new(),
    };
    writer.measure(0, &mut vec![false; graph.nodes.len()]);
    writer.value(0, 0, 0);
    writer.text + "\n"
}

/// The type of a node and, if its range is not full, its levels.
pub fn label(table: &Table, node: &Node) -> String {
    let name = table.type_written(node.node_type);
    match node.levels {
        Levels::FULL => name,
        levels => format!("{name}{levels}"),
    }
}

struct Writer<'a> {
    table: &'a Table,
    graph: &'a Graph,
    /// How many characters a line may have.
    width: usize,
    capitals: Vec<Option<String>>,
    /// For each node the width of its description on one line.
    widths: Vec<usize>,
    /// The links, by parent and feature, behind which a node is described.
    first_links: BTreeSet<(usize, u8)>,
    text: String,
}

impl Writer<'_> {
    /// A node without its links: the capital, if it is shared, the type and the levels.
    fn head(&self, node: usize) -> String {
        let shared = self.capitals[node].as_ref();
        let capital = shared.map_or(String::new(), |capital| format!("{capital} "));
        format!("{capital}{}", label(self.table, &self.graph.nodes[node]))
    }

    /// The capital of a node that is met again.
    fn capital(&self, node: usize) -> &str {
        self.capitals[node].as_deref().expect("it is met twice")
    }

    /// Finds the widths and the links behind which nodes are described.
    fn measure(&mut self, node: usize, met: &mut [bool]) -> usize {
        met[node] = true;
        let mut width = self.head(node).chars().count();
        for link in &self.graph.nodes[node].links {
            let feature = self.table.feature_written(link.feature).chars().count();
            let value = if met[link.target] {
                self.capital(link.target).len()
            } else {
                self.first_links.insert((node, link.feature));
                self.measure(link.target, met)
            };
            // A bracket or ", " before the link, and ": " within it.
            width += 2 + feature + 2 + value;
        }
        self.widths[node] = width;
        width
    }

    /// Writes the description of a node that begins at a column, in a line with an indent.
    fn value(&mut self, node: usize, indent: usize, column: usize) {
        let head = self.head(node);
        self.text += &head;
        let links = &self.graph.nodes[node].links;
        if links.is_empty() {
            return;
        }
        // Behind it a comma may follow.
        let fits = column + self.widths[node] < self.width;
        let separator = match fits {
            true => " ".to_string(),
            false => format!("\n{}", " ".repeat(indent + 2)),
        };
        self.text.push('[');
        for (place, link) in links.iter().enumerate() {
            if place > 0 {
                self.text.push(',');
            }
            if place > 0 || !fits {
                self.text += &separator;
            }
            let feature = self.table.feature_written(link.feature);
            self.text += &format!("{feature}: ");
            if self.first_links.contains(&(node, link.feature)) {
                // A value that fits whole has parts that fit, wherever they begin.
                let begin = match fits {
                    true => 0,
                    false => indent + 2 + feature.chars().count() + 2,
                };
                self.value(link.target, indent + 2, begin);
            } else {
                let capital = self.capital(link.target).to_string();
                self.text += &capital;
            }
        }
        if !fits {
            self.text += &format!("\n{}", " ".repeat(indent));
        }
        self.text.push(']');
    }
}
