//! Writes a planning table as CSV, with the names that the table gives to types and features.

use super::{LINKS, NODES, NodeBytes};
use crate::table::Table;
use record_engine::Row;

/// The nodes by their numbers, below their header.
pub fn nodes(table: &Table, nodes: &[NodeBytes]) -> String {
    let mut text = header(&NODES);
    for (number, &[node_type, lowest, highest]) in nodes.iter().enumerate() {
        let name = cell(table.type_name(node_type));
        text += &format!("{number},{name},{lowest},{highest}\n");
    }
    text
}

/// The links in the order of the rows, below their header.
pub fn links(table: &Table, rows: &[Row]) -> String {
    let mut text = header(&LINKS);
    for row in rows {
        let name = cell(table.feature_name(row.feature));
        text += &format!("{},{name},{}\n", row.parent, row.target);
    }
    text
}

fn header(columns: &[&str]) -> String {
    format!("{}\n", columns.join(","))
}

/// A name as a cell: in quotation marks if it has a separator. A name has no quotation mark itself.
fn cell(name: String) -> String {
    match name.contains([',', ';']) {
        true => format!("\"{name}\""),
        false => name,
    }
}
