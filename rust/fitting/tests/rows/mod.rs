//! The planning table of a record, as the engine fills it.

use fitting::planning::NodeBytes;
use fitting::table::Table;
use record_engine::{MOST_LINKS, MOST_NODES, Row, export};

/// The rows and the nodes of an accepted record.
pub fn exported(table: &Table, record: &[u8]) -> (Vec<Row>, Vec<NodeBytes>) {
    let (mut rows, mut nodes) = (vec![Row::default(); MOST_LINKS], vec![[0; 3]; MOST_NODES]);
    let lent = nodes.as_flattened_mut();
    let counts = export(table.n, &table.bytes, record, &mut rows, lent).expect("accepted");
    rows.truncate(counts.rows);
    nodes.truncate(counts.nodes);
    (rows, nodes)
}
