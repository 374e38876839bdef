//! Compares import and export by the proved engine with those of the reference. Both get the same
//! call on the same rows and bytes. The replies, and the rows and bytes of all lent buffers, have
//! to be the same.

use crate::counts::Counts;
use crate::exact_and_short;
use crate::lent::Lent;
use record_engine::Row;
use reference::calls;
use reference::random::{TableBytes, Xorshift};
use reference::record::{LONGEST_RECORD, MOST_LINKS, MOST_NODES};
use reference::reply::Reply;
use reference::rows::{self, NODE_BYTES, PlanningTable};

/// A comparison of import and export, and how often each reply came.
pub struct PlanningTables {
    random: Xorshift,
    /// The replies of import.
    pub imported: Counts,
    /// The replies of export.
    pub exported: Counts,
}

impl PlanningTables {
    /// A comparison. The seed decides what lent rows and bytes hold.
    pub fn new(seed: u64) -> PlanningTables {
        PlanningTables {
            random: Xorshift::stored(seed),
            imported: Counts::default(),
            exported: Counts::default(),
        }
    }

    /// Imports with room for every record. Gives the reply and the record that is written. The
    /// import is also made with outputs of no bytes and of any length. If there is a result, it is
    /// also made with outputs that are as long as the record, shorter by one byte, and longer.
    pub fn import(&mut self, table: &TableBytes, given: &PlanningTable) -> (Reply, Vec<u8>) {
        let (reply, written) = self.import_within(table, given, LONGEST_RECORD);
        let exact = written.len();
        let any = self.random.pick(LONGEST_RECORD);
        let more = exact + self.random.between(1, 9);
        for room in [0, any, exact.saturating_sub(1), exact, more] {
            let (again, bytes) = self.import_within(table, given, room);
            match reply {
                Reply::Length(length) if room < length => assert_eq!(again.number(), Some(8)),
                _ => assert_eq!((again, &bytes), (reply, &written)),
            }
        }
        (reply, written)
    }

    /// Imports with an output of the given length. A refusal changes no byte, and bytes behind the
    /// record are unchanged.
    pub fn import_within(
        &mut self,
        table: &TableBytes,
        given: &PlanningTable,
        room: usize,
    ) -> (Reply, Vec<u8>) {
        let (n, bytes, nodes) = (table.n, &table.bytes, &given.nodes);
        let lent_rows: Vec<Row> = given.rows.iter().copied().map(to_engine).collect();
        let before = Lent::new(&mut self.random, room);
        let (mut by_engine, mut by_reference) = (before.clone(), before.clone());
        let told = record_engine::import(n, bytes, &lent_rows, nodes, by_engine.output()).into();
        let reply = calls::import(n, bytes, &given.rows, nodes, by_reference.output());
        let context = || format!("{room} bytes for {given:?} over {table:?}");
        assert_eq!(told, reply.into(), "{}", context());
        assert!(by_engine == by_reference, "{}", context());
        let refused = reply.number().is_some();
        assert!(!refused || by_engine == before, "{}", context());
        self.imported.count(told);
        let written = match reply {
            Reply::Length(length) => by_engine.first(length),
            _ => Vec::new(),
        };
        (reply, written)
    }

    /// Exports with room for every graph. Gives the reply, and the rows and node bytes that are
    /// filled. The export is also made with no room and with any room. If there is a result, it is
    /// also made with as many rows and bytes as the result has, with one less of either and of both,
    /// and with more.
    pub fn export(&mut self, table: &TableBytes, record: &[u8]) -> (Reply, PlanningTable) {
        let most = [MOST_LINKS, NODE_BYTES * MOST_NODES];
        let (reply, filled) = self.export_within(table, record, most);
        let counts = [filled.rows.len(), filled.nodes.len()];
        let more = self.random.between(1, 9);
        let mut rooms = exact_and_short(&counts);
        rooms.push(counts.map(|count| count + more).to_vec());
        rooms.push(most.map(|most| self.random.pick(most)).to_vec());
        rooms.extend([vec![counts[0], most[1]], vec![most[0], counts[1]]]);
        rooms.push(vec![0, 0]);
        for room in rooms {
            let room = [room[0], room[1]];
            let (again, same) = self.export_within(table, record, room);
            let short = room[0] < counts[0] || room[1] < counts[1];
            match reply {
                Reply::Counts { .. } if short => assert_eq!(again.number(), Some(8)),
                _ => assert_eq!((again, &same), (reply, &filled)),
            }
        }
        (reply, filled)
    }

    /// Exports into the given numbers of rows and node bytes. A refusal changes neither, and what
    /// is not filled is unchanged.
    pub fn export_within(
        &mut self,
        table: &TableBytes,
        record: &[u8],
        [row_room, node_room]: [usize; 2],
    ) -> (Reply, PlanningTable) {
        let (n, bytes) = (table.n, &table.bytes);
        let rows_before = Lent::rows(&mut self.random, row_room);
        let nodes_before = Lent::new(&mut self.random, node_room);
        let (mut rows, mut nodes) = (rows_before.clone(), nodes_before.clone());
        let told = record_engine::export(n, bytes, record, rows.output(), nodes.output()).into();
        let mut reference_rows = rows_before.map(to_reference);
        let mut reference_nodes = nodes_before.clone();
        let lent = (reference_rows.output(), reference_nodes.output());
        let reply = calls::export(n, bytes, record, lent.0, lent.1);
        let context = || format!("{row_room} rows, {node_room} bytes, {record:?}, {table:?}");
        assert_eq!(told, reply.into(), "{}", context());
        assert!(rows.map(to_reference) == reference_rows, "{}", context());
        assert!(nodes == reference_nodes, "{}", context());
        let unchanged = rows == rows_before && nodes == nodes_before;
        let refused = reply.number().is_some();
        assert!(!refused || unchanged, "{}", context());
        self.exported.count(told);
        let [row_count, node_count] = match reply {
            Reply::Counts { nodes, rows } => [rows, nodes],
            _ => [0, 0],
        };
        let filled = PlanningTable {
            rows: reference_rows.first(row_count),
            nodes: nodes.first(NODE_BYTES * node_count),
        };
        (reply, filled)
    }
}

/// A row of the reference as a row of the engine.
fn to_engine(row: rows::Row) -> Row {
    let rows::Row {
        parent,
        feature,
        target,
    } = row;
    Row {
        parent,
        feature,
        target,
    }
}

/// A row of the engine as a row of the reference.
fn to_reference(row: Row) -> rows::Row {
    let Row {
        parent,
        feature,
        target,
    } = row;
    rows::Row {
        parent,
        feature,
        target,
    }
}
