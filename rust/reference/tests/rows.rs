//! Rows from the planning tool (Papers 2 and 7), sentence by sentence: by hand over the
//! diamond, each refusal and their order, and on random graphs over random tables.

use reference::calls::{export, import, rewrite, written_by};
use reference::canonical::canonical;
use reference::notation;
use reference::random::{self, Ranges, Shape, TableBytes, Xorshift};
use reference::record::{self, GraphFault, MOST_LINKS, MOST_NODES};
use reference::reply::{Refusal, Reply, Side};
use reference::rows::{NODE_BYTES, PlanningTable, Row};

/// A row that no test has, to tell which ones are filled.
const BLANK: Row = Row {
    parent: 254,
    feature: 253,
    target: 252,
};

fn row([parent, feature, target]: [u8; 3]) -> Row {
    Row {
        parent,
        feature,
        target,
    }
}

fn imported(table: &TableBytes, given: &PlanningTable) -> Result<Vec<u8>, Refusal> {
    written_by(|output| import(table.n, &table.bytes, &given.rows, &given.nodes, output))
}

/// What export fills where there is room for the largest graph; all else stays.
fn exported(table: &TableBytes, record: &[u8]) -> Result<PlanningTable, Refusal> {
    let mut rows = vec![BLANK; MOST_LINKS];
    let mut nodes = vec![77; NODE_BYTES * MOST_NODES];
    match export(table.n, &table.bytes, record, &mut rows, &mut nodes) {
        Reply::Counts {
            nodes: node_count,
            rows: row_count,
        } => {
            assert!(rows[row_count..].iter().all(|&row| row == BLANK));
            assert!(nodes[NODE_BYTES * node_count..].iter().all(|&b| b == 77));
            rows.truncate(row_count);
            nodes.truncate(NODE_BYTES * node_count);
            Ok(PlanningTable { rows, nodes })
        }
        Reply::Refused(refusal) => {
            assert!(rows.iter().all(|&row| row == BLANK) && nodes.iter().all(|&b| b == 77));
            Err(refusal)
        }
        other => panic!("{other:?}"),
    }
}

#[test]
fn by_hand() {
    let table = random::diamond();
    let written = record::write(&notation::graph(3, "top[0: X a{10..200}, 9: b[0: X]]"));
    let given = PlanningTable {
        rows: [[1, 0, 2], [0, 9, 1], [0, 0, 2]].map(row).to_vec(),
        nodes: vec![3, 0, 255, 2, 0, 255, 1, 10, 200],
    };
    assert_eq!(imported(&table, &given), Ok(written.clone()));
    let filled = PlanningTable {
        rows: [[0, 0, 1], [0, 9, 2], [2, 0, 1]].map(row).to_vec(),
        nodes: vec![3, 0, 255, 1, 10, 200, 2, 0, 255],
    };
    assert_eq!(exported(&table, &written), Ok(filled));
    // A lone node has no rows.
    let lone = PlanningTable {
        rows: Vec::new(),
        nodes: vec![3, 0, 255],
    };
    assert_eq!(
        imported(&table, &lone),
        Ok(vec![1, 3, 0, 0, 0, 0, 0, 0, 0, 0])
    );
    // "Too few rows or types lent to export is 8, both unchanged."
    for (row_room, node_room) in [(2, 9), (3, 8), (0, 0), (2, 8), (900, 8), (2, 900)] {
        let (mut rows, mut nodes) = (vec![BLANK; row_room], vec![77; node_room]);
        let reply = export(4, &table.bytes, &written, &mut rows, &mut nodes);
        assert_eq!(reply, Reply::Refused(Refusal::NoRoom));
        assert!(rows.iter().all(|&row| row == BLANK) && nodes.iter().all(|&b| b == 77));
    }
    let (mut rows, mut nodes) = ([BLANK; 3], [77; 9]);
    let reply = export(4, &table.bytes, &written, &mut rows, &mut nodes);
    assert_eq!(reply, Reply::Counts { nodes: 3, rows: 3 });
    assert_eq!(rows[2], row([2, 0, 1]));
}

/// Each fault alone over a root with two links, and before those that come later.
#[test]
fn each_refusal_and_their_order() {
    let table = random::diamond();
    let good = PlanningTable {
        rows: [[0, 0, 1], [0, 63, 1]].map(row).to_vec(),
        nodes: vec![3, 0, 255, 1, 10, 10],
    };
    assert!(imported(&table, &good).is_ok());
    let of_graph = |fault| Refusal::Graph(fault, Side::First);
    type Damage = fn(&mut PlanningTable);
    let faults: [(Refusal, &[Damage]); 6] = [
        (
            of_graph(GraphFault::Malformed),
            &[
                |given| given.nodes.push(1),
                |given| given.nodes.extend([1, 0]),
                |given| given.nodes.truncate(5),
                |given| given.nodes.clear(),
                |given| given.nodes.resize(3 * 256, 1),
                |given| given.rows.resize(2049, row([0, 1, 1])),
            ],
        ),
        (
            Refusal::RowOutOfRange,
            &[
                |given| given.rows.push(row([0, 64, 1])),
                |given| given.rows.push(row([0, 255, 1])),
                |given| given.rows.push(row([200, 1, 1])),
                |given| given.rows.push(row([0, 1, 200])),
                |given| given.rows.insert(0, row([255, 255, 255])),
            ],
        ),
        (
            Refusal::RowTwice,
            &[
                |given| given.rows.push(row([0, 0, 0])),
                |given| given.rows.insert(0, row([0, 63, 1])),
            ],
        ),
        (
            of_graph(GraphFault::OutOfRange),
            &[
                |given| given.nodes[0] = 0,
                |given| given.nodes[0] = 4,
                |given| given.nodes[0] = 0x83,
                |given| given.nodes[0] = 0x80,
                |given| given.nodes[1..3].copy_from_slice(&[1, 0]),
            ],
        ),
        (
            of_graph(GraphFault::Cyclic),
            &[
                |given| given.rows.push(row([1, 0, 0])),
                |given| given.rows.push(row([1, 9, 1])),
            ],
        ),
        (
            of_graph(GraphFault::Unreached),
            &[|given| given.nodes.extend([1, 0, 255])],
        ),
    ];
    for (place, &(first, damages)) in faults.iter().enumerate() {
        for damage in damages {
            let mut damaged = good.clone();
            damage(&mut damaged);
            assert_eq!(imported(&table, &damaged), Err(first), "{damaged:?}");
            for &(_, later) in &faults[place + 1..] {
                for second in later {
                    let mut both = good.clone();
                    second(&mut both);
                    damage(&mut both);
                    assert_eq!(imported(&table, &both), Err(first), "{both:?}");
                }
            }
        }
    }
    let reply = import(5, &table.bytes, &[], &[], &mut []);
    assert_eq!(reply.number(), Some(1));
    let reply = import(4, &table.bytes, &good.rows, &good.nodes, &mut [0; 22]);
    assert_eq!(reply.number(), Some(8));
}

/// "Importing what was exported yields the written record", and exporting what was imported
/// gives the rows of the graph as it is written; neither the order of the rows nor the
/// numbers of the nodes matter.
#[test]
fn there_and_back() {
    let random = &mut Xorshift::stored(151);
    for _ in 0..600 {
        let table = random::valid_table(random);
        let shape = Shape::any(random).ranged(random, Ranges::Present);
        let graph = random::graph(random, table.n, &shape);
        let record = random::record_of(random, &graph, Ranges::Present);
        let written = written_by(|output| rewrite(table.n, &table.bytes, &record, output));
        let filled = exported(&table, &record).expect("a graph");
        assert_eq!(filled, PlanningTable::of(&canonical(&graph)));
        assert!(filled.rows.is_sorted());
        assert_eq!(imported(&table, &filled), written);
        let other = random::renumbered(random, &graph);
        let given = random::planning_table(random, &other);
        let again = imported(&table, &given);
        assert_eq!(again, written);
        assert_eq!(exported(&table, &again.expect("a record")), Ok(filled));
    }
}

/// The generator brings up every refusal.
#[test]
fn damaged_tables_are_refused_in_every_way() {
    let random = &mut Xorshift::stored(153);
    let mut counts = [0; 16];
    for _ in 0..3_000 {
        let table = random::valid_table(random);
        let given = random::damaged_planning_table(random, table.n, Ranges::Present);
        let number = imported(&table, &given).map_or_else(Refusal::number, |_| 0);
        counts[usize::from(number)] += 1;
    }
    for number in [4, 5, 6, 7, 14, 15] {
        assert!(counts[number] >= 100 || !random::is_stored(), "{counts:?}");
    }
}
