//! The peer imports and exports planning tables as the engine and the reference do. The planning
//! tables are whole or damaged, and the outputs are long enough or too short.

mod told;

use comparison::Told;
use record_engine::{LONGEST_RECORD, MOST_LINKS, MOST_NODES};
use reference::calls;
use reference::random::{self, Ranges, Shape, TableBytes, Xorshift};
use reference::rows::{self, PlanningTable};
use told::told;

/// Makes one import by all three. Gives the number of the refusal, or 0 for a length.
fn check_import(table: &TableBytes, planned: &PlanningTable, room: usize) -> usize {
    let (n, bytes) = (table.n, &table.bytes[..]);
    let run = |work: &dyn Fn(&mut [u8]) -> Told| {
        let mut output = vec![7; room];
        (work(&mut output), output)
    };
    let parts = |row: &rows::Row| (row.parent, row.feature, row.target);
    let ours: Vec<peer::Row> = planned.rows.iter().map(parts).map(peer_row).collect();
    let engines: Vec<record_engine::Row> = planned.rows.iter().map(parts).map(engine_row).collect();
    let nodes = &planned.nodes[..];
    let by_peer = run(&|out| told(peer::import(n, bytes, &ours, nodes, out), Told::Length));
    let by_engine = run(&|out| record_engine::import(n, bytes, &engines, nodes, out).into());
    let by_reference = run(&|out| calls::import(n, bytes, &planned.rows, nodes, out).into());
    assert!(
        by_peer == by_engine,
        "{:?} {table:?} {planned:?}",
        by_peer.0
    );
    assert!(
        by_peer == by_reference,
        "{:?} {table:?} {planned:?}",
        by_peer.0
    );
    number(by_peer.0)
}

/// Makes one export by all three, into the given numbers of rows and bytes.
fn check_export(table: &TableBytes, record: &[u8], rooms: [usize; 2]) -> usize {
    let (n, bytes) = (table.n, &table.bytes[..]);
    let [rows, nodes] = rooms;
    let any = (7, 7, 7);
    let mut by_peer = (vec![peer_row(any); rows], vec![7; nodes]);
    let counts = peer::export(n, bytes, record, &mut by_peer.0, &mut by_peer.1);
    let reply = told(counts, |counts| Told::Counts(counts.nodes, counts.rows));
    let mut by_engine = (vec![engine_row(any); rows], vec![7; nodes]);
    let engine = record_engine::export(n, bytes, record, &mut by_engine.0, &mut by_engine.1);
    assert_eq!(reply, engine.into(), "{table:?} {record:?}");
    let row = rows::Row {
        parent: 7,
        feature: 7,
        target: 7,
    };
    let mut by_reference = (vec![row; rows], vec![7; nodes]);
    let judged = calls::export(n, bytes, record, &mut by_reference.0, &mut by_reference.1);
    assert_eq!(reply, judged.into(), "{table:?} {record:?}");
    let ours = by_peer.0.iter();
    let ours: Vec<_> = ours
        .map(|row| (row.parent, row.feature, row.target))
        .collect();
    let engines = by_engine.0.iter();
    let engines = engines.map(|row| (row.parent, row.feature, row.target));
    let judged = by_reference.0.iter();
    let judged = judged.map(|row| (row.parent, row.feature, row.target));
    assert!(ours.iter().copied().eq(engines), "{table:?} {record:?}");
    assert!(ours.iter().copied().eq(judged), "{table:?} {record:?}");
    assert!(by_peer.1 == by_engine.1, "{table:?} {record:?}");
    assert!(by_peer.1 == by_reference.1, "{table:?} {record:?}");
    number(reply)
}

fn peer_row((parent, feature, target): (u8, u8, u8)) -> peer::Row {
    peer::Row {
        parent,
        feature,
        target,
    }
}

fn engine_row((parent, feature, target): (u8, u8, u8)) -> record_engine::Row {
    record_engine::Row {
        parent,
        feature,
        target,
    }
}

/// The number of a refusal, or 0 for no refusal.
fn number(told: Told) -> usize {
    match told {
        Told::Refused(number, _) => usize::from(number),
        _ => 0,
    }
}

fn any_table(random: &mut Xorshift) -> TableBytes {
    match random.chance(1, 8) {
        true => random::damaged_table(random),
        false => random::valid_table(random),
    }
}

#[test]
fn import() {
    let random = &mut Xorshift::stored(51);
    let mut counts = [0; 25];
    for round in 0..6_000 {
        let ranges = [Ranges::Absent, Ranges::Present][round % 2];
        let table = any_table(random);
        let n = table.n.clamp(2, 64);
        let planned = match random.chance(2, 3) {
            true => random::damaged_planning_table(random, n, ranges),
            false => random::valid_planning_table(random, n, ranges),
        };
        let small = random.pick(100);
        let room = *random.choose(&[LONGEST_RECORD, LONGEST_RECORD, small]);
        counts[check_import(&table, &planned, room)] += 1;
    }
    for number in [0, 1, 2, 3, 4, 5, 6, 7, 8, 14, 15] {
        let enough = counts[number] >= 5 || !random::is_stored();
        assert!(enough, "{number}: {counts:?}");
    }
}

#[test]
fn export() {
    let random = &mut Xorshift::stored(52);
    let mut counts = [0; 25];
    for round in 0..6_000 {
        let ranges = [Ranges::Absent, Ranges::Present][round % 2];
        let table = any_table(random);
        let n = table.n.clamp(2, 64);
        let record = match random.pick(8) {
            0 => random::damaged_record(random, n, ranges),
            1 => random::valid_record(random, n, ranges),
            _ => {
                let shape = Shape::small(random, 9, 4).ranged(random, ranges);
                let graph = random::graph(random, n, &shape);
                random::record_of(random, &graph, ranges)
            }
        };
        let longest = [MOST_LINKS, 3 * MOST_NODES];
        let few = [random.pick(20), random.pick(40)];
        let rooms = *random.choose(&[longest, few]);
        counts[check_export(&table, &record, rooms)] += 1;
    }
    for number in [0, 1, 2, 3, 4, 5, 6, 7, 8] {
        let enough = counts[number] >= 5 || !random::is_stored();
        assert!(enough, "{number}: {counts:?}");
    }
}
