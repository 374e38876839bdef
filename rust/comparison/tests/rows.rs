//! Planning tables (Papers 2 and 7) by the proved engine and by the reference: random planning
//! tables in any order and numbering, damaged ones with several faults at once, the order of the
//! checks, the limits, and export and import after each other.

use comparison::PlanningTables;
use record_engine::{Counts, MOST_LINKS, MOST_NODES, Refusal, Row};
use reference::calls::{rewrite, written_by};
use reference::canonical::canonical;
use reference::graph::{Graph, Node};
use reference::notation;
use reference::random::{self, Ranges, Shape, TableBytes, Xorshift};
use reference::record;
use reference::reply::{self, Reply};
use reference::rows::{self, NODE_BYTES, PlanningTable};

fn row([parent, feature, target]: [u8; 3]) -> rows::Row {
    rows::Row {
        parent,
        feature,
        target,
    }
}

/// A planning table from its rows and its nodes.
fn planning_table<const R: usize>(rows: [[u8; 3]; R], nodes: &[[u8; 3]]) -> PlanningTable {
    PlanningTable {
        rows: rows.map(row).to_vec(),
        nodes: nodes.concat(),
    }
}

fn any_table(random: &mut Xorshift) -> TableBytes {
    match random.chance(1, 8) {
        true => random::damaged_table(random),
        false => random::valid_table(random),
    }
}

/// Imports of planning tables, of which half are damaged.
fn compare_imports(seed: u64, ranges: Ranges) {
    let mut both = PlanningTables::new(seed);
    let random = &mut Xorshift::stored(seed + 1);
    for _ in 0..2_000 {
        let table = any_table(random);
        // A table that is refused may state any n.
        let n = table.n.clamp(2, 64);
        for _ in 0..4 {
            let given = match random.chance(1, 2) {
                true => random::damaged_planning_table(random, n, ranges),
                false => random::valid_planning_table(random, n, ranges),
            };
            both.import(&table, &given);
        }
    }
    let numbers = [0, 1, 2, 3, 4, 5, 6, 7, 8, 14, 15];
    both.imported.assert_replies(&numbers, 100);
    both.imported.assert_only_side(0);
}

#[test]
fn random_imports() {
    compare_imports(501, Ranges::Absent);
}

#[test]
fn random_imports_with_ranges() {
    compare_imports(503, Ranges::Present);
}

/// Exports of records, of which some are damaged.
fn compare_exports(seed: u64, ranges: Ranges) {
    let mut both = PlanningTables::new(seed);
    let random = &mut Xorshift::stored(seed + 1);
    for _ in 0..2_000 {
        let table = any_table(random);
        let n = table.n.clamp(2, 64);
        for _ in 0..4 {
            let record = match random.chance(1, 3) {
                true => random::damaged_record(random, n, ranges),
                false => random::valid_record(random, n, ranges),
            };
            both.export(&table, &record);
        }
    }
    both.exported.assert_replies(&[1, 2, 3, 4, 5, 6, 7, 8], 50);
    both.exported.assert_fills(5_000);
    both.exported.assert_only_side(0);
}

#[test]
fn random_exports() {
    compare_exports(505, Ranges::Absent);
}

#[test]
fn random_exports_with_ranges() {
    compare_exports(507, Ranges::Present);
}

/// "Importing what was exported yields the written record." Exporting what was imported
/// gives the rows sorted by parent and then feature, with the written numbers. The order of
/// the rows and the numbers of the nodes do not matter.
#[test]
fn there_and_back() {
    let mut both = PlanningTables::new(509);
    let random = &mut Xorshift::stored(510);
    let mut counts = [0; 2];
    for _ in 0..1_000 {
        let table = random::valid_table(random);
        let shape = match random.chance(1, 10) {
            true => Shape::large(random),
            false => Shape::any(random),
        };
        let shape = shape.ranged(random, Ranges::Present);
        let graph = random::graph(random, table.n, &shape);
        let record = random::record_of(random, &graph, Ranges::Present);
        let written = written_by(|output| rewrite(table.n, &table.bytes, &record, output));
        let written = written.expect("a record");
        let (reply, filled) = both.export(&table, &record);
        let [nodes, links] = [graph.nodes.len(), graph.link_count()];
        assert_eq!(reply, Reply::Counts { nodes, rows: links });
        counts = [counts[0].max(nodes), counts[1].max(links)];
        assert!(
            filled
                .rows
                .is_sorted_by_key(|row| (row.parent, row.feature))
        );
        assert_eq!(filled, PlanningTable::of(&canonical(&graph)));
        assert_eq!(both.import(&table, &filled).1, written);
        // Any numbering with the root at 0, and rows in any order.
        let other = random::renumbered(random, &graph);
        for _ in 0..3 {
            let given = random::planning_table(random, &other);
            assert_eq!(both.import_within(&table, &given, 4854).1, written);
        }
        assert_eq!(both.export(&table, &written).1, filled);
    }
    assert!(counts == [255, 2048] || !random::is_stored(), "{counts:?}");
}

/// Two tables that hold the same rows get one reply and one output, also where they are
/// refused.
#[test]
fn any_order_of_rows_gives_one_reply() {
    let mut both = PlanningTables::new(511);
    let random = &mut Xorshift::stored(512);
    for _ in 0..3_000 {
        let table = random::valid_table(random);
        let given = match random.chance(2, 3) {
            true => random::damaged_planning_table(random, table.n, Ranges::Present),
            false => random::valid_planning_table(random, table.n, Ranges::Present),
        };
        let room = *random.choose(&[0, 20, 60, 4854]);
        let first = both.import_within(&table, &given, room);
        let mut turned = given.clone();
        random.shuffle(&mut turned.rows);
        assert_eq!(both.import_within(&table, &turned, room), first);
        turned.rows.sort_unstable();
        assert_eq!(both.import_within(&table, &turned, room), first);
    }
    both.imported
        .assert_replies(&[0, 4, 5, 6, 7, 8, 14, 15], 100);
}

/// A way to make a fault on `good`.
type Damage = fn(&mut PlanningTable);

/// The faults of an import in the order of the checks, each beside ways to make it.
const FAULTS: [(u8, &[Damage]); 6] = [
    (
        4,
        &[
            |given| given.nodes.push(1),
            |given| given.nodes.extend([1, 0]),
            |given| given.nodes.clear(),
            |given| given.nodes.resize(3 * 256, 1),
            |given| given.rows.resize(2049, row([0, 1, 1])),
        ],
    ),
    (
        14,
        &[
            |given| given.rows.push(row([0, 64, 1])),
            |given| given.rows.insert(0, row([0, 255, 1])),
            |given| given.rows.push(row([3, 1, 1])),
            |given| given.rows.insert(1, row([0, 1, 3])),
        ],
    ),
    (
        15,
        &[
            |given| given.rows.push(row([0, 0, 0])),
            |given| given.rows.insert(0, row([0, 63, 1])),
        ],
    ),
    (
        5,
        &[
            |given| given.nodes[0] = 0,
            |given| given.nodes[0] = 4,
            |given| given.nodes[0] = 0x83,
            |given| given.nodes[1..3].copy_from_slice(&[1, 0]),
        ],
    ),
    (
        6,
        &[
            |given| given.rows.push(row([1, 0, 0])),
            |given| given.rows.push(row([1, 9, 1])),
        ],
    ),
    (7, &[|given| given.nodes.extend([1, 0, 255])]),
];

fn good() -> PlanningTable {
    planning_table([[0, 0, 1], [0, 63, 1]], &[[3, 0, 255], [1, 10, 10]])
}

/// Every set of faults at once: 1, 2, 3, 4, 14, 15, 5, 6, 7 and 8, each before those that
/// follow, 4 to 7 of the first graph, and no byte of the output changed.
#[test]
fn the_order_of_checks_of_import() {
    let diamond = random::diamond();
    let mut both = PlanningTables::new(513);
    let (_, written) = both.import(&diamond, &good());
    assert_eq!(written.len(), 1 + 9 + 2 + 11);
    for (fault, table) in tables() {
        for chosen in 0..1 << FAULTS.len() {
            let of_chosen = |place: &usize| chosen >> place & 1 == 1;
            let places: Vec<usize> = (0..FAULTS.len()).filter(of_chosen).collect();
            // The ways are taken in turn; all come up.
            for way in 0..5 {
                let mut given = good();
                for &place in places.iter().rev() {
                    let (_, ways) = FAULTS[place];
                    ways[way % ways.len()](&mut given);
                }
                let first = fault.or(places.first().map(|&place| FAULTS[place].0));
                for (room, short) in [(0, true), (22, true), (23, false), (4854, false)] {
                    let (reply, _) = both.import_within(&table, &given, room);
                    let expected = first.or(short.then_some(8));
                    assert_eq!(reply.number(), expected, "{given:?} {room}");
                    let side = match reply {
                        Reply::Refused(refusal) => refusal.side(),
                        _ => None,
                    };
                    let of_graph = matches!(expected, Some(4..=7));
                    assert_eq!(side, of_graph.then_some(reply::Side::First));
                }
            }
        }
    }
    let numbers = [0, 1, 2, 3, 4, 5, 6, 7, 8, 14, 15];
    both.imported.assert_replies(&numbers, 10);
}

/// 1 to 3, 4 to 7 of the first graph, and 8, each before those that follow, and no row and
/// no byte changed.
#[test]
fn the_order_of_checks_of_export() {
    let node = [0; 8];
    let malformed = vec![0];
    let out_of_range = [&[1, 9][..], &node].concat();
    let cyclic = [&[1, 1, 1][..], &node[1..], &[0]].concat();
    let unreached = [&[2, 1][..], &node, &[1], &node].concat();
    let good = record::write(&notation::graph(3, "a[0: b]"));
    let records = [&malformed, &out_of_range, &cyclic, &unreached, &good];
    let mut both = PlanningTables::new(515);
    for (fault, table) in tables() {
        for (place, record) in records.into_iter().enumerate() {
            let of_record = (place < 4).then_some(4 + place as u8);
            for room in [[0, 0], [0, 6], [1, 5], [1, 6], [2048, 765]] {
                let (reply, _) = both.export_within(&table, record, room);
                let short = room[0] < 1 || room[1] < 6;
                let expected = fault.or(of_record).or(short.then_some(8));
                assert_eq!(reply.number(), expected, "{record:?} {room:?}");
            }
        }
    }
    both.exported.assert_replies(&[1, 2, 3, 4, 5, 6, 7, 8], 3);
    both.exported.assert_only_side(0);
    both.exported.assert_fills(2);
}

/// A table for each of 1, 2 and 3, and the diamond.
fn tables() -> [(Option<u8>, TableBytes); 4] {
    let diamond = random::diamond();
    let other_size = TableBytes {
        n: 5,
        bytes: diamond.bytes.clone(),
    };
    let no_order = TableBytes {
        n: 4,
        bytes: vec![0; 32],
    };
    let no_bounds = TableBytes::of_relation(6, |j, i| {
        j == i || j == 0 || i == 5 || (j < 3 && (i == 3 || i == 4))
    });
    [
        (Some(1), other_size),
        (Some(2), no_order),
        (Some(3), no_bounds),
        (None, diamond),
    ]
}

/// The limits, each from both sides.
#[test]
fn limits() {
    let diamond = random::diamond();
    let mut both = PlanningTables::new(517);
    let mut number = |given: &PlanningTable| both.import(&diamond, given).0.number();
    let top = [3, 0, 255];
    // Nodes: none, one, 255 and 256.
    assert_eq!(number(&planning_table([], &[])), Some(4));
    assert_eq!(number(&planning_table([], &[top])), None);
    let chain = |count: usize| PlanningTable {
        rows: (0..count - 1)
            .map(|parent| row([parent as u8, 7, parent as u8 + 1]))
            .collect(),
        nodes: top.repeat(count),
    };
    assert_eq!(number(&chain(255)), None);
    assert_eq!(number(&chain(256)), Some(4));
    assert_eq!(
        number(&PlanningTable {
            rows: Vec::new(),
            ..chain(256)
        }),
        Some(4)
    );
    // Rows: nine from each node to the next, in all 2,047 to 2,049.
    let dense = |count: usize| {
        let rows = (0..254)
            .flat_map(|parent| (0..9).map(move |feature| row([parent, 7 * feature, parent + 1])));
        PlanningTable {
            rows: rows.take(count).collect(),
            ..chain(255)
        }
    };
    // The first 2,047 to 2,049 rows leave 228 nodes and reach one more.
    let reached = |count: usize| PlanningTable {
        nodes: top.repeat(229),
        ..dense(count)
    };
    assert_eq!(number(&reached(2047)), None);
    assert_eq!(number(&reached(2048)), None);
    assert_eq!(number(&reached(2049)), Some(4));
    assert_eq!(number(&dense(2048)), Some(7));
    let many = |count: usize| PlanningTable {
        rows: vec![row([9, 99, 9]); count],
        nodes: top.to_vec(),
    };
    assert_eq!(number(&many(2048)), Some(14));
    assert_eq!(number(&many(2049)), Some(4));
    assert_eq!(number(&many(70_000)), Some(4));
    // Node bytes.
    for length in 1..=3 * 255 + 3 {
        let given = PlanningTable {
            rows: Vec::new(),
            nodes: top.iter().copied().cycle().take(length).collect(),
        };
        let expected = match length {
            3 => None,
            _ if length % 3 != 0 || length > 3 * 255 => Some(4),
            _ => Some(7),
        };
        assert_eq!(number(&given), expected, "{length}");
    }
    // Features, parents and targets.
    let two = [top, top];
    for byte in 0..=255 {
        let feature = number(&planning_table([[0, byte, 1]], &two));
        assert_eq!(feature, (byte > 63).then_some(14), "{byte}");
        let parent = number(&planning_table([[0, 0, 1], [byte, 1, 1]], &two));
        let expected = [None, Some(6)].get(usize::from(byte)).copied();
        assert_eq!(parent, expected.unwrap_or(Some(14)), "{byte}");
        let target = number(&planning_table([[0, 0, 1], [0, 1, byte]], &two));
        let expected = [Some(6), None].get(usize::from(byte)).copied();
        assert_eq!(target, expected.unwrap_or(Some(14)), "{byte}");
    }
    // Of 255 nodes, 254 is the last number and 255 is outside.
    for (parent, target, expected) in [(253, 254, None), (255, 254, Some(14)), (0, 255, Some(14))] {
        let mut given = chain(255);
        given.rows.push(row([parent, 8, target]));
        assert_eq!(number(&given), expected);
    }
    // Types, with bit 7 and without, and levels.
    for byte in 0..=255 {
        let of_type = number(&planning_table([], &[[byte, 0, 255]]));
        let expected = (!(1..=3).contains(&byte)).then_some(5);
        assert_eq!(of_type, expected, "{byte}");
        let lowest = number(&planning_table([], &[[3, byte, 100]]));
        assert_eq!(lowest, (byte > 100).then_some(5), "{byte}");
        let highest = number(&planning_table([], &[[3, 100, byte]]));
        assert_eq!(highest, (byte < 100).then_some(5), "{byte}");
    }
}

/// The limits of 64 types: 63 is the last, and each of 64 to 255 is refused, bit 7 or not.
#[test]
fn types_of_a_large_table() {
    let mut both = PlanningTables::new(519);
    for table in [random::boolean(6), random::chain(64)] {
        for byte in 0..=255 {
            let given = planning_table([], &[[byte, 0, 254]]);
            let (reply, written) = both.import(&table, &given);
            match byte {
                1..=63 => {
                    assert_eq!(written[..4], [1, 0x80 | byte, 0, 254]);
                    assert_eq!(both.export(&table, &written).1, given);
                }
                _ => assert_eq!(reply.number(), Some(5), "{byte}"),
            }
        }
    }
}

/// The largest graph, 255 nodes and 2,048 links with a range at every node: it is the
/// longest record, and it goes there and back.
#[test]
fn the_largest_graph() {
    let table = random::diamond();
    let mut both = PlanningTables::new(521);
    let mut graph = random::ladder(255, &[0, 9, 18, 27, 36, 45, 54, 63], 3);
    for parent in [0, 1] {
        let links = (1..=8).map(|feature| (feature, 254));
        graph.nodes[parent].links.extend(links);
    }
    for node in &mut graph.nodes {
        node.label.range.highest = 100;
    }
    let random = &mut Xorshift::stored(522);
    let other = random::renumbered(random, &graph);
    let given = random::planning_table(random, &other);
    assert_eq!([given.rows.len(), given.nodes.len()], [2048, 765]);
    let (reply, written) = both.import(&table, &given);
    assert_eq!(reply, Reply::Length(4854));
    let (reply, filled) = both.export(&table, &written);
    assert_eq!(
        reply,
        Reply::Counts {
            nodes: 255,
            rows: 2048
        }
    );
    assert_eq!(filled, PlanningTable::of(&canonical(&graph)));
    assert_eq!(both.import(&table, &filled).1, written);
    // The wrapper's constants are enough, and one less of either is not.
    let mut lent = (
        vec![Row::default(); MOST_LINKS],
        vec![0; NODE_BYTES * MOST_NODES],
    );
    let mut export = |rows: usize, nodes: usize| {
        let (rows, nodes) = (&mut lent.0[..rows], &mut lent.1[..nodes]);
        record_engine::export(table.n, &table.bytes, &written, rows, nodes)
    };
    let counts = Counts {
        nodes: 255,
        rows: 2048,
    };
    assert_eq!(export(2048, 765), Ok(counts));
    assert_eq!(export(2047, 765), Err(Refusal::NoRoom));
    assert_eq!(export(2048, 764), Err(Refusal::NoRoom));
}

/// Every byte of a small planning table changed to every other, every row left out, doubled
/// and moved, and every cut of the node bytes.
#[test]
fn every_changed_byte_row_and_length() {
    let table = random::diamond();
    let mut both = PlanningTables::new(523);
    let given = planning_table(
        [[2, 0, 1], [0, 9, 2], [0, 0, 1], [2, 63, 3]],
        &[[3, 0, 255], [1, 10, 200], [2, 0, 255], [3, 7, 7]],
    );
    assert_eq!(both.import(&table, &given).0.number(), None);
    for place in 0..given.rows.len() {
        for byte in 0..=255 {
            let changes: [fn(&mut rows::Row) -> &mut u8; 3] = [
                |row| &mut row.parent,
                |row| &mut row.feature,
                |row| &mut row.target,
            ];
            for field in changes {
                let mut changed = given.clone();
                *field(&mut changed.rows[place]) = byte;
                both.import_within(&table, &changed, 4854);
            }
        }
        let mut without = given.clone();
        let row = without.rows.remove(place);
        assert_eq!(
            both.import(&table, &without).0.number().is_some(),
            place != 0 && place != 2
        );
        for other in 0..=without.rows.len() {
            let mut moved = without.clone();
            moved.rows.insert(other, row);
            assert_eq!(both.import(&table, &moved), both.import(&table, &given));
            let mut doubled = given.clone();
            doubled.rows.insert(other, row);
            assert_eq!(both.import(&table, &doubled).0.number(), Some(15));
        }
    }
    for place in 0..given.nodes.len() {
        for byte in 0..=255 {
            let mut changed = given.clone();
            changed.nodes[place] = byte;
            both.import_within(&table, &changed, 4854);
        }
        let mut cut = given.clone();
        cut.nodes.truncate(place);
        let expected = match place % 3 == 0 && place > 0 {
            true => 14,
            false => 4,
        };
        assert_eq!(both.import(&table, &cut).0.number(), Some(expected));
    }
    both.imported.assert_replies(&[0, 4, 5, 6, 7, 8, 14, 15], 3);
}

/// Every bit of some records changed, and every cut of them: what export fills, import
/// gives back.
#[test]
fn every_bit_and_every_cut_of_records() {
    let table = random::diamond();
    let mut both = PlanningTables::new(525);
    let texts = [
        "a{10..200}",
        "top[0: X a{1..255}, 9: b[63: X]]",
        "a[0: a[1: a]]",
    ];
    for text in texts {
        let record = record::write(&notation::graph(3, text));
        for length in 0..record.len() {
            let (reply, _) = both.export(&table, &record[..length]);
            assert_eq!(reply.number(), Some(4));
        }
        for bit in 0..8 * record.len() {
            let mut changed = record.clone();
            changed[bit / 8] ^= 1 << (bit % 8);
            let (reply, filled) = both.export(&table, &changed);
            if let Reply::Counts { .. } = reply {
                let written = written_by(|output| rewrite(4, &table.bytes, &changed, output));
                assert_eq!(both.import(&table, &filled).1, written.expect("a record"));
            }
        }
    }
    both.exported.assert_replies(&[4, 5, 6, 7, 8], 3);
    both.exported.assert_fills(50);
}

/// A full range is the bytes 0 and 255, and a record that spells it out fills the same.
#[test]
fn full_ranges() {
    let table = random::diamond();
    let mut both = PlanningTables::new(527);
    let graph = Graph {
        nodes: vec![Node::new(3, [(5, 1)]), Node::new(1, [])],
    };
    let filled = planning_table([[0, 5, 1]], &[[3, 0, 255], [1, 0, 255]]);
    let written = record::write(&graph);
    for record in [written.clone(), record::write_spelling(&graph, |_| true)] {
        assert_eq!(both.export(&table, &record).1, filled);
    }
    assert_eq!(both.import(&table, &filled).1, written);
}
