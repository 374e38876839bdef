//! Tests the generator itself. The same seed gives the same inputs, inputs that should be valid are
//! valid, and damaged inputs have every kind of damage.

use reference::appropriateness::Appropriateness;
use reference::generalize::generalize;
use reference::graph::Graph;
use reference::label::Range;
use reference::mapcalc;
use reference::order::below;
use reference::random::{self, Ranges, Shape, Xorshift};
use reference::record::{self, HAS_RANGE};
use reference::store;
use reference::table::Table;
use std::collections::{BTreeMap, BTreeSet};

/// Without ranges, and with them.
const BOTH: [Ranges; 2] = [Ranges::Absent, Ranges::Present];

#[test]
fn equal_seeds_give_equal_inputs() {
    let inputs = |seed: u64, ranges: Ranges| -> Vec<Vec<u8>> {
        let mut random = Xorshift::new(seed);
        (0..50)
            .map(|_| random::mapcalc_input(&mut random, ranges))
            .collect()
    };
    for ranges in BOTH {
        assert_eq!(inputs(1, ranges), inputs(1, ranges));
        assert_ne!(inputs(1, ranges), inputs(2, ranges));
    }
    // The first words of one sequence, so that it stays the same.
    let mut random = Xorshift::new(0);
    let words: Vec<u64> = (0..3).map(|_| random.word()).collect();
    let expected = [
        0x3E3D_32AB_95BA_D175,
        0xB861_7C8A_4525_5997,
        0x3E52_B3D1_9E03_96E4,
    ];
    assert_eq!(words, expected);
}

#[test]
fn numbers_are_in_their_range_and_all_come_up() {
    let mut random = Xorshift::stored(3);
    let picked: BTreeSet<usize> = (0..200).map(|_| random.pick(5)).collect();
    assert_eq!(picked, BTreeSet::from_iter(0..5));
    let between: BTreeSet<usize> = (0..200).map(|_| random.between(7, 9)).collect();
    assert_eq!(between, BTreeSet::from([7, 8, 9]));
    assert!((0..50).all(|_| random.chance(1, 1) && !random.chance(0, 1)));
    let mut items: Vec<usize> = (0..20).collect();
    random.shuffle(&mut items);
    assert_ne!(items, Vec::from_iter(0..20));
    items.sort();
    assert_eq!(items, Vec::from_iter(0..20));
}

#[test]
fn valid_tables_are_accepted_and_damaged_ones_break_each_rule() {
    let mut random = Xorshift::stored(4);
    let mut admitting = BTreeSet::new();
    for _ in 0..500 {
        let table = random::valid_table(&mut random);
        let accepted = Table::accept(table.n, &table.bytes);
        admitting.insert(accepted.map(|table| table.admits_differences()).ok());
        assert!(
            random::distributive(&mut random)
                .accepted()
                .admits_differences()
        );
    }
    assert_eq!(admitting, BTreeSet::from([Some(false), Some(true)]));
    let mut faults: BTreeMap<u8, usize> = BTreeMap::new();
    for _ in 0..2000 {
        let table = random::damaged_table(&mut random);
        let fault = Table::accept(table.n, &table.bytes).map_or_else(|f| f.number(), |_| 0);
        *faults.entry(fault).or_default() += 1;
    }
    for number in 1..=3 {
        assert!(faults[&number] > 20, "{faults:?}");
    }
}

#[test]
fn valid_records_are_accepted_and_damaged_ones_break_each_rule() {
    let mut random = Xorshift::stored(5);
    let table = random::diamond().accepted();
    for ranges in BOTH {
        let mut largest = 0;
        for _ in 0..500 {
            let record = random::valid_record(&mut random, 4, ranges);
            assert!(record::read(&table, &record).is_ok());
            largest = largest.max(record.len());
        }
        assert!(largest > 3000, "{largest}");
        let mut faults: BTreeMap<u8, usize> = BTreeMap::new();
        for _ in 0..2000 {
            let record = random::damaged_record(&mut random, 4, ranges);
            let fault = record::read(&table, &record).map_or_else(|f| f.number(), |_| 0);
            *faults.entry(fault).or_default() += 1;
        }
        for number in 4..=7 {
            assert!(faults[&number] > 50, "{faults:?}");
        }
    }
}

/// Records with a range, records with a full one spelled out, and records with neither
/// all come up where ranges are to be present, and only the last where they are not.
#[test]
fn records_have_ranges_where_they_are_to_be_present() {
    let mut random = Xorshift::stored(8);
    let table = random::diamond().accepted();
    let (mut ranged, mut spelled, mut plain) = (0, 0, 0);
    for _ in 0..500 {
        let without = random::valid_record(&mut random, 4, Ranges::Absent);
        let graph = record::read(&table, &without).expect("a record that is accepted");
        assert!(graph.nodes.iter().all(|n| n.label.range == Range::FULL));
        assert_eq!(record::write(&graph), without);
        let with = random::valid_record(&mut random, 4, Ranges::Present);
        let graph = record::read(&table, &with).expect("a record that is accepted");
        let has_range = graph.nodes.iter().any(|n| n.label.range != Range::FULL);
        let spells_out = record::write(&graph) != with;
        ranged += usize::from(has_range);
        spelled += usize::from(spells_out);
        plain += usize::from(!has_range && !spells_out);
    }
    let counts = [ranged, spelled, plain];
    assert!(counts.iter().all(|&count| count > 50), "{counts:?}");
}

/// The ways in which Paper 7 adds to what a record may have wrong, each often enough: a
/// lowest level above the highest, type 0 with bit 7, a last type byte with bit 7 and
/// without the levels.
#[test]
fn damaged_records_have_ranges_that_are_wrong() {
    let mut random = Xorshift::stored(9);
    let table = random::diamond().accepted();
    let mut counts = [0; 3];
    for _ in 0..2000 {
        let record = random::damaged_record(&mut random, 4, Ranges::Present);
        let fault = record::read(&table, &record).map_or_else(|f| f.number(), |_| 0);
        let (rows, is_whole) = rows(&record);
        let has_range = |row: &[u8]| row[0] & HAS_RANGE != 0;
        if fault == 5 {
            let is_empty = |row: &[u8]| has_range(row) && row[1] > row[2];
            counts[0] += usize::from(rows.iter().any(|row| is_empty(row)));
            counts[1] += usize::from(rows.iter().any(|row| row[0] == HAS_RANGE));
        }
        let last_has_range = rows.last().is_some_and(|row| has_range(row));
        counts[2] += usize::from(fault == 4 && !is_whole && last_has_range);
    }
    assert!(counts.iter().all(|&count| count > 50), "{counts:?}");
}

/// The rows of a record from the type byte on, as far as they go, and whether the last
/// of them is whole.
fn rows(record: &[u8]) -> (Vec<&[u8]>, bool) {
    let Some((&count, mut rest)) = record.split_first() else {
        return (Vec::new(), false);
    };
    let mut rows = Vec::new();
    for _ in 0..count {
        if rest.is_empty() {
            return (rows, false);
        }
        let map = if rest[0] & HAS_RANGE == 0 { 1 } else { 3 };
        let links = rest.get(map..map + 8).map_or(0, |map| {
            map.iter().map(|byte| byte.count_ones()).sum::<u32>() as usize
        });
        let length = map + 8 + links;
        if rest.len() < length {
            rows.push(rest);
            return (rows, false);
        }
        let (row, behind) = rest.split_at(length);
        rows.push(row);
        rest = behind;
    }
    (rows, true)
}

#[test]
fn graphs_above_are_above() {
    let mut random = Xorshift::stored(6);
    for round in 0..600 {
        let table = random::valid_table(&mut random).accepted();
        let shape = Shape::any(&mut random).ranged(&mut random, BOTH[round % 2]);
        let graph = random::graph(&mut random, table.n(), &shape);
        let above = random::graph_above(&mut random, &table, &graph);
        let well_above = random::graph_well_above(&mut random, &table, &graph);
        for upper in [above, well_above] {
            assert!(below(&table, &graph, &upper));
            assert!(record::read(&table, &record::write(&upper)).is_ok());
        }
    }
}

#[test]
fn lists_are_obeyed_broken_or_damaged_as_they_are_to_be() {
    let mut random = Xorshift::stored(11);
    let (mut broken, mut zeros, mut second_alone) = (0, 0, 0);
    let mut damaged: BTreeMap<&str, usize> = BTreeMap::new();
    for _ in 0..1000 {
        let table = random::valid_table(&mut random).accepted();
        let shape = Shape::small(&mut random, 6, 3);
        let (first, second) = random::pair(&mut random, &table, &shape);
        let obeys = |list: &[u8], graph: &Graph| {
            let list = Appropriateness::accept(&table, list).expect("a list that is accepted");
            list.is_obeyed(&table, graph)
        };
        let list = random::obeyed_list(&mut random, &table, &[&first, &second]);
        assert!(obeys(&list, &first) && obeys(&list, &second));
        if let Some(list) = random::broken_list(&mut random, &table, &[], &first) {
            assert!(!obeys(&list, &first));
            broken += 1;
            let forbids = |&feature: &u8| list[usize::from(feature)] == 0;
            zeros += usize::from(first.nodes.iter().any(|n| n.links.keys().any(forbids)));
        }
        if let Some(list) = random::broken_list(&mut random, &table, &[&first], &second) {
            assert!(obeys(&list, &first) && !obeys(&list, &second));
            second_alone += 1;
        }
        assert_eq!(
            random::broken_list(&mut random, &table, &[&first], &first),
            None
        );
        let list = random::damaged_list(&mut random, table.n(), list);
        assert_eq!(Appropriateness::accept(&table, &list), None);
        let kind = match list.len() {
            63 => "63 bytes",
            64 if list.contains(&(table.n() as u8)) => "n",
            64 => "above n",
            65 => "65 bytes",
            _ => "other lengths",
        };
        *damaged.entry(kind).or_default() += 1;
    }
    let counts = [broken, zeros, second_alone];
    assert!(counts.iter().all(|&count| count > 100), "{counts:?}");
    assert_eq!(damaged.len(), 5, "{damaged:?}");
    assert!(damaged.values().all(|&count| count > 50), "{damaged:?}");
}

/// Whole inputs of the calls with a list: lists that both graphs obey, that the first or
/// the second alone breaks, and that are damaged.
#[test]
fn inputs_with_a_list_bring_up_every_kind_of_list() {
    for ranges in BOTH {
        let mut random = Xorshift::stored(12);
        let mut counts: BTreeMap<String, usize> = BTreeMap::new();
        for _ in 0..2000 {
            let input = random::input_with_list(&mut random, ranges);
            let Ok(table) = Table::accept(input.table.n, &input.table.bytes) else {
                *counts.entry("refused table".to_string()).or_default() += 1;
                continue;
            };
            let kind = match Appropriateness::accept(&table, &input.list) {
                None => "damaged list".to_string(),
                Some(list) => {
                    let obeyed = input.records.each_ref().map(|record| {
                        record::read(&table, record)
                            .ok()
                            .map(|graph| list.is_obeyed(&table, &graph))
                    });
                    match obeyed {
                        [Some(first), Some(second)] => format!("{first} {second}"),
                        _ => "refused graph".to_string(),
                    }
                }
            };
            *counts.entry(kind).or_default() += 1;
        }
        assert_eq!(counts.len(), 7, "{counts:?}");
        assert!(counts.values().all(|&count| count > 50), "{counts:?}");
    }
}

#[test]
fn ranges_are_not_empty_and_often_share_an_end() {
    let mut random = Xorshift::stored(10);
    let (mut apart, mut inside, mut an_end) = (0, 0, 0);
    for _ in 0..1000 {
        let [a, b] = [0, 1].map(|_| random::range(&mut random));
        let around = random::range_around(&mut random, a);
        assert!(!a.is_empty() && a.is_inside(around));
        apart += usize::from(a.overlap(b).is_empty());
        inside += usize::from(a != b && a.is_inside(b));
        an_end += usize::from(a.lowest == b.lowest || a.highest == b.highest);
    }
    let counts = [apart, inside, an_end];
    assert!(counts.iter().all(|&count| count > 100), "{counts:?}");
}

#[test]
fn ladders_and_chains_have_their_links() {
    let ladder = random::ladder(5, &[1, 2, 3], 3);
    assert_eq!((ladder.nodes.len(), ladder.link_count()), (5, 12));
    let chain = random::chain_graph(7, 4, 3);
    assert_eq!((chain.nodes.len(), chain.link_count()), (7, 6));
    assert_eq!(random::chain_graph(1, 0, 2), Graph::lone(2));
}

/// The common part of strides has more nodes than both from 5 nodes on, and more than a record
/// from 39 on.
#[test]
fn strides_have_large_common_parts() {
    let table = random::diamond().accepted();
    for (nodes, expected) in [(1, 1), (4, 4), (5, 6), (38, 253), (39, 267)] {
        let [first, second] = random::strides(nodes, 3);
        assert_eq!([first.nodes.len(), second.nodes.len()], [nodes; 2]);
        let common = generalize(&table, &first, &second);
        assert_eq!(common.nodes.len(), expected, "{nodes}");
        assert_eq!(record::can_hold(&common), nodes < 39);
    }
}

/// Damaged stores mostly hold nothing, and some hold programs, other ones too.
#[test]
fn damaged_stores_hold_nothing_or_other_programs() {
    let random = &mut Xorshift::stored(167);
    let table = random::diamond();
    let accepted = table.accepted();
    let [mut none, mut same, mut other] = [0; 3];
    for _ in 0..500 {
        let shape = Shape::small(random, 5, 2);
        let graphs = (0..3).map(|_| random::graph(random, table.n, &shape));
        let programs = graphs.enumerate().collect();
        let mut store = store::way(&accepted, &programs, usize::MAX).expect("a state");
        store.resize(store.len() + 20, 7);
        let damaged = random::damaged_store(random, &table, &store);
        match store::held(&accepted, &damaged) {
            None => none += 1,
            held if held == store::held(&accepted, &store) => same += 1,
            _ => other += 1,
        }
    }
    let counts = [none, same, other];
    let enough = counts.iter().all(|&count| count >= 20) || !random::is_stored();
    assert!(enough, "{counts:?}");
}

#[test]
fn whole_inputs_bring_up_every_kind_of_line() {
    for ranges in BOTH {
        every_kind_of_line(ranges);
    }
}

fn every_kind_of_line(ranges: Ranges) {
    let mut random = Xorshift::stored(7);
    let mut kinds: BTreeMap<String, usize> = BTreeMap::new();
    for _ in 0..6000 {
        let line = mapcalc::line(&random::mapcalc_input(&mut random, ranges));
        let kind = match line.strip_prefix("ok ") {
            None => line,
            Some(rest) => {
                let (length, digits) = rest.split_once(' ').expect("three parts");
                assert_eq!(length.parse(), Ok(digits.len() / 2));
                "ok".to_string()
            }
        };
        *kinds.entry(kind).or_default() += 1;
    }
    let graph_faults = (4..=7).flat_map(|number| {
        [
            format!("refused {number} first"),
            format!("refused {number} second"),
        ]
    });
    let others = [1, 2, 3, 9, 10, 11, 12, 13].map(|number| format!("refused {number}"));
    let words = ["ok", "same", "under", "above", "neither", "bad input"].map(str::to_string);
    let expected: BTreeSet<String> = graph_faults.chain(others).chain(words).collect();
    assert_eq!(
        kinds.keys().cloned().collect::<BTreeSet<_>>(),
        expected,
        "{kinds:?}"
    );
}
