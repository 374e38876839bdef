//! The calls with a list of types for features (Paper 9) by the proved engine and by the
//! reference. All graphs obey the list, or one or both break it; some lists have entries 0 and n,
//! or 63 and 65 bytes. Records and tables are random, large and damaged. The tests also check that
//! nothing but 17 and 18 differs from the plain calls.

use comparison::{Call, Comparison, GENERALIZE, REWRITE, UNIFY, compare, on_stated_stack};
use comparison::{GENERALIZE_APPROPRIATE, REWRITE_APPROPRIATE, UNIFY_APPROPRIATE};
use record_engine::FEATURES;
use reference::graph::Graph;
use reference::random::{self, InputWithList, Ranges, Shape, TableBytes, Xorshift};
use reference::record::{self, GraphFault, LONGEST_RECORD, MOST_LINKS, MOST_NODES};
use reference::reply::{Refusal, Reply, Side};
use reference::table::Table;

/// The calls on two graphs, each with the plain one.
const PAIRS: [(Call, Call); 2] = [
    (GENERALIZE_APPROPRIATE, GENERALIZE),
    (UNIFY_APPROPRIATE, UNIFY),
];

/// 18 of one of the graphs.
const fn inappropriate(side: Side) -> Reply {
    Reply::Refused(Refusal::Graph(GraphFault::Inappropriate, side))
}

/// Random inputs, valid and damaged in any of their parts.
fn compare_pairs(call: Call, seed: u64, ranges: Ranges) -> Comparison {
    compare(call, seed, 20_000, |compared, random| {
        let InputWithList {
            table,
            list,
            records: [first, second],
        } = random::input_with_list(random, ranges);
        compared.check(&table, &[&list, &first, &second]);
    })
}

fn compare_records(seed: u64, ranges: Ranges) -> Comparison {
    compare(REWRITE_APPROPRIATE, seed, 20_000, |compared, random| {
        let InputWithList {
            table,
            list,
            records,
        } = random::input_with_list(random, ranges);
        for record in &records {
            compared.check(&table, &[&list, record]);
        }
    })
}

#[test]
fn rewriting_random_records() {
    let compared = compare_records(201, Ranges::Absent);
    compared.assert_replies(&[0, 1, 2, 3, 4, 5, 6, 7, 8, 17, 18], 50);
}

#[test]
fn rewriting_random_records_with_ranges() {
    let compared = compare_records(203, Ranges::Present);
    compared.assert_replies(&[0, 1, 2, 3, 4, 5, 6, 7, 8, 17, 18], 50);
}

#[test]
fn the_common_part_of_random_pairs() {
    let compared = compare_pairs(GENERALIZE_APPROPRIATE, 205, Ranges::Absent);
    compared.assert_replies(&[0, 1, 2, 3, 4, 5, 6, 7, 8, 11, 17, 18], 10);
    compared.assert_sides(&[4, 5, 6, 7], 50);
    compared.assert_sides(&[18], 1_000);
}

#[test]
fn the_common_part_of_random_pairs_with_ranges() {
    let compared = compare_pairs(GENERALIZE_APPROPRIATE, 207, Ranges::Present);
    compared.assert_replies(&[0, 1, 2, 3, 4, 5, 6, 7, 8, 11, 17, 18], 10);
    compared.assert_sides(&[4, 5, 6, 7], 50);
    compared.assert_sides(&[18], 1_000);
}

#[test]
fn the_combination_of_random_pairs() {
    let compared = compare_pairs(UNIFY_APPROPRIATE, 209, Ranges::Absent);
    compared.assert_replies(&[0, 1, 2, 3, 4, 5, 6, 7, 8, 9, 10, 11, 17, 18], 10);
    compared.assert_sides(&[4, 5, 6, 7], 50);
    compared.assert_sides(&[18], 1_000);
}

#[test]
fn the_combination_of_random_pairs_with_ranges() {
    let compared = compare_pairs(UNIFY_APPROPRIATE, 211, Ranges::Present);
    compared.assert_replies(&[0, 1, 2, 3, 4, 5, 6, 7, 8, 9, 10, 11, 17, 18], 10);
    compared.assert_sides(&[4, 5, 6, 7], 50);
    compared.assert_sides(&[18], 1_000);
}

/// The list with one entry changed.
fn with_entry(list: &[u8], feature: usize, entry: usize) -> Vec<u8> {
    let mut changed = list.to_vec();
    changed[feature] = entry as u8;
    changed
}

/// Lists that are refused over n types: each differs in one thing from a list that is
/// not.
fn refused_lists(random: &mut Xorshift, n: usize, list: &[u8]) -> Vec<Vec<u8>> {
    let feature = random.pick(FEATURES);
    let above = random.between(n, 255);
    let shorter = list[..FEATURES - 1].to_vec();
    let longer = [list, &[random.pick(n) as u8]].concat();
    vec![
        shorter,
        longer,
        with_entry(list, feature, n),
        with_entry(list, feature, above),
        Vec::new(),
    ]
}

/// A table, two graphs over it, and their records.
fn pair(random: &mut Xorshift) -> (TableBytes, [Graph; 2], [Vec<u8>; 2]) {
    let table = random::valid_table(random);
    let shape = Shape::small(random, 9, 4).ranged(random, Ranges::Present);
    let (first, second) = random::pair(random, &table.accepted(), &shape);
    let graphs = [first, second];
    let records = graphs
        .each_ref()
        .map(|graph| random::record_of(random, graph, Ranges::Present));
    (table, graphs, records)
}

/// Lists of every kind for one pair of graphs after another, each with the reply that
/// the papers give it.
#[test]
fn every_kind_of_list_for_two_graphs() {
    for (seed, (call, plain)) in (221..).step_by(4).zip(PAIRS) {
        let mut compared = Comparison::new(call, seed);
        let mut plain = Comparison::new(plain, seed + 1);
        let random = &mut Xorshift::stored(seed + 2);
        for _ in 0..1_500 {
            let (table, [p, q], [first, second]) = pair(random);
            let types = &table.accepted();
            let damaged = random::damaged_record(random, table.n, Ranges::Present);
            let tops = vec![types.top(); FEATURES];
            let obeyed = random::obeyed_list(random, types, &[&p, &q]);
            let (expected, record) = plain.answer(&table, &[&first, &second]);
            for list in [&tops, &obeyed] {
                let same = compared.answer(&table, &[list, &first, &second]);
                assert_eq!(same, (expected, record.clone()), "{table:?} {list:?}");
                assert_eq!(compared.check(&table, &[list, &first, &second]), expected);
                // A list that the other graph obeys leaves the faults of a record as they are.
                for (left, right) in [(&first, &damaged), (&damaged, &second)] {
                    let (expected, _) = plain.answer(&table, &[left, right]);
                    if let Reply::Refused(Refusal::Graph(..)) = expected {
                        assert_eq!(compared.check(&table, &[list, left, right]), expected);
                    }
                }
            }
            if let Some(list) = random::broken_list(random, types, &[&p], &q) {
                let reply = compared.check(&table, &[&list, &first, &second]);
                assert_eq!(reply, inappropriate(Side::Second), "{table:?} {list:?}");
                let reply = compared.check(&table, &[&list, &second, &first]);
                assert_eq!(reply, inappropriate(Side::First), "{table:?} {list:?}");
                let reply = compared.check(&table, &[&list, &second, &damaged]);
                assert_eq!(reply, inappropriate(Side::First), "{table:?} {list:?}");
                let reply = compared.check(&table, &[&list, &second, &second]);
                assert_eq!(reply, inappropriate(Side::First), "{table:?} {list:?}");
            }
            // An entry of 0 forbids a feature that some node has.
            if let Some(feature) = p.nodes.iter().find_map(|node| node.links.keys().last()) {
                let list = with_entry(&obeyed, usize::from(*feature), 0);
                let reply = compared.check(&table, &[&list, &first, &second]);
                assert_eq!(reply, inappropriate(Side::First), "{table:?} {list:?}");
            }
            for list in refused_lists(random, table.n, &obeyed) {
                for (left, right) in [(&first, &second), (&damaged, &second), (&first, &damaged)] {
                    let reply = compared.check(&table, &[&list, left, right]);
                    assert_eq!(reply, Reply::Refused(Refusal::TypeList), "{list:?}");
                }
            }
        }
        compared.assert_sides(&[4, 5, 6, 7], 100);
        compared.assert_sides(&[18], 500);
    }
}

#[test]
fn every_kind_of_list_for_one_graph() {
    let mut compared = Comparison::new(REWRITE_APPROPRIATE, 231);
    let mut plain = Comparison::new(REWRITE, 232);
    let random = &mut Xorshift::stored(233);
    for _ in 0..2_000 {
        let (table, [graph, _], [record, _]) = pair(random);
        let types = &table.accepted();
        let damaged = random::damaged_record(random, table.n, Ranges::Present);
        let tops = vec![types.top(); FEATURES];
        let obeyed = random::obeyed_list(random, types, &[&graph]);
        for list in [&tops, &obeyed] {
            let expected = plain.answer(&table, &[&record]);
            let same = compared.answer(&table, &[list, &record]);
            assert_eq!(same, expected, "{table:?} {list:?}");
            assert_eq!(compared.check(&table, &[list, &record]), expected.0);
            // What is written obeys the list and is in written form.
            let again = compared.answer(&table, &[list, &expected.1]);
            assert_eq!(again, expected, "{table:?} {list:?}");
        }
        // Every type has every feature: what is damaged is refused as ever.
        let (expected, _) = plain.answer(&table, &[&damaged]);
        assert_eq!(compared.check(&table, &[&tops, &damaged]), expected);
        if let Some(list) = random::broken_list(random, types, &[], &graph) {
            let reply = compared.check(&table, &[&list, &record]);
            assert_eq!(reply, inappropriate(Side::First), "{table:?} {list:?}");
        }
        for list in refused_lists(random, table.n, &obeyed) {
            for record in [&record, &damaged] {
                let reply = compared.check(&table, &[&list, record]);
                assert_eq!(reply, Reply::Refused(Refusal::TypeList), "{list:?}");
            }
        }
    }
    compared.assert_replies(&[0, 4, 5, 6, 7, 8, 17, 18], 100);
}

/// A list that two graphs obey: every bit of it changed, and every length up to twice its
/// own.
#[test]
fn every_bit_of_a_list_and_every_length() {
    let mut compared = Comparison::new(GENERALIZE_APPROPRIATE, 235);
    let random = &mut Xorshift::stored(236);
    for _ in 0..40 {
        let (table, [p, q], [first, second]) = pair(random);
        let list = random::obeyed_list(random, &table.accepted(), &[&p, &q]);
        for bit in 0..8 * FEATURES {
            let mut changed = list.clone();
            changed[bit / 8] ^= 1 << (bit % 8);
            compared.check(&table, &[&changed, &first, &second]);
        }
        for length in 0..=2 * FEATURES {
            let mut resized = list.clone();
            resized.resize(length, 0);
            let reply = compared.check(&table, &[&resized, &first, &second]);
            assert_eq!(reply.number() == Some(17), length != FEATURES);
        }
    }
    compared.assert_replies(&[0, 8, 17, 18], 100);
}

/// Graphs of up to 255 nodes and 2,048 links over tables of up to 64 types: lists that
/// both obey, and lists that the first obeys and the second breaks.
fn compare_large(call: Call, seed: u64) -> Comparison {
    let mut compared = Comparison::new(call, seed);
    let random = &mut Xorshift::stored(seed + 1);
    for _ in 0..200 {
        let table = match random.chance(1, 4) {
            true => random::large_rival_table(random),
            false => random::valid_table(random),
        };
        let types = &table.accepted();
        let [p, q] = large_pair(random, types);
        let [first, second] =
            [&p, &q].map(|graph| random::record_of(random, graph, Ranges::Present));
        let obeyed = random::obeyed_list(random, types, &[&p, &q]);
        compared.check(&table, &[&obeyed, &first, &second]);
        if let Some(list) = random::broken_list(random, types, &[&p], &q) {
            compared.check(&table, &[&list, &first, &second]);
            compared.check(&table, &[&list, &second, &first]);
        }
    }
    compared
}

/// Two graphs of 40 to 255 nodes. Feature 63 is one that the second alone has, at one
/// node.
fn large_pair(random: &mut Xorshift, table: &Table) -> [Graph; 2] {
    let shape = Shape {
        nodes: *random.choose(&[40, 200, 254, MOST_NODES]),
        extra_links: random.pick(2 * MOST_LINKS),
        features: (0..*random.choose(&[2, 8, 63])).collect(),
        spread: *random.choose(&[1, 2, 20, MOST_NODES]),
        tops: random.pick(5),
        ranges: 0,
    };
    let shape = shape.ranged(random, Ranges::Present);
    let (first, mut second) = random::pair(random, table, &shape);
    let links = second.incoming().concat();
    if !links.is_empty() && links.len() < MOST_LINKS {
        let link = random.choose(&links);
        let links = &mut second.nodes[link.parent].links;
        links.insert(63, links[&link.feature]);
    }
    [first, second]
}

#[test]
fn rewriting_large_records() {
    let compared = compare_large(REWRITE_APPROPRIATE, 241);
    compared.assert_replies(&[0, 8, 18], 100);
}

#[test]
fn the_common_part_of_large_pairs() {
    let compared = compare_large(GENERALIZE_APPROPRIATE, 243);
    compared.assert_replies(&[0, 8, 11, 18], 10);
    compared.assert_sides(&[18], 100);
}

#[test]
fn the_combination_of_large_pairs() {
    let compared = compare_large(UNIFY_APPROPRIATE, 245);
    compared.assert_replies(&[0, 8, 9, 10, 11, 18], 5);
    compared.assert_sides(&[18], 100);
}

/// What is written of graphs that obey a list obeys it: rewriting it with the list gives
/// it again.
#[test]
fn what_is_written_obeys_the_list() {
    for (seed, (call, _)) in (251..).step_by(3).zip(PAIRS) {
        let mut compared = Comparison::new(call, seed);
        let mut rewriting = Comparison::new(REWRITE_APPROPRIATE, seed + 1);
        let random = &mut Xorshift::stored(seed + 2);
        for _ in 0..4_000 {
            let (table, [p, q], [first, second]) = pair(random);
            let list = random::obeyed_list(random, &table.accepted(), &[&p, &q]);
            let (reply, record) = compared.answer(&table, &[&list, &first, &second]);
            if let Reply::Length(_) = reply {
                let again = rewriting.answer(&table, &[&list, &record]);
                assert_eq!(again, (reply, record), "{table:?} {list:?}");
            }
        }
        rewriting.assert_replies(&[0], 1_000);
    }
}

/// The largest records, with a list that they obey and with one that their last link
/// breaks: the stack that is stated for a call is enough.
#[test]
fn the_largest_records_need_little_stack() {
    use record_engine::{generalize_appropriate, rewrite_appropriate, unify_appropriate};
    let table = random::diamond();
    let mut graph = random::ladder(MOST_NODES, &[0, 9, 18, 27, 36, 45, 54, 63], 1);
    for node in &mut graph.nodes {
        node.label.range.highest = 100;
    }
    let obeying = record::write(&graph);
    graph.nodes[MOST_NODES - 2].label.node_type = 3;
    let breaking = record::write(&graph);
    let lengths = on_stated_stack(|| {
        let mut output = vec![0; LONGEST_RECORD];
        let (n, table, list) = (table.n, &table.bytes, &[1; FEATURES]);
        let (good, bad) = (&obeying, &breaking);
        [
            rewrite_appropriate(n, table, list, good, &mut output),
            generalize_appropriate(n, table, list, good, good, &mut output),
            unify_appropriate(n, table, list, good, good, &mut output),
            rewrite_appropriate(n, table, list, bad, &mut output),
            generalize_appropriate(n, table, list, good, bad, &mut output),
            unify_appropriate(n, table, list, good, bad, &mut output),
        ]
    });
    let numbers = lengths.map(|result| result.map_err(|refusal| refusal.number()));
    assert_eq!(numbers[..3], [Ok(obeying.len()); 3]);
    assert_eq!(numbers[3..], [Err(18); 3]);
}
