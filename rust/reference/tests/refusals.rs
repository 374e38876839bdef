//! Broken input for everything that takes input: each refusal 1 to 8 with several
//! inputs, through every call, in the order of the checks, the output unchanged.

use reference::calls::{self, Call, written};
use reference::canonical::canonical;
use reference::graph::{Graph, Node};
use reference::label::{Label, Range};
use reference::notation::{bytes, graph};
use reference::order::Order;
use reference::random::{self, TableBytes};
use reference::record::{self, GraphFault};
use reference::reply::{Refusal, Reply, Side};
use reference::table::{Table, TableFault};
use std::collections::BTreeSet;

const CALLS: [Call; 3] = [calls::generalize, calls::unify, calls::difference];

/// A table from the first bytes of its rows, the rest zero.
fn table(first_bytes: &[u8]) -> TableBytes {
    let mut rows = Vec::new();
    for &byte in first_bytes {
        rows.push(byte);
        rows.extend([0; 7]);
    }
    TableBytes {
        n: first_bytes.len(),
        bytes: rows,
    }
}

/// Every call refuses the table with this number and leaves the output alone,
/// also when both records are broken.
fn assert_table_refused(table: &TableBytes, number: u8) {
    let good = bytes("01 01 0000000000000000");
    for record in [good.as_slice(), &[]] {
        let mut output = [0xEE; 32];
        let reply = calls::rewrite(table.n, &table.bytes, record, &mut output);
        assert_eq!(reply.number(), Some(number), "{table:?}");
        let reply = calls::order(table.n, &table.bytes, record, record);
        assert_eq!(reply.number(), Some(number), "{table:?}");
        for call in CALLS {
            let reply = call(table.n, &table.bytes, record, record, &mut output);
            assert_eq!(reply.number(), Some(number), "{table:?}");
        }
        let (reply, reasons) = explained(table, record, record, &mut output);
        assert_eq!(reply.number(), Some(number), "{table:?}");
        assert_eq!(output, [0xEE; 32]);
        assert_eq!(reasons, [0xEE; 8]);
    }
}

/// The difference with its reasons: the reply, and what the second output holds.
fn explained(
    table: &TableBytes,
    first: &[u8],
    second: &[u8],
    output: &mut [u8],
) -> (Reply, [u8; 8]) {
    let mut reasons = [0xEE; 8];
    let (n, table) = (table.n, &table.bytes);
    let reply = calls::difference_explained(n, table, first, second, output, &mut reasons);
    (reply, reasons)
}

/// Every call over the diamond refuses the record with this fault, in each place,
/// and leaves the output alone.
fn assert_record_refused(record: &[u8], fault: GraphFault) {
    let diamond = random::diamond();
    let (n, table) = (diamond.n, &diamond.bytes);
    let good = bytes("01 01 0000000000000000");
    let as_first = Reply::Refused(Refusal::Graph(fault, Side::First));
    let as_second = Reply::Refused(Refusal::Graph(fault, Side::Second));
    let mut output = [0xEE; 32];
    assert_eq!(calls::rewrite(n, table, record, &mut output), as_first);
    assert_eq!(calls::order(n, table, record, &good), as_first);
    assert_eq!(calls::order(n, table, &good, record), as_second);
    for call in CALLS {
        assert_eq!(call(n, table, record, &good, &mut output), as_first);
        assert_eq!(call(n, table, &good, record, &mut output), as_second);
        assert_eq!(call(n, table, record, record, &mut output), as_first);
    }
    for (first, second, reply) in [
        (record, good.as_slice(), as_first),
        (&good, record, as_second),
        (record, record, as_first),
    ] {
        let explained = explained(&diamond, first, second, &mut output);
        assert_eq!(explained, (reply, [0xEE; 8]));
    }
    assert_eq!(output, [0xEE; 32]);
}

#[test]
fn refusal_1_number_of_types_out_of_range() {
    for n in [0, 1, 65, 66, 255, 256, usize::MAX / 8, usize::MAX] {
        for length in [0, 8, 16, 520] {
            let bytes = vec![1; length];
            assert_table_refused(&TableBytes { n, bytes }, 1);
        }
    }
}

#[test]
fn refusal_1_length_is_not_that_of_n() {
    for good in [random::diamond(), random::chain(2), random::chain(64)] {
        for length in [0, 1, 8, good.bytes.len() - 1, good.bytes.len() + 1, 8 * 65] {
            let mut damaged = good.clone();
            damaged.bytes.resize(length, 0);
            assert_table_refused(&damaged, 1);
        }
        let mut damaged = good.clone();
        damaged.n = if good.n == 64 { 63 } else { good.n + 1 };
        assert_table_refused(&damaged, 1);
    }
}

#[test]
fn refusal_2_a_bit_at_n_or_above() {
    let diamond = random::diamond();
    for row in 0..4 {
        for bit in [4, 5, 7, 8, 40, 63] {
            let mut damaged = diamond.clone();
            damaged.bytes[8 * row + bit / 8] |= 1 << (bit % 8);
            assert_table_refused(&damaged, 2);
        }
    }
}

#[test]
fn refusal_2_not_an_order() {
    let not_reflexive = [
        table(&[0x01, 0x01, 0x05, 0x0F]),
        table(&[0x00, 0x03, 0x05, 0x0F]),
        table(&[0x01, 0x03, 0x05, 0x07]),
        table(&[0x00, 0x00]),
    ];
    let not_antisymmetric = [
        table(&[0x01, 0x07, 0x07, 0x0F]),
        table(&[0x03, 0x03, 0x05, 0x0F]),
        table(&[0x01, 0x0B, 0x05, 0x0F]),
        table(&[0x03, 0x03]),
    ];
    let not_transitive = [
        // 1 below 2 below 3, but 1 not below 3.
        table(&[0x01, 0x03, 0x07, 0x0D, 0x1F]),
        // 3 below 1 below 2, but 3 not below 2.
        table(&[0x01, 0x0B, 0x07, 0x09, 0x1F]),
    ];
    for damaged in [
        not_reflexive.as_slice(),
        &not_antisymmetric,
        &not_transitive,
    ]
    .concat()
    {
        assert_table_refused(&damaged, 2);
    }
}

#[test]
fn refusal_2_bounds_in_the_wrong_place() {
    let zero_not_least = [
        table(&[0x01, 0x02, 0x07]),
        table(&[0x01, 0x03, 0x04, 0x0F]),
        // An order with 1 least and 0 above it.
        table(&[0x03, 0x02, 0x07]),
    ];
    let last_not_greatest = [
        table(&[0x01, 0x03, 0x05]),
        table(&[0x01, 0x03, 0x05, 0x0B]),
        // An order with 1 greatest and 2 below it.
        table(&[0x01, 0x07, 0x05]),
    ];
    for damaged in [zero_not_least, last_not_greatest].concat() {
        assert_table_refused(&damaged, 2);
    }
}

#[test]
fn refusal_3_an_order_that_is_no_lattice() {
    let two_by_two = table(&[0x01, 0x03, 0x05, 0x0F, 0x17, 0x3F]);
    // The same two by two between three more types below and above.
    let wider = table(&[0x01, 0x03, 0x05, 0x09, 0x1F, 0x2F, 0x7F]);
    for damaged in [two_by_two, wider] {
        assert_table_refused(&damaged, 3);
        let fault = Table::accept(damaged.n, &damaged.bytes).map(|_| ());
        assert_eq!(fault, Err(TableFault::Bounds));
    }
}

#[test]
fn faults_of_the_table_are_told_in_order() {
    // 1 before 2: the length is wrong and the rows are no order.
    let mut damaged = table(&[0x00, 0x00, 0x00]);
    damaged.bytes.push(0xFF);
    assert_table_refused(&damaged, 1);
    // 2 before 3: no lattice, and a bit at n in the last row.
    assert_table_refused(&table(&[0x01, 0x03, 0x05, 0x0F, 0x17, 0x7F]), 2);
}

#[test]
fn the_smallest_and_the_largest_tables_are_accepted() {
    for good in [random::chain(2), random::chain(64), random::boolean(6)] {
        let table = Table::accept(good.n, &good.bytes);
        assert!(table.is_ok_and(|table| table.n() == good.n && table.admits_differences()));
    }
}

#[test]
fn refusal_4_no_nodes() {
    assert_record_refused(&[], GraphFault::Malformed);
    assert_record_refused(&[0], GraphFault::Malformed);
    assert_record_refused(&bytes("00 03 0000000000000000"), GraphFault::Malformed);
}

#[test]
fn refusal_4_short_at_every_length() {
    let whole = record::write(&graph(3, "top[0: X a[63: b], 1: X, 9: top]"));
    let ranged = record::write(&graph(
        3,
        "top{1..2}[0: X a[63: b{0..9}], 1: X, 9: top{7..7}]",
    ));
    for whole in [whole, ranged] {
        for length in 0..whole.len() {
            assert_record_refused(&whole[..length], GraphFault::Malformed);
        }
    }
    assert_record_refused(&bytes("FF 03 0000000000000000"), GraphFault::Malformed);
}

#[test]
fn refusal_4_bit_7_and_no_levels() {
    // A lone node and the last of two, with as many bytes as without a range.
    for record in [
        "01 83 0000000000000000",
        "02 03 0100000000000000 01 81 0000000000000000",
        // One byte of the range, with the map behind it and without.
        "01 83 07 0000000000000000",
        "01 83 07",
        "01 83",
        // The first of two: the bytes are taken from its map on.
        "02 83 0100000000000000 01 81 00FF 0000000000000000",
    ] {
        assert_record_refused(&bytes(record), GraphFault::Malformed);
    }
    // Bytes of a range and no bit 7.
    for record in ["01 03 00FF 0000000000000000", "01 03 0007 0000000000000000"] {
        assert_record_refused(&bytes(record), GraphFault::Malformed);
    }
}

#[test]
fn refusal_4_bytes_left_over() {
    assert_record_refused(&bytes("01 03 0000000000000000 00"), GraphFault::Malformed);
    let mut doubled = record::write(&graph(3, "top[0: a]"));
    doubled.extend(doubled.clone());
    assert_record_refused(&doubled, GraphFault::Malformed);
    let mut ranged = record::write(&graph(3, "top[0: a{3..4}]"));
    ranged.push(0);
    assert_record_refused(&ranged, GraphFault::Malformed);
}

/// Nodes in a row, each with up to 64 links to the next, so many links in all.
fn many_links(links: usize) -> Graph {
    let mut left = links;
    let mut nodes: Vec<Node> = Vec::new();
    while left > 0 {
        let count = left.min(64);
        left -= count;
        let next = nodes.len() + 1;
        let features = 0..count as u8;
        nodes.push(Node::new(3, features.map(|feature| (feature, next))));
    }
    nodes.push(Node::new(3, []));
    Graph { nodes }
}

#[test]
fn refusal_4_more_links_than_2048() {
    let most = record::write(&many_links(2048));
    let table = random::diamond();
    let mut output = vec![0; record::LONGEST_RECORD];
    let reply = calls::rewrite(4, &table.bytes, &most, &mut output);
    assert_eq!(reply, Reply::Length(most.len()));
    assert_record_refused(&record::write(&many_links(2049)), GraphFault::Malformed);
    assert_record_refused(&record::write(&many_links(2112)), GraphFault::Malformed);
    // 255 nodes with all 64 features each.
    let full = Node::new(3, (0..64).map(|feature| (feature, 0)));
    let nodes = vec![full; 255];
    assert_record_refused(&record::write(&Graph { nodes }), GraphFault::Malformed);
}

#[test]
fn refusal_5_a_type_that_is_none() {
    for bad in [0, 4, 5, 64, 127] {
        for range in [Range::FULL, levels(7, 9)] {
            let label = Label {
                node_type: bad,
                range,
            };
            let lone = Graph::lone(label);
            assert_record_refused(&record::write(&lone), GraphFault::OutOfRange);
            let spelled_out = record::write_spelling(&lone, |_| true);
            assert_record_refused(&spelled_out, GraphFault::OutOfRange);
            let mut below = graph(3, "top[0: a, 1: b]");
            below.nodes[2].label = label;
            assert_record_refused(&record::write(&below), GraphFault::OutOfRange);
        }
    }
    // Bit 7 is no bit of the type: 0x80 has type 0, 0x84 has type n.
    assert_record_refused(
        &bytes("01 80 0708 0000000000000000"),
        GraphFault::OutOfRange,
    );
    assert_record_refused(
        &bytes("01 84 0708 0000000000000000"),
        GraphFault::OutOfRange,
    );
}

fn levels(lowest: u8, highest: u8) -> Range {
    Range { lowest, highest }
}

#[test]
fn refusal_5_a_lowest_level_above_the_highest() {
    for range in [levels(1, 0), levels(255, 254), levels(255, 0), levels(8, 7)] {
        let label = Label {
            node_type: 1,
            range,
        };
        let lone = record::write(&Graph::lone(label));
        assert_record_refused(&lone, GraphFault::OutOfRange);
        let mut below = graph(3, "top[0: a, 1: b]");
        below.nodes[2].label.range = range;
        assert_record_refused(&record::write(&below), GraphFault::OutOfRange);
    }
    // One level is a range.
    let table = random::diamond();
    for level in [0, 7, 255] {
        let lone = Graph::lone(Label {
            node_type: 1,
            range: levels(level, level),
        });
        let record = record::write(&lone);
        let mut output = [0; 12];
        let reply = calls::rewrite(4, &table.bytes, &record, &mut output);
        assert_eq!(reply, Reply::Length(12));
        assert_eq!(output[..], record);
    }
}

#[test]
fn refusal_5_a_target_that_is_none() {
    for target in [2, 3, 255] {
        let mut pair = graph(3, "top[0: a]");
        pair.nodes[0].links.insert(1, target);
        assert_record_refused(&record::write(&pair), GraphFault::OutOfRange);
        let mut lower = graph(3, "top[0: a]");
        lower.nodes[1].links.insert(63, target);
        assert_record_refused(&record::write(&lower), GraphFault::OutOfRange);
    }
}

/// Nodes of type top with these links.
fn linked(links: &[&[(u8, usize)]]) -> Graph {
    let node = |links: &&[(u8, usize)]| Node::new(3, links.iter().copied());
    Graph {
        nodes: links.iter().map(node).collect(),
    }
}

#[test]
fn refusal_6_a_node_reaches_itself() {
    let root_to_itself = linked(&[&[(0, 0)]]);
    let node_to_itself = linked(&[&[(0, 1)], &[(7, 1)]]);
    let back_to_the_root = linked(&[&[(0, 1)], &[(1, 2)], &[(2, 0)]]);
    let two_below = linked(&[&[(0, 1)], &[(0, 2)], &[(0, 1)]]);
    let self_loop_unreached = linked(&[&[], &[(0, 1)]]);
    let loop_unreached = linked(&[&[(0, 3)], &[(0, 2)], &[(0, 1)], &[]]);
    for damaged in [
        root_to_itself,
        node_to_itself,
        back_to_the_root,
        two_below,
        self_loop_unreached,
        loop_unreached,
    ] {
        assert_record_refused(&record::write(&damaged), GraphFault::Cyclic);
    }
}

#[test]
fn refusal_7_a_node_the_root_does_not_reach() {
    let lone_second = linked(&[&[], &[]]);
    let leads_to_the_root = linked(&[&[], &[(0, 0)]]);
    let leads_to_what_is_reached = linked(&[&[(0, 2)], &[(0, 2)], &[]]);
    let two_unreached = linked(&[&[], &[(0, 2)], &[]]);
    for damaged in [
        lone_second,
        leads_to_the_root,
        leads_to_what_is_reached,
        two_unreached,
    ] {
        assert_record_refused(&record::write(&damaged), GraphFault::Unreached);
    }
}

#[test]
fn faults_of_a_record_are_told_in_order_over_the_whole_record() {
    // 4 before 5, 6 and 7: a wrong type, a wrong target and a loop, then a byte too many.
    let mut all = linked(&[&[(0, 0), (1, 9)], &[]]);
    all.nodes[0].label.node_type = 0;
    let mut record = record::write(&all);
    assert_record_refused(&record, GraphFault::OutOfRange);
    record.push(0);
    assert_record_refused(&record, GraphFault::Malformed);
    // 5 before 6 and 7: a loop and an unreached node come first, the bad type last.
    let mut last_bad = linked(&[&[(0, 0)], &[], &[]]);
    last_bad.nodes[2].label.node_type = 4;
    assert_record_refused(&record::write(&last_bad), GraphFault::OutOfRange);
    last_bad.nodes[2].label = Label {
        node_type: 3,
        range: levels(9, 8),
    };
    let mut record = record::write(&last_bad);
    assert_record_refused(&record, GraphFault::OutOfRange);
    // 4 before 5: a range that is none comes first, the row of the last node is short.
    last_bad.nodes.swap(1, 2);
    record = record::write(&last_bad);
    record.pop();
    assert_record_refused(&record, GraphFault::Malformed);
    // 6 before 7: an unreached node, then a loop in another unreached part.
    let loop_last = linked(&[&[], &[], &[(0, 2)]]);
    assert_record_refused(&record::write(&loop_last), GraphFault::Cyclic);
}

#[test]
fn the_first_graph_is_judged_whole_before_the_second() {
    let table = random::diamond();
    let unreached = record::write(&linked(&[&[], &[]]));
    let looping = record::write(&linked(&[&[(0, 0)]]));
    for second in [looping.as_slice(), &[]] {
        for call in CALLS {
            let result = written(call, 4, &table.bytes, &unreached, second);
            let expected = Refusal::Graph(GraphFault::Unreached, Side::First);
            assert_eq!(result, Err(expected));
        }
        let reply = calls::order(4, &table.bytes, &unreached, second);
        assert_eq!(reply.number(), Some(7));
    }
}

#[test]
fn refusal_8_an_output_too_short_for_the_result() {
    let table = random::diamond();
    let p = record::write(&graph(3, "top[0: X top, 1: X]"));
    for length in 0..p.len() {
        let mut output = vec![0xEE; length];
        let reply = calls::rewrite(4, &table.bytes, &p, &mut output);
        assert_eq!(reply, Reply::Refused(Refusal::NoRoom));
        for call in [calls::generalize, calls::unify] {
            let reply = call(4, &table.bytes, &p, &p, &mut output);
            assert_eq!(reply.number(), Some(8));
        }
        // The difference of a graph from itself takes 10 bytes.
        let mut shorter = vec![0xEE; length.min(9)];
        let reply = calls::difference(4, &table.bytes, &p, &p, &mut shorter);
        assert_eq!(reply.number(), Some(8));
        assert!(output.iter().chain(&shorter).all(|&byte| byte == 0xEE));
    }
}

#[test]
fn refusals_of_results_in_the_order_of_the_checks() {
    let diamond = random::diamond();
    let refused = |table: &TableBytes, call: Call, first: &Graph, second: &Graph| {
        let (first, second) = (record::write(first), record::write(second));
        call(table.n, &table.bytes, &first, &second, &mut []).number()
    };
    // 12 before 13: the second graph has a node without a wanted type in both, and
    // in one a node more in the first.
    let rivals = random::three_over_one();
    let (one, two) = (Graph::lone(1), Graph::lone(2));
    let longer = random::chain_graph(2, 0, 2);
    assert_eq!(refused(&rivals, calls::difference, &longer, &one), Some(12));
    // 13 before 8.
    assert_eq!(refused(&rivals, calls::difference, &two, &one), Some(13));
    // 12 before 8, and 8 where the difference exists.
    assert_eq!(refused(&diamond, calls::difference, &one, &two), Some(12));
    assert_eq!(refused(&diamond, calls::difference, &one, &one), Some(8));
    // 12 before 13 for a range that does not lie inside, and a range does not matter to 13.
    let [ranged_one, ranged_two] = [1, 2].map(|node_type| {
        Graph::lone(Label {
            node_type,
            range: levels(7, 9),
        })
    });
    let refused_rivals = |g: &Graph, s: &Graph| refused(&rivals, calls::difference, g, s);
    assert_eq!(refused_rivals(&ranged_two, &one), Some(12));
    assert_eq!(refused_rivals(&two, &ranged_one), Some(13));
    assert_eq!(refused_rivals(&ranged_two, &ranged_one), Some(13));
    // 10 before 11: two long chains that clash at the root.
    let long = |feature: u8, node_type: u8| random::chain_graph(200, feature, node_type);
    assert_eq!(
        refused(&diamond, calls::unify, &long(0, 1), &long(1, 2)),
        Some(10)
    );
    // 11 before 8.
    assert_eq!(
        refused(&diamond, calls::unify, &long(0, 3), &long(1, 3)),
        Some(11)
    );
    // 9 before 10 and 11: two nodes of the first are shared by the second, one
    // above the other, with long chains hanging beside.
    let mut first = long(0, 1);
    first.nodes[0].links.insert(5, 1);
    first.nodes[0].links.insert(6, 2);
    let mut second = long(1, 2);
    second.nodes[0].links.insert(5, 1);
    second.nodes[0].links.insert(6, 1);
    assert_eq!(refused(&diamond, calls::unify, &first, &second), Some(9));
}

#[test]
fn refusal_11_of_a_combination_by_links_alone() {
    let table = random::diamond();
    let combined = |nodes: usize, low: &[u8], high: &[u8]| {
        let low = record::write(&random::ladder(nodes, low, 3));
        let high = record::write(&random::ladder(nodes, high, 3));
        written(calls::unify, 4, &table.bytes, &low, &high)
    };
    let (low, high): (Vec<u8>, Vec<u8>) = ((0..32).collect(), (31..64).collect());
    // Rows of 33 and 34 nodes: 32 × 64 and 33 × 64 links.
    let result = combined(33, &low, &high);
    assert_eq!(result.map(|record| record.len()), Ok(1 + 9 * 33 + 2048));
    assert_eq!(combined(34, &low, &high), Err(Refusal::TooLarge));
}

/// Layers of nodes below the root, each node standing for a state; the link by a
/// feature leads to the state that `step` gives, in the next layer.
fn layered(layers: usize, features: u8, step: impl Fn(usize, usize) -> usize) -> Graph {
    let states = 7;
    let node = |number: usize| {
        let (layer, state) = (number / states, number % states);
        let target = |feature: u8| {
            let next = step(state, usize::from(feature));
            (feature, (layer + 1) * states + next)
        };
        let features = (0..features).filter(|_| layer + 1 < layers);
        Node::new(3, features.map(target))
    };
    let nodes = (0..layers * states).map(node).collect();
    canonical(&Graph { nodes })
}

#[test]
fn refusal_11_of_a_common_part_by_nodes() {
    // One graph counts the features 1 on a path modulo 5, the other reads the
    // path as a number modulo 7; the pairs of states are up to 35 in a layer.
    let table = random::diamond();
    let mut replies = Vec::new();
    for layers in 1..20 {
        let counting = layered(layers, 2, |state, feature| (state + feature) % 5);
        let reading = layered(layers, 2, |state, feature| (2 * state + feature) % 7);
        let mut pairs = BTreeSet::from([(0, 0, 0)]);
        for layer in 1..layers {
            for (_, count, value) in pairs.clone().into_iter().filter(|p| p.0 == layer - 1) {
                for feature in [0, 1] {
                    let next = ((count + feature) % 5, (2 * value + feature) % 7);
                    pairs.insert((layer, next.0, next.1));
                }
            }
        }
        let (first, second) = (record::write(&counting), record::write(&reading));
        let result = written(calls::generalize, 4, &table.bytes, &first, &second);
        let count = result.map(|record| usize::from(record[0]));
        let expected = match pairs.len() {
            0..=255 => Ok(pairs.len()),
            _ => Err(Refusal::TooLarge),
        };
        assert_eq!(count, expected);
        replies.push(count.is_ok());
    }
    assert!(replies.contains(&true) && replies.contains(&false));
}

#[test]
fn refusal_11_of_a_common_part_by_links_alone() {
    // Two states each, so four pairs in a layer, and 64 links from each pair.
    let table = random::diamond();
    let common = |layers: usize| {
        let odd = layered(layers, 64, |_, feature| feature % 2);
        let half = layered(layers, 64, |_, feature| feature / 2 % 2);
        let (odd, half) = (record::write(&odd), record::write(&half));
        written(calls::generalize, 4, &table.bytes, &odd, &half)
    };
    let nodes = 1 + 4 * 8;
    let links = 64 * (1 + 4 * 7);
    assert_eq!(common(9).map(|r| r.len()), Ok(1 + 9 * nodes + links));
    // 64 × (1 + 4 × 8) links.
    assert_eq!(common(10), Err(Refusal::TooLarge));
}

#[test]
fn replies_without_a_refusal_have_no_number() {
    assert_eq!(Reply::Length(10).number(), None);
    for order in Order::ALL {
        assert_eq!(Reply::Order(order).number(), None);
    }
}
