//! Graphs as large as a record can hold, with more paths than can be listed.

use reference::calls::{self, Call, written};
use reference::canonical::canonical;
use reference::graph::Graph;
use reference::label::Range;
use reference::random::{self, Ranges, Shape, TableBytes, Xorshift};
use reference::record;
use reference::reply::{Refusal, Reply};

const TOP: u8 = 3;

fn over_diamond(call: Call, first: &Graph, second: &Graph) -> Result<Vec<u8>, Refusal> {
    let table = random::diamond();
    let (first, second) = (record::write(first), record::write(second));
    written(call, 4, &table.bytes, &first, &second)
}

fn is_below(lower: &Graph, upper: &Graph) -> bool {
    let table = random::diamond();
    let (lower, upper) = (record::write(lower), record::write(upper));
    let Reply::Order(order) = calls::order(4, &table.bytes, &lower, &upper) else {
        panic!("accepted records");
    };
    order.is_below()
}

/// 255 nodes in a row with 8 links from each to the next: 8 to the 254th paths.
fn longest_ladder() -> Graph {
    random::ladder(255, &[0, 9, 18, 27, 36, 45, 54, 63], TOP)
}

#[test]
fn a_ladder_goes_through_all_calls() {
    let ladder = longest_ladder();
    let record = record::write(&ladder);
    assert_eq!(record.len(), 1 + 9 * 255 + 8 * 254);
    let mut output = vec![0; record.len()];
    let table = random::diamond();
    let reply = calls::rewrite(4, &table.bytes, &record, &mut output);
    assert_eq!(reply, Reply::Length(record.len()));
    assert_eq!(output, record);
    assert!(is_below(&ladder, &ladder));
    let same = over_diamond(calls::generalize, &ladder, &ladder);
    assert_eq!(same.as_ref(), Ok(&record));
    let same = over_diamond(calls::unify, &ladder, &ladder);
    assert_eq!(same.as_ref(), Ok(&record));
    let lone_top = record::write(&Graph::lone(TOP));
    let difference = over_diamond(calls::difference, &ladder, &ladder);
    assert_eq!(difference, Ok(lone_top));
}

#[test]
fn the_longest_record_is_read_and_written() {
    let mut longest = longest_ladder();
    // 16 more links make 2,048.
    for number in 0..16 {
        longest.nodes[number].links.insert(1, number + 1);
    }
    assert_eq!(longest.link_count(), 2048);
    let combined = over_diamond(calls::unify, &longest, &longest_ladder());
    assert_eq!(combined, Ok(record::write(&longest)));
    // A range at every node.
    for (lowest, node) in (1..=255).zip(&mut longest.nodes) {
        node.label.range.lowest = lowest;
    }
    let record = record::write(&longest);
    assert_eq!(record.len(), record::LONGEST_RECORD);
    let combined = over_diamond(calls::unify, &longest, &longest_ladder());
    assert_eq!(combined, Ok(record));
    longest.nodes[16].links.insert(1, 17);
    let refused = over_diamond(calls::unify, &longest, &longest_ladder());
    assert_eq!(refused.map_err(Refusal::number), Err(4));
}

#[test]
fn a_type_at_the_end_of_a_ladder_is_kept_by_one_path() {
    let general = longest_ladder();
    let mut specific = general.clone();
    specific.nodes[254].label.node_type = 1;
    assert!(is_below(&specific, &general));
    assert!(!is_below(&general, &specific));
    let difference = over_diamond(calls::difference, &general, &specific);
    let mut expected = random::chain_graph(255, 0, TOP);
    expected.nodes[254].label.node_type = 1;
    assert_eq!(difference, Ok(record::write(&expected)));
    let restored = over_diamond(calls::unify, &general, &expected);
    assert_eq!(restored, Ok(record::write(&specific)));
}

#[test]
fn a_range_at_the_end_of_a_ladder_is_kept_by_one_path() {
    let mut general = longest_ladder();
    general.nodes[254].label.range = Range {
        lowest: 7,
        highest: 200,
    };
    let mut specific = general.clone();
    specific.nodes[254].label.range.highest = 100;
    assert!(is_below(&specific, &general));
    assert!(!is_below(&general, &specific));
    let difference = over_diamond(calls::difference, &general, &specific);
    let mut expected = random::chain_graph(255, 0, TOP);
    expected.nodes[254].label.range.highest = 100;
    assert_eq!(difference, Ok(record::write(&expected)));
    let restored = over_diamond(calls::unify, &general, &expected);
    assert_eq!(restored, Ok(record::write(&specific)));
}

#[test]
fn a_chain_merged_into_itself_by_one_shared_pair_loops() {
    let chain = random::chain_graph(255, 0, TOP);
    // The first two nodes below the root of a short chain, shared by feature 1.
    let mut first = chain.clone();
    first.nodes[0].links.insert(1, 2);
    let mut second = random::chain_graph(2, 0, TOP);
    second.nodes[0].links.insert(1, 1);
    let looping = over_diamond(calls::unify, &first, &second);
    assert_eq!(looping, Err(Refusal::Cycle));
}

#[test]
fn merging_passes_down_two_long_chains() {
    // Two chains of 127 nodes below one root, all top but the ends, and a graph
    // that shares their heads: the chains become one, and the ends meet.
    let two_chains = |left_end: u8, right_end: u8| {
        let left = random::chain_graph(127, 0, TOP).nodes;
        let right = left.clone();
        let mut nodes = Graph::lone(TOP).nodes;
        for (offset, chain, end) in [(1, left, left_end), (128, right, right_end)] {
            nodes[0].links.insert(offset as u8 % 2, offset);
            for mut node in chain {
                node.links.values_mut().for_each(|target| *target += offset);
                nodes.push(node);
            }
            nodes[offset + 126].label.node_type = end;
        }
        Graph { nodes }
    };
    let mut shared = random::chain_graph(2, 0, TOP);
    shared.nodes[0].links.insert(1, 1);
    let clash = over_diamond(calls::unify, &two_chains(1, 2), &shared);
    assert_eq!(clash, Err(Refusal::Clash));
    let combined = over_diamond(calls::unify, &two_chains(1, TOP), &shared);
    let mut expected = random::chain_graph(128, 0, TOP);
    expected.nodes[0].links.insert(1, 1);
    expected.nodes[127].label.node_type = 1;
    assert_eq!(combined, Ok(record::write(&expected)));
}

#[test]
fn large_random_graphs_keep_the_laws() {
    let mut random = Xorshift::stored(21);
    let tables: [TableBytes; 3] = [random::diamond(), random::boolean(6), random::chain(64)];
    for round in 0..60 {
        let table = &tables[round % 3];
        let accepted = table.accepted();
        let shape = Shape {
            nodes: random.between(200, 255),
            extra_links: random.pick(2048),
            features: (0..random.between(2, 16) as u8).collect(),
            spread: *random.choose(&[1, 2, 5, 255]),
            tops: 2,
            ranges: 0,
        };
        let shape = shape.ranged(&mut random, Ranges::Present);
        let s = random::graph(&mut random, table.n, &shape);
        let g = random::graph_above(&mut random, &accepted, &s);
        let written_s = record::write(&canonical(&s));
        let (s, g) = (record::write(&s), record::write(&g));
        let make = |call: Call, first: &[u8], second: &[u8]| {
            written(call, table.n, &table.bytes, first, second)
        };
        let order = calls::order(table.n, &table.bytes, &s, &g);
        assert!(matches!(order, Reply::Order(order) if order.is_below()));
        assert_eq!(make(calls::unify, &s, &g).as_ref(), Ok(&written_s));
        let difference = make(calls::difference, &g, &s).expect("s is below g");
        let restored = make(calls::unify, &g, &difference);
        assert_eq!(restored, Ok(written_s));
    }
}
