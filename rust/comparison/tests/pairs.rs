//! The calls on two records by the proved engine and by the reference: random
//! pairs, unrelated or made from each other by dropping links, raising types, widening
//! ranges and parting shared nodes; small, large, and damaged, without ranges and with
//! them, over random and damaged tables.

use comparison::{Call, Comparison, DIFFERENCE, GENERALIZE, ORDER, UNIFY, compare, compare_pairs};
use reference::graph::{Graph, Node};
use reference::random::{self, Ranges, Shape};
use reference::record::{self, MOST_NODES};
use reference::reply::Reply;

/// Pairs of graphs with up to 255 nodes and 2,048 links.
fn compare_large(call: Call, seed: u64, ranges: Ranges) -> Comparison {
    compare(call, seed, 400, |compared, random| {
        let table = random::valid_table(random);
        let shape = Shape::large(random).ranged(random, ranges);
        let (first, second) = random::pair(random, &table.accepted(), &shape);
        let records = [first, second].map(|graph| random::record_of(random, &graph, ranges));
        compared.check(&table, &[&records[0], &records[1]]);
    })
}

#[test]
fn the_order_of_random_pairs() {
    let compared = compare_pairs(ORDER, 21, 20_000, Ranges::Absent);
    compared.assert_replies(&[1, 2, 3, 4, 5, 6, 7], 50);
    compared.assert_answers(3_000);
}

#[test]
fn the_order_of_random_pairs_with_ranges() {
    let compared = compare_pairs(ORDER, 81, 20_000, Ranges::Present);
    compared.assert_replies(&[1, 2, 3, 4, 5, 6, 7], 50);
    compared.assert_answers(2_000);
}

#[test]
fn the_order_of_large_pairs() {
    let compared = compare_large(ORDER, 23, Ranges::Absent);
    compared.assert_replies(&[], 0);
    compared.assert_answers(50);
}

#[test]
fn the_order_of_large_pairs_with_ranges() {
    let compared = compare_large(ORDER, 83, Ranges::Present);
    compared.assert_replies(&[], 0);
    compared.assert_answers(50);
}

#[test]
fn the_common_part_of_random_pairs() {
    let compared = compare_pairs(GENERALIZE, 25, 20_000, Ranges::Absent);
    compared.assert_replies(&[0, 1, 2, 3, 4, 5, 6, 7, 8, 11], 30);
}

#[test]
fn the_common_part_of_random_pairs_with_ranges() {
    let compared = compare_pairs(GENERALIZE, 185, 20_000, Ranges::Present);
    compared.assert_replies(&[0, 1, 2, 3, 4, 5, 6, 7, 8, 11], 30);
}

#[test]
fn the_common_part_of_large_pairs() {
    let compared = compare_large(GENERALIZE, 27, Ranges::Absent);
    compared.assert_replies(&[0, 8, 11], 50);
}

#[test]
fn the_common_part_of_large_pairs_with_ranges() {
    let compared = compare_large(GENERALIZE, 87, Ranges::Present);
    compared.assert_replies(&[0, 8, 11], 50);
}

#[test]
fn the_combination_of_random_pairs() {
    let compared = compare_pairs(UNIFY, 31, 20_000, Ranges::Absent);
    compared.assert_replies(&[0, 1, 2, 3, 4, 5, 6, 7, 8, 9, 10, 11], 10);
}

#[test]
fn the_combination_of_random_pairs_with_ranges() {
    let compared = compare_pairs(UNIFY, 91, 20_000, Ranges::Present);
    compared.assert_replies(&[0, 1, 2, 3, 4, 5, 6, 7, 8, 9, 10, 11], 10);
}

#[test]
fn the_combination_of_large_pairs() {
    let compared = compare_large(UNIFY, 33, Ranges::Absent);
    compared.assert_replies(&[0, 8, 9, 10, 11], 5);
}

#[test]
fn the_combination_of_large_pairs_with_ranges() {
    let compared = compare_large(UNIFY, 93, Ranges::Present);
    compared.assert_replies(&[0, 8, 9, 10, 11], 5);
}

/// Trees of random shape with few features and only tops, so that little merges and
/// nothing clashes: many combinations have more than 255 nodes.
#[test]
fn combinations_of_trees_around_255_nodes() {
    let table = random::diamond();
    let compared = compare(UNIFY, 35, 600, |compared, random| {
        let shape = Shape {
            nodes: random.between(100, MOST_NODES),
            extra_links: random.pick(4),
            features: (0..*random.choose(&[2, 3, 8])).collect(),
            spread: *random.choose(&[1, 3, 40]),
            tops: 4,
            ranges: 0,
        };
        let (first, second) = random::unrelated(random, table.n, &shape);
        let records = [first, second].map(|graph| record::write(&graph));
        compared.check(&table, &[&records[0], &records[1]]);
    });
    compared.assert_replies(&[0, 8, 11], 200);
}

#[test]
fn the_difference_of_random_pairs() {
    let compared = compare_pairs(DIFFERENCE, 37, 20_000, Ranges::Absent);
    compared.assert_replies(&[0, 1, 2, 3, 4, 5, 6, 7, 8, 12, 13], 30);
}

#[test]
fn the_difference_of_random_pairs_with_ranges() {
    let compared = compare_pairs(DIFFERENCE, 97, 20_000, Ranges::Present);
    compared.assert_replies(&[0, 1, 2, 3, 4, 5, 6, 7, 8, 12, 13], 30);
}

#[test]
fn the_difference_of_large_pairs() {
    let compared = compare_large(DIFFERENCE, 39, Ranges::Absent);
    compared.assert_replies(&[0, 8, 12, 13], 3);
}

#[test]
fn the_difference_of_large_pairs_with_ranges() {
    let compared = compare_large(DIFFERENCE, 99, Ranges::Present);
    compared.assert_replies(&[0, 8, 12, 13], 3);
}

/// Over tables that admit no differences: 13 and lengths both come up often.
fn compare_over_rivals(seed: u64, count: usize, ranges: Ranges) -> Comparison {
    compare(DIFFERENCE, seed, count, |compared, random| {
        let table = random::rival_table(random);
        let accepted = table.accepted();
        for _ in 0..8 {
            let shape = Shape::small(random, 9, 4).ranged(random, ranges);
            let (g, s) = random::low_pair(random, &accepted, &shape);
            let [g, s] = [g, s].map(|graph| random::record_of(random, &graph, ranges));
            compared.check(&table, &[&g, &s]);
        }
    })
}

#[test]
fn the_difference_over_rival_types() {
    let compared = compare_over_rivals(41, 20_000, Ranges::Absent);
    compared.assert_replies(&[0, 8, 13], 2_000);
}

#[test]
fn the_difference_over_rival_types_with_ranges() {
    let compared = compare_over_rivals(101, 5_000, Ranges::Present);
    compared.assert_replies(&[0, 8, 13], 500);
}

/// The same over tables of 64 types that are not numbered along their order.
#[test]
fn the_difference_over_64_rival_types() {
    let compared = compare(DIFFERENCE, 43, 4_000, |compared, random| {
        let table = random::large_rival_table(random);
        let accepted = table.accepted();
        for _ in 0..40 {
            let shape = match random.chance(1, 10) {
                true => Shape::any(random),
                false => Shape::small(random, 9, 4),
            };
            let (g, s) = random::low_pair(random, &accepted, &shape);
            compared.check(&table, &[&record::write(&g), &record::write(&s)]);
        }
    });
    compared.assert_replies(&[0, 8, 13], 300);
}

/// What the two graphs of a crossing have beyond their paths to leaves.
struct Crossing {
    /// How many switches, and how many leaves.
    count: usize,
    /// How many links each leaf has.
    leaf_links: usize,
    /// How many links more the root has.
    root_links: usize,
    /// How many links more the first switch has.
    switch_links: usize,
}

impl Crossing {
    /// A root, switches below it and leaves below these, all top. The path i, j
    /// leads to leaf i in the first graph and to leaf j in the second, so that the
    /// common part has a node for each pair of leaves. All other links lead to one
    /// node, and by the highest features.
    fn records(&self) -> [Vec<u8>; 2] {
        [true, false].map(|first| {
            let leaf = |place: usize| 1 + self.count + place;
            let last = leaf(self.count);
            let more = |links: usize| (0..links).map(move |link| (63 - link, last));
            let root = (0..self.count).map(|place| (place, 1 + place));
            let mut nodes = vec![node(root.chain(more(self.root_links)))];
            for i in 0..self.count {
                let leaves = (0..self.count).map(|j| (j, leaf(if first { i } else { j })));
                let links = if i == 0 { self.switch_links } else { 0 };
                nodes.push(node(leaves.chain(more(links))));
            }
            nodes.extend((0..self.count).map(|_| node(more(self.leaf_links))));
            if self.leaf_links > 0 {
                nodes.push(node([].into_iter()));
            }
            record::write(&Graph { nodes })
        })
    }
}

/// A node of the diamond's top with the links given.
fn node(links: impl Iterator<Item = (usize, usize)>) -> Node {
    Node::new(3, links.map(|(feature, target)| (feature as u8, target)))
}

#[test]
fn common_parts_at_the_limits() {
    let mut compared = Comparison::new(GENERALIZE, 29);
    let table = random::diamond();
    let ladders = [MOST_NODES, 200].map(|nodes| record::write(&random::ladder(nodes, &[3, 60], 3)));
    let shorter = Reply::Length(ladders[1].len());
    assert_eq!(compared.check(&table, &[&ladders[0], &ladders[1]]), shorter);
    assert_eq!(compared.check(&table, &[&ladders[1], &ladders[0]]), shorter);
    // 1 + 15 + 225 nodes, and 1 + 16 + 256.
    for (count, number) in [(15, None), (16, Some(11))] {
        let crossing = Crossing {
            count,
            leaf_links: 0,
            root_links: 0,
            switch_links: 0,
        };
        let [first, second] = crossing.records();
        let reply = compared.check(&table, &[&first, &second]);
        assert_eq!(reply.number(), number, "{count} leaves");
    }
    // 64 links at the root, 8 at each of 8 switches and 30 at each of 64 pairs of
    // leaves, which is 2,048; and one more.
    for (switch_links, number) in [(0, None), (1, Some(11))] {
        let crossing = Crossing {
            count: 8,
            leaf_links: 30,
            root_links: 56,
            switch_links,
        };
        let [first, second] = crossing.records();
        let reply = compared.check(&table, &[&first, &second]);
        assert_eq!(reply.number(), number, "{switch_links} links more");
    }
    compared.assert_replies(&[0, 8, 11], 3);
}
