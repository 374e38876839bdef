//! Broader graphs in place of narrower ones, by the proved engine and by the reference. Graph b is
//! made from a, and d from c, by raising types, widening ranges, dropping links and splitting shared
//! nodes. If a and c have a combination, so do b and d. The result for a and c is below the result
//! for b and d, whatever outputs are lent.

use comparison::{Call, Comparison, GENERALIZE, ORDER, UNIFY};
use reference::graph::{Feature, Graph};
use reference::random::{self, Ranges, Shape, TableBytes, Xorshift};
use reference::record::{self, LONGEST_RECORD, MOST_NODES};
use reference::reply::Reply;
use std::collections::BTreeMap;

/// The records a and c, and the records b and d above them.
struct Quadruple {
    narrow: [Vec<u8>; 2],
    broad: [Vec<u8>; 2],
}

impl Quadruple {
    fn above(random: &mut Xorshift, table: &TableBytes, narrow: [Graph; 2]) -> Quadruple {
        let table = table.accepted();
        let broad = narrow
            .each_ref()
            .map(|graph| random::graph_above(random, &table, graph));
        Quadruple {
            narrow: narrow.map(|graph| record::write(&graph)),
            broad: broad.map(|graph| record::write(&graph)),
        }
    }
}

/// One call on quadruples, and how often each two replies came: the number of the
/// narrower pair's and that of the broader pair's, lengths at 0.
struct Broader {
    call: Comparison,
    order: Comparison,
    random: Xorshift,
    replies: BTreeMap<[u8; 2], usize>,
}

impl Broader {
    fn new(call: Call, seed: u64) -> Broader {
        Broader {
            call: Comparison::new(call, seed),
            order: Comparison::new(ORDER, seed + 1),
            random: Xorshift::stored(seed + 2),
            replies: BTreeMap::new(),
        }
    }

    fn check(&mut self, table: &TableBytes, quadruple: &Quadruple) {
        let Quadruple { narrow, broad } = quadruple;
        for side in [0, 1] {
            self.assert_below(table, &narrow[side], &broad[side]);
        }
        let [(under, lower), (over, upper)] = [narrow, broad].map(|[first, second]| {
            let room = self.room();
            self.call.answer_within(table, &[first, second], &[room])
        });
        let numbers = [under, over].map(|reply| reply.number().unwrap_or(0));
        let [combines, still_combines] = numbers.map(|number| !matches!(number, 9 | 10));
        assert!(
            !combines || still_combines,
            "{under:?} {over:?} {table:?} {narrow:?} {broad:?}"
        );
        if numbers == [0, 0] {
            self.assert_below(table, &lower, &upper);
        }
        *self.replies.entry(numbers).or_default() += 1;
    }

    /// Room for any record, or for a small one at most.
    fn room(&mut self) -> usize {
        match self.random.chance(3, 4) {
            true => LONGEST_RECORD,
            false => self.random.pick(120),
        }
    }

    fn assert_below(&mut self, table: &TableBytes, lower: &[u8], upper: &[u8]) {
        let (answer, _) = self.order.answer(table, &[lower, upper]);
        let below = matches!(answer, Reply::Order(order) if order.is_below());
        assert!(below, "{answer:?} {table:?} {lower:?} {upper:?}");
    }

    /// From the stored seeds, two replies of which the narrower pair's is among the first
    /// and the broader pair's among the second came at least so often.
    fn assert_came(&self, narrow: &[u8], broad: &[u8], least: usize) {
        let came = |[under, over]: &[u8; 2]| narrow.contains(under) && broad.contains(over);
        let matching = self.replies.iter().filter(|(numbers, _)| came(numbers));
        let count: usize = matching.map(|(_, count)| count).sum();
        let enough = count >= least || !random::is_stored();
        assert!(enough, "{narrow:?} {broad:?}: {:?}", self.replies);
    }
}

/// Two graphs over a table.
type Draw = fn(&mut Xorshift, &TableBytes) -> [Graph; 2];

/// Small graphs, unrelated or made from each other, without ranges.
fn small(random: &mut Xorshift, table: &TableBytes) -> [Graph; 2] {
    small_pair(random, table, Ranges::Absent)
}

/// The same with ranges.
fn small_ranged(random: &mut Xorshift, table: &TableBytes) -> [Graph; 2] {
    small_pair(random, table, Ranges::Present)
}

fn small_pair(random: &mut Xorshift, table: &TableBytes, ranges: Ranges) -> [Graph; 2] {
    let shape = Shape::small(random, 9, 4).ranged(random, ranges);
    match random.chance(1, 2) {
        true => random::unrelated(random, table.n, &shape).into(),
        false => random::pair(random, &table.accepted(), &shape).into(),
    }
}

/// Large graphs without a common feature, so that only the roots of a combination
/// merge: it has about 255 nodes.
fn beside(random: &mut Xorshift, table: &TableBytes) -> [Graph; 2] {
    let nodes = random.between(60, 195);
    let others = random.between(250, 262) - nodes;
    [(nodes, 0..8), (others, 8..16)].map(|(nodes, features)| {
        let shape = large(random, nodes, features.collect());
        random::graph(random, table.n, &shape)
    })
}

/// Graphs above one large graph, so that their common part has about 255 nodes.
fn around(random: &mut Xorshift, table: &TableBytes) -> [Graph; 2] {
    let nodes = random.between(252, MOST_NODES);
    let shape = large(random, nodes, (0..8).collect());
    let base = random::graph(random, table.n, &shape);
    [0, 1].map(|_| random::graph_above(random, &table.accepted(), &base))
}

/// A shape of so many nodes, all top, with few or many shared ones.
fn large(random: &mut Xorshift, nodes: usize, features: Vec<Feature>) -> Shape {
    let most_extra = *random.choose(&[20, 80, 400]);
    Shape {
        nodes,
        extra_links: random.pick(most_extra),
        features,
        spread: *random.choose(&[3, 60]),
        tops: 4,
        ranges: 0,
    }
}

/// Quadruples over all kinds of accepted tables.
fn check(compared: &mut Broader, seed: u64, count: usize, draw: Draw) {
    let random = &mut Xorshift::stored(seed);
    for _ in 0..count {
        let table = random::valid_table(random);
        let narrow = draw(random, &table);
        let quadruple = Quadruple::above(random, &table, narrow);
        compared.check(&table, &quadruple);
    }
}

#[test]
fn a_broader_pair_combines_and_lies_above() {
    let mut compared = Broader::new(UNIFY, 41);
    check(&mut compared, 44, 6_000, small);
    check(&mut compared, 45, 400, beside);
    let exists = [0, 8, 11];
    compared.assert_came(&[9], &exists, 200);
    compared.assert_came(&[10], &exists, 100);
    compared.assert_came(&[0], &[0], 3_000);
    compared.assert_came(&[11], &[0, 8], 20);
    compared.assert_came(&[0, 8], &[11], 20);
    compared.assert_came(&[8], &[0, 11], 200);
    compared.assert_came(&[0, 11], &[8], 200);
}

#[test]
fn a_broader_pair_with_ranges_combines_and_lies_above() {
    let mut compared = Broader::new(UNIFY, 111);
    check(&mut compared, 114, 6_000, small_ranged);
    let exists = [0, 8, 11];
    compared.assert_came(&[9], &exists, 200);
    compared.assert_came(&[10], &exists, 100);
    compared.assert_came(&[0], &[0], 2_000);
    compared.assert_came(&[8], &[0], 100);
    compared.assert_came(&[0], &[8], 100);
}

#[test]
fn common_parts_of_a_broader_pair_with_ranges_lie_above() {
    let mut compared = Broader::new(GENERALIZE, 116);
    check(&mut compared, 119, 6_000, small_ranged);
    compared.assert_came(&[0], &[0], 3_000);
    compared.assert_came(&[8], &[0], 200);
    compared.assert_came(&[0], &[8], 200);
}

#[test]
fn common_parts_of_a_broader_pair_lie_above() {
    let mut compared = Broader::new(GENERALIZE, 46);
    check(&mut compared, 49, 6_000, small);
    check(&mut compared, 50, 800, around);
    compared.assert_came(&[0], &[0], 3_000);
    compared.assert_came(&[11], &[0, 8], 20);
    compared.assert_came(&[0, 8], &[11], 20);
    compared.assert_came(&[8], &[0, 11], 200);
    compared.assert_came(&[0, 11], &[8], 200);
}
