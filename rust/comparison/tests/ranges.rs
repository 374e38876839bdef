//! Level ranges by the proved engine and by the reference: full ranges that are spelled
//! out change no reply and no byte of a result, and records whose ranges are damaged
//! are refused, by 4 or by 5 and as the first or the second, by every call.

use comparison::{Call, Comparison, DIFFERENCE, GENERALIZE, ORDER, REWRITE, UNIFY, compare};
use reference::graph::Graph;
use reference::label::Range;
use reference::random::{self, Ranges, Shape, TableBytes, Xorshift};
use reference::record::{self, GraphFault};
use reference::reply::{Refusal, Reply, Side};
use reference::table::CONTRADICTION;

/// A table and two graphs, of which one may be above the other; in one of four cases
/// graphs whose difference often has a node without a wanted type.
fn pair(random: &mut Xorshift) -> (TableBytes, [Graph; 2]) {
    let shape = Shape::small(random, 9, 4).ranged(random, Ranges::Present);
    if random.chance(1, 4) {
        let table = random::rival_table(random);
        let graphs = random::low_pair(random, &table.accepted(), &shape);
        return (table, graphs.into());
    }
    let table = random::valid_table(random);
    let graphs = random::pair(random, &table.accepted(), &shape);
    (table, graphs.into())
}

/// Pairs of records with full ranges spelled out here and there: what is answered and
/// written is what the same pair without them gives.
fn compare_spelled(call: Call, seed: u64) -> Comparison {
    compare(call, seed, 4_000, |compared, random| {
        let (table, graphs) = pair(random);
        let plain = graphs.each_ref().map(record::write);
        let some = random.between(1, 4);
        let spelled = graphs
            .each_ref()
            .map(|graph| record::write_spelling(graph, |_| random.chance(some, 4)));
        let expected = compared.answer(&table, &[&plain[0], &plain[1]]);
        for [first, second] in [[&spelled[0], &plain[1]], [&plain[0], &spelled[1]]] {
            let same = compared.answer(&table, &[first, second]);
            assert_eq!(same, expected, "{table:?} {first:?} {second:?}");
        }
        let reply = compared.check(&table, &[&spelled[0], &spelled[1]]);
        assert_eq!(reply, expected.0, "{table:?} {spelled:?}");
    })
}

#[test]
fn full_ranges_spelled_out_change_no_rewriting() {
    let compared = compare(REWRITE, 121, 4_000, |compared, random| {
        let table = random::valid_table(random);
        let shape = Shape::any(random).ranged(random, Ranges::Present);
        let graph = random::graph(random, table.n, &shape);
        let plain = record::write(&graph);
        let spelled = record::write_spelling(&graph, |_| random.chance(3, 4));
        let expected = compared.answer(&table, &[&plain]);
        let same = compared.answer(&table, &[&spelled]);
        assert_eq!(same, expected, "{table:?} {plain:?}");
        let reply = compared.check(&table, &[&spelled]);
        assert_eq!(reply, Reply::Length(plain.len()));
    });
    compared.assert_replies(&[0, 8], 4_000);
}

#[test]
fn full_ranges_spelled_out_change_no_order() {
    let compared = compare_spelled(ORDER, 123);
    compared.assert_replies(&[], 0);
    compared.assert_answers(1_000);
}

#[test]
fn full_ranges_spelled_out_change_no_common_part() {
    let compared = compare_spelled(GENERALIZE, 125);
    compared.assert_replies(&[0, 8], 4_000);
}

#[test]
fn full_ranges_spelled_out_change_no_combination() {
    let compared = compare_spelled(UNIFY, 127);
    compared.assert_replies(&[0, 8, 9, 10], 400);
}

#[test]
fn full_ranges_spelled_out_change_no_difference() {
    let compared = compare_spelled(DIFFERENCE, 129);
    compared.assert_replies(&[0, 8, 12, 13], 100);
}

/// What is wrong with a record.
#[derive(Clone, Copy)]
enum Damage {
    /// A lowest level above the highest.
    Empty,
    /// Type 0 with bit 7.
    Contradiction,
    /// A type at n or above with bit 7.
    Type,
    /// Bit 7 at the last type byte, and one or both of the levels missing.
    Levels,
}

impl Damage {
    const ALL: [Damage; 4] = [
        Damage::Empty,
        Damage::Contradiction,
        Damage::Type,
        Damage::Levels,
    ];

    fn fault(self) -> GraphFault {
        match self {
            Damage::Levels => GraphFault::Malformed,
            _ => GraphFault::OutOfRange,
        }
    }

    /// A record over n types with this damage at some node.
    fn record(self, random: &mut Xorshift, n: usize) -> Vec<u8> {
        let shape = Shape::small(random, 6, 3).ranged(random, Ranges::Present);
        let mut graph = random::graph(random, n, &shape);
        let number = random.pick(graph.nodes.len());
        let label = &mut graph.nodes[number].label;
        match self {
            Damage::Empty => {
                let highest = random.pick(255) as u8;
                let lowest = random.between(usize::from(highest) + 1, 255) as u8;
                label.range = Range { lowest, highest };
            }
            Damage::Contradiction => label.node_type = CONTRADICTION,
            Damage::Type => label.node_type = random.between(n, 127) as u8,
            Damage::Levels => {
                // The last node has no links, so that the record is too short.
                let leaf = graph.bottom_up().expect("an acyclic graph")[0];
                return random::without_levels(random, with_last(&graph, leaf));
            }
        }
        record::write_spelling(&graph, |node| node == number || random.chance(1, 4))
    }
}

/// The graph with a node and the last one exchanged; a root has to stay the first.
fn with_last(graph: &Graph, node: usize) -> Graph {
    let last = graph.nodes.len() - 1;
    let renumber = |number: usize| match number {
        number if number == node => last,
        number if number == last => node,
        number => number,
    };
    let mut exchanged = graph.clone();
    exchanged.nodes.swap(node, last);
    for node in &mut exchanged.nodes {
        let renumber = |target: &mut usize| *target = renumber(*target);
        node.links.values_mut().for_each(renumber);
    }
    exchanged
}

#[test]
fn damaged_ranges_are_refused_by_every_call() {
    for (seed, call) in (131..)
        .step_by(2)
        .zip([ORDER, GENERALIZE, UNIFY, DIFFERENCE])
    {
        let mut compared = Comparison::new(call, seed);
        let random = &mut Xorshift::stored(seed + 1);
        for _ in 0..300 {
            let (table, graphs) = pair(random);
            let good = graphs.map(|graph| record::write(&graph));
            for damage in Damage::ALL {
                let damaged = damage.record(random, table.n);
                let other = random.choose(&Damage::ALL).record(random, table.n);
                for (records, side) in [
                    ([&damaged, &good[1]], Side::First),
                    ([&good[0], &damaged], Side::Second),
                    ([&damaged, &other], Side::First),
                ] {
                    let reply = compared.check(&table, &records.map(Vec::as_slice));
                    let refusal = Refusal::Graph(damage.fault(), side);
                    assert_eq!(reply, Reply::Refused(refusal), "{records:?}");
                }
            }
        }
        compared.assert_replies(&[4, 5], 900);
    }
}

#[test]
fn damaged_ranges_are_refused_by_rewriting() {
    let mut compared = Comparison::new(REWRITE, 139);
    let random = &mut Xorshift::stored(140);
    for _ in 0..1_000 {
        let table = random::valid_table(random);
        for damage in Damage::ALL {
            let damaged = damage.record(random, table.n);
            let reply = compared.check(&table, &[&damaged]);
            let refusal = Refusal::Graph(damage.fault(), Side::First);
            assert_eq!(reply, Reply::Refused(refusal), "{damaged:?}");
        }
    }
    compared.assert_replies(&[4, 5], 1_000);
}
