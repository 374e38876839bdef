//! Properties over many random small graphs and several lattices, from fixed seeds. The tests
//! compare the operations with document 01's sentences over paths, taken literally, and with the
//! laws of the lattice of graphs.

use reference::calls::{self, Call, written};
use reference::canonical::canonical;
use reference::difference::{difference, difference_by};
use reference::generalize::generalize;
use reference::graph::{Graph, Node, ROOT};
use reference::label::{Label, Level, Range};
use reference::link_order::LinkOrder;
use reference::order::{Order, below, order, strictly_more_general, subsumption};
use reference::paths::{self, PathGraph};
use reference::random::{self, Ranges, Shape, TableBytes, Xorshift};
use reference::record;
use reference::reply::{Refusal, Reply};
use reference::table::{Table, Type};
use reference::unify::unify;
use std::collections::{BTreeMap, BTreeSet};

/// Calls the property with many random pairs of small graphs, half of them with
/// ranges, over all kinds of accepted tables.
fn for_pairs(seed: u64, count: usize, property: impl FnMut(&Table, &Graph, &Graph)) {
    for_pairs_over(seed, count, random::valid_table, property);
}

/// The same over tables of one kind.
fn for_pairs_over(
    seed: u64,
    count: usize,
    table: impl Fn(&mut Xorshift) -> TableBytes,
    mut property: impl FnMut(&Table, &Graph, &Graph),
) {
    let mut random = Xorshift::stored(seed);
    for _ in 0..count {
        let table = table(&mut random).accepted();
        for round in 0..10 {
            let ranges = [Ranges::Absent, Ranges::Present][round % 2];
            let shape = Shape::small(&mut random, 6, 3).ranged(&mut random, ranges);
            let (first, second) = random::pair(&mut random, &table, &shape);
            property(&table, &first, &second);
        }
    }
}

/// Whether the paths are few enough to be listed and compared in pairs.
fn few_paths(graph: &Graph) -> bool {
    paths::paths(graph).len() <= 60
}

#[test]
fn order_agrees_with_the_sentence_over_paths() {
    let mut counts = BTreeMap::new();
    for_pairs(1, 600, |table, s, g| {
        if !few_paths(s) || !few_paths(g) {
            return;
        }
        let (lower, upper) = (PathGraph::of(s), PathGraph::of(g));
        let by_paths = Order::of(
            paths::below(table, &lower, &upper),
            paths::below(table, &upper, &lower),
        );
        assert_eq!(order(table, s, g), by_paths, "{s:?} {g:?}");
        *counts.entry(by_paths).or_insert(0) += 1;
    });
    let often = |order| counts.get(order).is_some_and(|&count| count > 100);
    assert!(Order::ALL.iter().all(often), "{counts:?}");
}

#[test]
fn order_is_reflexive_transitive_and_tells_graphs_apart() {
    let mut random = Xorshift::stored(2);
    let mut chains = 0;
    for_pairs(3, 400, |table, first, second| {
        assert!(below(table, first, first));
        let both = below(table, first, second) && below(table, second, first);
        assert_eq!(both, canonical(first) == canonical(second));
        let third = random::graph_above(&mut random, table, second);
        assert!(below(table, second, &third));
        if below(table, first, second) {
            assert!(below(table, first, &third));
            chains += 1;
        }
        assert_eq!(
            strictly_more_general(table, &third, second),
            canonical(&third) != canonical(second)
        );
    });
    assert!(chains > 300, "{chains}");
}

#[test]
fn canonical_numbers_follow_the_least_paths() {
    // Going down lowest feature first meets the paths in the order of a
    // dictionary, so a node's first visit is by its least path.
    for_pairs(4, 300, |_, graph, _| {
        if !few_paths(graph) {
            return;
        }
        let written = canonical(graph);
        let mut first_visits = Vec::new();
        for (_, node) in paths::paths(&written) {
            if !first_visits.contains(&node) {
                first_visits.push(node);
            }
        }
        assert_eq!(first_visits, Vec::from_iter(0..graph.nodes.len()));
        assert_eq!(PathGraph::of(&written), PathGraph::of(graph));
        assert_eq!(PathGraph::of(graph).graph(), written);
    });
}

#[test]
fn rewriting_is_idempotent_and_forgets_the_numbering() {
    let mut random = Xorshift::stored(5);
    let rewrite = |n: usize, table: &[u8], record: &[u8]| {
        let mut output = vec![0; record::LONGEST_RECORD];
        match calls::rewrite(n, table, record, &mut output) {
            Reply::Length(length) => output[..length].to_vec(),
            reply => panic!("{reply:?}"),
        }
    };
    for _ in 0..300 {
        let table = random::valid_table(&mut random);
        let shape = Shape::any(&mut random).ranged(&mut random, Ranges::Present);
        let graph = random::graph(&mut random, table.n, &shape);
        let record = record::write(&graph);
        let once = rewrite(table.n, &table.bytes, &record);
        assert_eq!(once.len(), record.len());
        assert_eq!(rewrite(table.n, &table.bytes, &once), once);
        let renumbered = record::write(&random::renumbered(&mut random, &graph));
        assert_eq!(rewrite(table.n, &table.bytes, &renumbered), once);
        let order = calls::order(table.n, &table.bytes, &record, &once);
        assert_eq!(order, Reply::Order(Order::Same));
    }
}

/// A record that spells out full ranges means what the one without them means, to
/// every call, and no result spells one out.
#[test]
fn full_ranges_may_be_spelled_out_and_are_never_written() {
    let mut random = Xorshift::stored(20);
    let mut spelled_out = 0;
    for_pairs(21, 200, |table, first, second| {
        let [plain_first, plain_second] = [first, second].map(record::write);
        let [long_first, long_second] =
            [first, second].map(|graph| record::write_spelling(graph, |_| random.chance(1, 2)));
        spelled_out += usize::from(long_first.len() > plain_first.len());
        let read = |record: &[u8]| record::read(table, record);
        assert_eq!(read(&long_first), read(&plain_first));
        let (n, bytes) = (table.n(), table_bytes(table));
        assert_eq!(
            calls::order(n, &bytes, &long_first, &plain_first),
            Reply::Order(Order::Same)
        );
        for call in [calls::generalize, calls::unify, calls::difference] {
            let result = written(call, n, &bytes, &plain_first, &plain_second);
            let same = written(call, n, &bytes, &long_first, &long_second);
            assert_eq!(result, same);
            if let Ok(record) = result {
                let graph = read(&record).expect("what is written is accepted");
                assert_eq!(record::write(&graph), record);
            }
        }
    });
    assert!(spelled_out > 1000, "{spelled_out}");
}

/// The bytes of a table.
fn table_bytes(table: &Table) -> Vec<u8> {
    TableBytes::of_relation(table.n(), |j, i| table.below(j as Type, i as Type)).bytes
}

/// Graphs without ranges have results without ranges: no type byte has bit 7.
#[test]
fn without_ranges_nothing_gets_one() {
    let mut results = 0;
    for_pairs(22, 300, |table, first, second| {
        let full = |graph: &Graph| {
            let is_full = |node: &Node| node.label.range == Range::FULL;
            graph.nodes.iter().all(is_full)
        };
        if !full(first) || !full(second) {
            return;
        }
        assert!(full(&generalize(table, first, second)));
        let combined = unify(table, first, second);
        let rest = difference(table, first, second);
        for result in [combined, rest].into_iter().flatten() {
            assert!(full(&result));
            results += 1;
        }
    });
    assert!(results > 1000, "{results}");
}

#[test]
fn common_part_agrees_with_the_sentence_over_paths() {
    for_pairs(6, 500, |table, first, second| {
        if !few_paths(first) || !few_paths(second) {
            return;
        }
        let (p, q) = (PathGraph::of(first), PathGraph::of(second));
        let by_paths = paths::generalize(table, &p, &q);
        let common = generalize(table, first, second);
        assert_eq!(PathGraph::of(&common), by_paths);
        assert_eq!(canonical(&common), by_paths.graph());
    });
}

#[test]
fn common_part_is_above_both_and_below_what_is_above_both() {
    for_pairs(7, 500, |table, first, second| {
        let common = generalize(table, first, second);
        assert!(below(table, first, &common));
        assert!(below(table, second, &common));
        let swapped = generalize(table, second, first);
        assert_eq!(canonical(&common), canonical(&swapped));
        // Steps that weaken the first give graphs above it; those above the
        // second too must be above the common part.
        for weaker in weakenings(table, first) {
            if below(table, second, &weaker) {
                assert!(below(table, &common, &weaker));
            }
        }
        let with_itself = generalize(table, first, first);
        assert_eq!(canonical(&with_itself), canonical(first));
    });
}

#[test]
fn combination_agrees_with_the_sentence_over_paths() {
    let (mut results, mut loops, mut clashes) = (0, 0, 0);
    for_pairs(8, 700, |table, first, second| {
        if !few_paths(first) || !few_paths(second) {
            return;
        }
        let (p, q) = (PathGraph::of(first), PathGraph::of(second));
        let by_paths = paths::unify(table, &p, &q);
        match unify(table, first, second) {
            Ok(combined) => {
                assert_eq!(Ok(canonical(&combined)), by_paths.map(|p| p.graph()));
                results += 1;
            }
            Err(refusal) => {
                assert_eq!(Some(refusal), by_paths.err());
                match refusal {
                    Refusal::Cycle => loops += 1,
                    _ => clashes += 1,
                }
            }
        }
    });
    let counts = (results, loops, clashes);
    assert!(results > 500 && loops > 50 && clashes > 50, "{counts:?}");
}

#[test]
fn combination_is_below_both_and_above_what_is_below_both() {
    let mut random = Xorshift::stored(9);
    for_pairs(10, 500, |table, first, second| {
        let result = unify(table, first, second).map(|graph| canonical(&graph));
        let swapped = unify(table, second, first).map(|graph| canonical(&graph));
        assert_eq!(result, swapped);
        if let Ok(combined) = result {
            assert!(below(table, &combined, first));
            assert!(below(table, &combined, second));
        }
        // Two graphs above a third have a combination, and it is above the third.
        let upper = random::graph_above(&mut random, table, first);
        let other = random::graph_above(&mut random, table, first);
        let combined = unify(table, &upper, &other);
        assert!(combined.is_ok_and(|combined| below(table, first, &combined)));
    });
}

#[test]
fn common_part_and_combination_absorb_each_other() {
    for_pairs(11, 500, |table, first, second| {
        let common = generalize(table, first, second);
        let back = unify(table, first, &common);
        assert_eq!(back.map(|g| canonical(&g)), Ok(canonical(first)));
        if let Ok(combined) = unify(table, first, second) {
            let back = generalize(table, first, &combined);
            assert_eq!(canonical(&back), canonical(first));
        }
        // The order is the one both operations make.
        let is_below = below(table, first, second);
        assert_eq!(is_below, canonical(&common) == canonical(second));
        let combined = unify(table, first, second).map(|g| canonical(&g));
        assert_eq!(is_below, combined == Ok(canonical(first)));
    });
}

/// All graphs one step above a graph: a link dropped, a type raised, a range widened
/// by a level, or a shared node parted in two copies between which its incoming links
/// are shared out.
///
/// Every graph c strictly above d is above one of these, so if none of them
/// restores s from g, no graph strictly more general than d does: were c to
/// restore s, so would all graphs between d and c. Why c is above one of them:
/// take the morphism from c into d. If no link of c lies over some link of d, that
/// link can be dropped. If the meet of the types over some node is not the type
/// of that node, its type can be raised to the meet. If the overlap of the ranges over
/// some node is not its range, it is wider, by a level or more. Else, as c is not d, two
/// nodes of c lie over one node of d; take such a node above which there is no
/// other. Over each of its incoming links lies exactly one link of c, so the
/// links can be shared out by the nodes of c they lead to.
fn weakenings(table: &Table, graph: &Graph) -> Vec<Graph> {
    let mut weaker = Vec::new();
    let incoming = graph.incoming();
    for (number, node) in graph.nodes.iter().enumerate() {
        for feature in node.links.keys() {
            let mut without = graph.clone();
            without.nodes[number].links.remove(feature);
            weaker.push(canonical(&without));
        }
        let Label { node_type, range } = node.label;
        for raised in table.types() {
            if raised != node_type && table.below(node_type, raised) {
                let mut typed = graph.clone();
                typed.nodes[number].label.node_type = raised;
                weaker.push(typed);
            }
        }
        if let Some(lowest) = range.lowest.checked_sub(1) {
            let mut widened = graph.clone();
            widened.nodes[number].label.range.lowest = lowest;
            weaker.push(widened);
        }
        if let Some(highest) = range.highest.checked_add(1) {
            let mut widened = graph.clone();
            widened.nodes[number].label.range.highest = highest;
            weaker.push(widened);
        }
        // Each way to move some of the incoming links, but not the first, to a copy.
        let links = &incoming[number];
        for moved in 1..1_usize << links.len().saturating_sub(1) {
            let mut parted = graph.clone();
            for (place, link) in links.iter().skip(1).enumerate() {
                if moved >> place & 1 == 1 {
                    let copy = graph.nodes.len();
                    parted.nodes[link.parent].links.insert(link.feature, copy);
                }
            }
            parted.nodes.push(node.clone());
            weaker.push(parted);
        }
    }
    weaker
}

#[test]
fn steps_that_weaken_lead_strictly_up() {
    for_pairs(12, 100, |table, graph, _| {
        for weaker in weakenings(table, graph) {
            assert!(strictly_more_general(table, &weaker, graph));
        }
    });
}

/// The difference of s from g restores s, and nothing more general does, without a list
/// and with a random one.
#[test]
fn difference_restores_and_nothing_more_general_does() {
    let mut random = Xorshift::stored(54);
    let mut differences = 0;
    for_pairs_over(13, 4000, random::brouwer_table, |table, g, s| {
        let list = random::reading_order(&mut random);
        let order = match random.chance(1, 2) {
            true => LinkOrder::ByParent,
            false => LinkOrder::by_list(&list).expect("all features, each once"),
        };
        let result = difference_by(&order, table, g, s).map(|explained| explained.graph);
        if !below(table, s, g) {
            assert_eq!(result, Err(Refusal::NotBelow));
            return;
        }
        let result = result.expect("s is below g");
        let restored = |d: &Graph| unify(table, d, g).map(|graph| canonical(&graph));
        assert_eq!(restored(&result), Ok(canonical(s)));
        assert!(below(table, s, &result));
        for weaker in weakenings(table, &result) {
            assert_ne!(restored(&weaker), Ok(canonical(s)), "{g:?} {s:?}");
        }
        differences += 1;
    });
    assert!(differences > 16_000, "{differences}");
}

#[test]
fn difference_and_combination_give_back_the_bytes() {
    let mut random = Xorshift::stored(14);
    for _ in 0..400 {
        let table = random::brouwer_table(&mut random);
        let accepted = table.accepted();
        let shape = Shape::any(&mut random).ranged(&mut random, Ranges::Present);
        let s = random::graph(&mut random, table.n, &shape);
        let g = random::graph_above(&mut random, &accepted, &s);
        let (s_record, g_record) = (record::write(&s), record::write(&g));
        let make = |call: Call, first: &[u8], second: &[u8]| {
            written(call, table.n, &table.bytes, first, second).expect("a record")
        };
        let difference = make(calls::difference, &g_record, &s_record);
        let restored = make(calls::unify, &difference, &g_record);
        assert_eq!(restored, record::write(&canonical(&s)));
    }
}

#[test]
fn difference_from_itself_is_a_lone_top() {
    for_pairs_over(15, 200, random::valid_table, |table, graph, _| {
        let lone_top = Graph::lone(table.top());
        assert_eq!(difference(table, graph, graph), Ok(lone_top.clone()));
        // The difference from the graph that says nothing is the graph.
        assert_eq!(difference(table, &lone_top, graph), Ok(canonical(graph)));
    });
}

/// Over tables that admit no differences: 13 exactly where some node of s has no
/// wanted type, and else a difference that restores.
#[test]
fn difference_is_refused_where_a_node_has_no_wanted_type() {
    let mut random = Xorshift::stored(16);
    let (mut refused, mut restored) = (0, 0);
    while refused + restored < 600 {
        let table = random::rival_table(&mut random).accepted();
        let shape = Shape::small(&mut random, 6, 3).ranged(&mut random, Ranges::Present);
        let s = canonical(&random::low_graph(&mut random, table.n(), &shape));
        let g = random::graph_well_above(&mut random, &table, &s);
        let image = subsumption(&table, &g, &s).expect("s below g").image;
        let has_wanted = |node: usize| {
            let over = (0..g.nodes.len()).filter(|&y| image[y] == node);
            let q = Label::meet_of(&table, over.map(|y| g.nodes[y].label)).node_type;
            let p = s.nodes[node].label.node_type;
            greatest(&table, |c| table.meet(c, q) == p).is_some()
        };
        match difference(&table, &g, &s) {
            Ok(rest) => {
                assert!((0..s.nodes.len()).all(has_wanted));
                let restored_graph = unify(&table, &rest, &g);
                assert_eq!(restored_graph.map(|graph| canonical(&graph)), Ok(s));
                restored += 1;
            }
            Err(refusal) => {
                assert_eq!(refusal, Refusal::NoWantedType);
                assert!(!(0..s.nodes.len()).all(has_wanted));
                refused += 1;
            }
        }
    }
    assert!(refused > 100 && restored > 100, "{refused} {restored}");
}

/// A table of 64 types that admits no differences, not numbered along its order.
#[test]
fn rival_tables_of_64_types() {
    let mut random = Xorshift::stored(18);
    for _ in 0..20 {
        let table = random::large_rival_table(&mut random).accepted();
        assert_eq!(table.n(), 64);
        assert!(!table.admits_differences());
        let unordered = |a: Type, b: Type| table.below(b, a) && a < b;
        assert!(
            table
                .types()
                .any(|a| table.types().any(|b| unordered(a, b)))
        );
    }
}

/// The greatest of the types that pass a test, found from the order alone.
fn greatest(table: &Table, test: impl Fn(Type) -> bool) -> Option<Type> {
    let passing: Vec<Type> = table.types().filter(|&c| test(c)).collect();
    let is_greatest = |c: &Type| passing.iter().all(|&d| table.below(d, *c));
    passing.iter().copied().find(is_greatest)
}

#[test]
fn tables_have_the_meets_joins_and_residuals_of_their_order() {
    let mut random = Xorshift::stored(17);
    for _ in 0..150 {
        let table = random::valid_table(&mut random).accepted();
        if table.n() > 16 {
            continue;
        }
        let mut distributive = true;
        for a in table.types() {
            for b in table.types() {
                let meet = greatest(&table, |c| table.below(c, a) && table.below(c, b));
                assert_eq!(Some(table.meet(a, b)), meet);
                let join = table.join(a, b);
                assert!(table.below(a, join) && table.below(b, join));
                for c in table.types() {
                    let above_both = table.below(a, c) && table.below(b, c);
                    assert_eq!(above_both, table.below(join, c));
                    let left = table.meet(c, join);
                    let right = table.join(table.meet(c, a), table.meet(c, b));
                    distributive &= left == right;
                }
                let residual = greatest(&table, |c| table.below(table.meet(c, b), a));
                assert_eq!(table.residual(a, b), residual);
                if table.below(a, b) && residual.is_some() {
                    assert_eq!(table.wanted(b, a), residual);
                }
            }
        }
        // A finite lattice is Brouwer's exactly when it is distributive.
        assert_eq!(table.admits_differences(), distributive);
    }
}

#[test]
fn wanted_types_over_the_diamond() {
    let table = random::diamond().accepted();
    let (a, b, top) = (1, 2, 3);
    assert_eq!(table.wanted(a, a), Some(top));
    assert_eq!(table.wanted(top, a), Some(a));
    assert_eq!(table.wanted(top, top), Some(top));
    assert_eq!(table.wanted(a, 0), Some(b));
    assert_eq!(table.wanted(a, b), None);
    assert_eq!(table.residual(b, a), Some(b));
}

/// Every range that has a level.
fn ranges() -> impl Iterator<Item = Range> {
    (0..=Level::MAX)
        .flat_map(|lowest| (lowest..=Level::MAX).map(move |highest| Range { lowest, highest }))
}

#[test]
fn ranges_have_the_overlaps_hulls_and_wanted_ranges_of_their_levels() {
    let mut random = Xorshift::stored(23);
    let (mut overlapping, mut apart) = (0, 0);
    for _ in 0..200 {
        let [a, b] = [0, 1].map(|_| random::range(&mut random));
        let holds = |range: Range, level: Level| range.lowest <= level && level <= range.highest;
        let overlap = a.overlap(b);
        for level in 0..=Level::MAX {
            let in_both = holds(a, level) && holds(b, level);
            assert_eq!(in_both, holds(overlap, level));
        }
        let hull = a.hull(b);
        for range in ranges() {
            let holds_both = a.is_inside(range) && b.is_inside(range);
            assert_eq!(holds_both, hull.is_inside(range));
        }
        if overlap.is_empty() {
            apart += 1;
            continue;
        }
        // The widest range whose overlap with `a` is that of both, by trying all.
        let wanted = Range::wanted(a, overlap);
        assert_eq!(wanted.overlap(a), overlap);
        for range in ranges().filter(|range| range.overlap(a) == overlap) {
            assert!(range.is_inside(wanted));
        }
        overlapping += 1;
    }
    assert!(overlapping > 50 && apart > 20, "{overlapping} {apart}");
}

#[test]
fn wanted_ranges_by_hand() {
    let range = |lowest: Level, highest: Level| Range { lowest, highest };
    for (over, p, wanted) in [
        (range(0, 255), range(0, 255), range(0, 255)),
        (range(0, 255), range(10, 200), range(10, 200)),
        (range(10, 200), range(10, 200), range(0, 255)),
        (range(10, 200), range(10, 100), range(0, 100)),
        (range(10, 200), range(50, 200), range(50, 255)),
        (range(10, 200), range(50, 100), range(50, 100)),
        (range(5, 10), range(5, 5), range(0, 5)),
    ] {
        assert_eq!(Range::wanted(over, p), wanted, "{over:?} {p:?}");
    }
}

#[test]
fn the_output_beyond_the_record_and_under_a_refusal_is_unchanged() {
    let mut random = Xorshift::stored(18);
    let mut numbers = BTreeSet::new();
    for round in 0..3000 {
        let table = match random.chance(1, 6) {
            true => random::damaged_table(&mut random),
            false => random::valid_table(&mut random),
        };
        let types = table.n.clamp(2, 64);
        let ranges = [Ranges::Absent, Ranges::Present][round / 4 % 2];
        let record = |random: &mut Xorshift| match random.chance(1, 5) {
            true => random::damaged_record(random, types, ranges),
            false => {
                let shape = Shape::small(random, 5, 2).ranged(random, ranges);
                let graph = random::graph(random, types, &shape);
                random::record_of(random, &graph, ranges)
            }
        };
        let (first, second) = (record(&mut random), record(&mut random));
        let calls: [Call; 3] = [calls::generalize, calls::unify, calls::difference];
        let length = *random.choose(&[0, 9, 10, 30, 100, record::LONGEST_RECORD]);
        let before: Vec<u8> = (0..length).map(|_| random.byte()).collect();
        let mut after = before.clone();
        let reply = match round % 4 {
            3 => calls::rewrite(table.n, &table.bytes, &first, &mut after),
            k => calls[k](table.n, &table.bytes, &first, &second, &mut after),
        };
        match reply {
            Reply::Length(written) => {
                assert_eq!(after[written..], before[written..]);
                let graph = record::read(&table.accepted(), &after[..written]);
                let graph = graph.expect("what is written is accepted");
                assert_eq!(canonical(&graph), graph);
                assert_eq!(record::write(&graph), after[..written]);
            }
            _ => assert_eq!(after, before),
        }
        numbers.insert(reply.number());
    }
    // Nothing is large here, and two unrelated graphs are seldom one below the other.
    for number in (1..=12).filter(|&number| number != 11) {
        assert!(numbers.contains(&Some(number)), "{number}");
    }
    assert!(numbers.contains(&None));
}

#[test]
fn graphs_of_any_size_go_by_the_same_rules() {
    // Larger than a record: two chains of 300 nodes on different features.
    let table = random::diamond().accepted();
    let (first, second) = (
        random::chain_graph(300, 0, 3),
        random::chain_graph(300, 1, 3),
    );
    let combined = unify(&table, &first, &second).expect("nothing clashes");
    assert_eq!(combined.nodes.len(), 599);
    assert!(below(&table, &combined, &first) && below(&table, &combined, &second));
    assert!(!below(&table, &first, &combined));
    // A common part of more than 255 nodes is above both.
    let shape = Shape {
        nodes: 60,
        extra_links: 400,
        features: vec![0, 1, 2, 3],
        spread: 4,
        tops: 2,
        ranges: 2,
    };
    let mut random = Xorshift::stored(19);
    let mut largest = 0;
    for _ in 0..20 {
        let one = random::graph(&mut random, 4, &shape);
        let other = random::graph(&mut random, 4, &shape);
        let common = generalize(&table, &one, &other);
        assert!(below(&table, &one, &common) && below(&table, &other, &common));
        largest = largest.max(common.nodes.len());
    }
    assert!(largest > 255, "{largest}");
}

#[test]
fn notation_reads_what_it_says() {
    let read = reference::notation::graph(3, "top[0: X a{5..9}[2: b], 1: X, 63: Y 3{0..255}]");
    let range = Range {
        lowest: 5,
        highest: 9,
    };
    let nodes = vec![
        Node::new(3, [(0, 1), (1, 1), (63, 3)]),
        Node::new(
            Label {
                node_type: 1,
                range,
            },
            [(2, 2)],
        ),
        Node::new(2, []),
        Node::new(3, []),
    ];
    assert_eq!(read, Graph { nodes });
    assert_eq!(read.reached().len(), 4);
    assert_eq!(
        read.bottom_up().map(|order| order.last() == Some(&ROOT)),
        Some(true)
    );
}
