//! The calls with a list of types for features (Paper 9). These tests check the two new refusals
//! and their places among the other checks. On random graphs they check that a result obeys the
//! lists that its graphs obey, that nothing else differs from the plain calls, and whether a
//! difference obeys a list.

use reference::appropriateness::Appropriateness;
use reference::calls::{self, Call, CallWithList, written, written_by};
use reference::canonical::canonical;
use reference::difference::difference;
use reference::generalize::generalize;
use reference::graph::{FEATURES, Graph, Node};
use reference::notation::graph;
use reference::paths::{self, PathGraph};
use reference::random::{self, InputWithList, Ranges, Shape, TableBytes, Xorshift};
use reference::record::{self, GraphFault};
use reference::reply::{Refusal, Reply, Side};
use reference::table::Table;
use reference::unify::unify;
use std::collections::BTreeMap;

/// The calls on two graphs, each beside the plain one.
const PAIRS: [(CallWithList, Call); 2] = [
    (calls::generalize_appropriate, calls::generalize),
    (calls::unify_appropriate, calls::unify),
];

/// 18 of one of the graphs.
const fn inappropriate(side: Side) -> Refusal {
    Refusal::Graph(GraphFault::Inappropriate, side)
}

/// The list that has these entries, each behind its feature, and else the one given.
fn list(others: u8, entries: &[(usize, u8)]) -> Vec<u8> {
    let mut list = vec![others; FEATURES];
    for &(feature, entry) in entries {
        list[feature] = entry;
    }
    list
}

/// The record of a graph over the diamond.
fn over_diamond(text: &str) -> Vec<u8> {
    record::write(&graph(3, text))
}

/// What rewriting with a list gives.
fn rewritten(table: &TableBytes, list: &[u8], record: &[u8]) -> Result<Vec<u8>, Refusal> {
    written_by(|output| calls::rewrite_appropriate(table.n, &table.bytes, list, record, output))
}

/// What a call on two graphs with a list gives.
fn given(
    call: CallWithList,
    table: &TableBytes,
    list: &[u8],
    first: &[u8],
    second: &[u8],
) -> Result<Vec<u8>, Refusal> {
    written_by(|output| call(table.n, &table.bytes, list, first, second, output))
}

/// Every call with a list refuses these records in this way and changes no byte of the output. A
/// lone record counts as the first.
fn assert_refused(table: &TableBytes, list: &[u8], records: [&[u8]; 2], refusal: Refusal) {
    let [first, second] = records;
    let refused = Reply::Refused(refusal);
    for room in [0, 32] {
        let mut output = vec![0xEE; room];
        for (call, _) in PAIRS {
            let reply = call(table.n, &table.bytes, list, first, second, &mut output);
            assert_eq!(reply, refused, "{list:?} {first:?} {second:?}");
        }
        if !matches!(refusal, Refusal::Graph(_, Side::Second)) {
            let reply = calls::rewrite_appropriate(table.n, &table.bytes, list, first, &mut output);
            assert_eq!(reply, refused, "{list:?} {first:?}");
        }
        assert!(output.iter().all(|&byte| byte == 0xEE));
    }
}

#[test]
fn a_node_may_have_a_feature_when_its_type_is_below_or_equal() {
    for table in [
        random::chain(2),
        random::diamond(),
        random::pentagon(),
        random::three_over_one(),
        random::boolean(4),
    ] {
        let accepted = table.accepted();
        let top = accepted.top();
        for feature in [0, 1, 7, 8, 31, 62, 63] {
            for node_type in 1..=top {
                let nodes = vec![Node::new(node_type, [(feature, 1)]), Node::new(top, [])];
                let record = record::write(&Graph { nodes });
                for entry in 0..=top {
                    // Every other feature is forbidden.
                    let list = list(0, &[(usize::from(feature), entry)]);
                    let expected = match accepted.below(node_type, entry) {
                        true => Ok(record.clone()),
                        false => Err(inappropriate(Side::First)),
                    };
                    let result = rewritten(&table, &list, &record);
                    assert_eq!(result, expected, "{node_type} by {feature}, {entry}");
                }
            }
        }
    }
}

#[test]
fn by_hand_over_the_diamond() {
    // Feature 0 for a and what is below, 1 for every type, 2 for none, 3 for b.
    let list = list(3, &[(0, 1), (2, 0), (3, 2)]);
    let table = random::diamond();
    for (text, obeys) in [
        ("top", true),
        ("a[0: top]", true),
        ("b[0: top]", false),
        ("top[0: a]", false),
        ("top[1: a[0: b[3: top]]]", true),
        ("top[1: a[0: b[3: top[0: a]]]]", false),
        ("a[0: a[0: a[0: b]]]", true),
        ("a[2: a]", false),
        ("a[1: a, 2: a]", false),
        // What a link leads to does not matter, nor does sharing.
        ("a[0: X b[3: b], 1: X, 63: X]", true),
        ("a[0: X b[3: b, 0: b], 1: X]", false),
        // Nor do ranges.
        ("a{7..9}[0: top{0..0}]", true),
        ("b{7..9}[0: a{7..9}]", false),
    ] {
        let record = over_diamond(text);
        let expected = match obeys {
            true => Ok(record.clone()),
            false => Err(inappropriate(Side::First)),
        };
        assert_eq!(rewritten(&table, &list, &record), expected, "{text}");
    }
}

#[test]
fn a_list_that_forbids_all_is_obeyed_by_lone_nodes() {
    let table = random::diamond();
    let none = list(0, &[]);
    let [a, b, top] = ["a", "b", "top"].map(over_diamond);
    assert_eq!(rewritten(&table, &none, &a), Ok(a.clone()));
    let common = given(calls::generalize_appropriate, &table, &none, &a, &b);
    assert_eq!(common, Ok(top.clone()));
    let combined = given(calls::unify_appropriate, &table, &none, &a, &top);
    assert_eq!(combined, Ok(a.clone()));
    let clash = given(calls::unify_appropriate, &table, &none, &a, &b);
    assert_eq!(clash, Err(Refusal::Clash));
    for feature in 0..FEATURES {
        let nodes = vec![Node::new(1, [(feature as u8, 1)]), Node::new(1, [])];
        let linked = record::write(&Graph { nodes });
        let first = inappropriate(Side::First);
        assert_refused(&table, &none, [&linked, &top], first);
        assert_refused(&table, &none, [&linked, &linked], first);
        assert_refused(&table, &none, [&top, &linked], inappropriate(Side::Second));
    }
}

/// Records of every kind of fault, each also with a link that a list of zeros forbids.
fn faulty_records() -> [(GraphFault, Vec<u8>); 4] {
    let linked = |links: &[&[(u8, usize)]]| {
        let node = |links: &&[(u8, usize)]| Node::new(3, links.iter().copied());
        record::write(&Graph {
            nodes: links.iter().map(node).collect(),
        })
    };
    let mut longer = linked(&[&[(0, 1)], &[]]);
    longer.push(0);
    [
        (GraphFault::Malformed, longer),
        (GraphFault::OutOfRange, linked(&[&[(0, 1), (1, 2)], &[]])),
        (GraphFault::Cyclic, linked(&[&[(0, 1)], &[(0, 1)]])),
        (GraphFault::Unreached, linked(&[&[(0, 1)], &[], &[]])),
    ]
}

#[test]
fn refusal_17_a_list_not_of_64_bytes() {
    for table in [random::chain(2), random::diamond(), random::chain(64)] {
        let top = (table.n - 1) as u8;
        let lone = record::write(&Graph::lone(top));
        for entry in [0, top] {
            for length in [0, 1, 8, 62, 63, 65, 66, 128, 320] {
                let list = vec![entry; length];
                assert_refused(&table, &list, [&lone, &lone], Refusal::TypeList);
            }
            let list = vec![entry; 64];
            assert_eq!(rewritten(&table, &list, &lone), Ok(lone.clone()));
        }
    }
}

#[test]
fn refusal_17_an_entry_of_n_or_more() {
    for table in [random::chain(2), random::diamond(), random::chain(64)] {
        let top = (table.n - 1) as u8;
        let lone = record::write(&Graph::lone(top));
        for feature in 0..FEATURES {
            for entry in [table.n as u8, table.n as u8 + 1, 64, 127, 128, 255] {
                let list = list(top, &[(feature, entry)]);
                assert_refused(&table, &list, [&lone, &lone], Refusal::TypeList);
            }
            let list = list(0, &[(feature, top)]);
            assert_eq!(rewritten(&table, &list, &lone), Ok(lone.clone()));
        }
    }
}

#[test]
fn the_list_is_judged_after_the_table_and_before_the_graphs() {
    let good = over_diamond("a[0: b]");
    let mut size = random::diamond();
    size.bytes.pop();
    let mut order = random::diamond();
    order.bytes[0] = 0;
    let lattice = TableBytes::of_relation(6, |j, i| {
        [0x01, 0x03, 0x05, 0x0F, 0x17, 0x3F][i] >> j & 1 == 1
    });
    let lists = [vec![0; 63], vec![3; 65], list(3, &[(5, 255)])];
    for table in [size, order, lattice] {
        let fault = Table::accept(table.n, &table.bytes).expect_err("a refused table");
        for list in &lists {
            assert_refused(&table, list, [&good, &good], Refusal::Table(fault));
        }
    }
    let table = random::diamond();
    for list in &lists {
        for (_, faulty) in faulty_records() {
            assert_refused(&table, list, [&faulty, &good], Refusal::TypeList);
            assert_refused(&table, list, [&good, &faulty], Refusal::TypeList);
        }
    }
}

#[test]
fn refusal_18_tells_which_graph() {
    let table = random::diamond();
    let list = list(3, &[(0, 1)]);
    let [good, bad] = ["a[0: b[1: a[0: top]]]", "a[0: b[1: b[0: top]]]"].map(over_diamond);
    assert_refused(&table, &list, [&bad, &good], inappropriate(Side::First));
    assert_refused(&table, &list, [&good, &bad], inappropriate(Side::Second));
    assert_refused(&table, &list, [&bad, &bad], inappropriate(Side::First));
    assert_eq!(inappropriate(Side::First).number(), 18);
    assert_eq!(Refusal::TypeList.number(), 17);
}

#[test]
fn refusal_18_comes_straight_after_7() {
    let table = random::diamond();
    let none = list(0, &[]);
    let [lone, bad] = ["a", "a[0: b]"].map(over_diamond);
    for (fault, faulty) in faulty_records() {
        // The first graph's 4 to 7 before its 18.
        let first = Refusal::Graph(fault, Side::First);
        assert_refused(&table, &none, [&faulty, &lone], first);
        assert_refused(&table, &none, [&faulty, &bad], first);
        // The first graph's 18 before the second's 4 to 7.
        let first = inappropriate(Side::First);
        assert_refused(&table, &none, [&bad, &faulty], first);
        // The second graph's 4 to 7 before its 18.
        let second = Refusal::Graph(fault, Side::Second);
        assert_refused(&table, &none, [&lone, &faulty], second);
    }
    assert_refused(&table, &none, [&bad, &[]], inappropriate(Side::First));
}

#[test]
fn refusal_18_comes_before_what_the_result_is_refused_by() {
    let table = random::diamond();
    // By feature 5 hangs what the list forbids below b.
    let list = list(3, &[(5, 1)]);
    let long = |feature: u8| random::chain_graph(200, feature, 3);
    let mut forbidden = long(1);
    forbidden.nodes[0].links.insert(5, 1);
    for (number, first, second) in [
        (
            9,
            graph(3, "top[0: X top, 1: X]"),
            graph(3, "top[0: Z top, 1: b[0: Z, 5: a]]"),
        ),
        (10, graph(3, "a"), graph(3, "b[5: a]")),
        (11, long(0), forbidden),
    ] {
        let (first, second) = (record::write(&first), record::write(&second));
        let plain = written(calls::unify, table.n, &table.bytes, &first, &second);
        assert_eq!(plain.map_err(Refusal::number), Err(number));
        let second_refused = inappropriate(Side::Second);
        assert_refused(&table, &list, [&first, &second], second_refused);
        let first_refused = inappropriate(Side::First);
        assert_refused(&table, &list, [&second, &first], first_refused);
    }
}

#[test]
fn one_forbidden_link_among_255_nodes_is_found() {
    let table = random::diamond();
    let features = [0, 9, 18, 27, 36, 45, 54, 63];
    let ladder = random::ladder(255, &features, 1);
    let lone = over_diamond("top");
    let mut random = Xorshift::stored(41);
    for node in [0, 1, 127, 252, 253] {
        for &feature in &features {
            // All are of type a, and one of type top has one link that is for a alone.
            let mut one_above = ladder.clone();
            one_above.nodes[node].label.node_type = 3;
            let lower = list(3, &[(usize::from(feature), 1)]);
            let record = record::write(&random::renumbered(&mut random, &one_above));
            let first = inappropriate(Side::First);
            assert_refused(&table, &lower, [&record, &lone], first);
            one_above.nodes[node].links.remove(&feature);
            let record = record::write(&one_above);
            assert_eq!(rewritten(&table, &lower, &record), Ok(record.clone()));
        }
    }
}

/// Calls the property with many random pairs of small graphs, half of them with ranges,
/// over all kinds of accepted tables.
fn for_pairs(
    random: &mut Xorshift,
    count: usize,
    mut property: impl FnMut(&mut Xorshift, &TableBytes, &Graph, &Graph),
) {
    for round in 0..count {
        let table = random::valid_table(random);
        let ranges = [Ranges::Absent, Ranges::Present][round % 2];
        for _ in 0..10 {
            let shape = Shape::small(random, 6, 3).ranged(random, ranges);
            let (first, second) = random::pair(random, &table.accepted(), &shape);
            property(random, &table, &first, &second);
        }
    }
}

/// The accepted list.
fn accepted(table: &Table, list: &[u8]) -> Appropriateness {
    Appropriateness::accept(table, list).expect("a list that is accepted")
}

#[test]
fn obeying_agrees_with_the_sentence_over_paths() {
    let mut counts = [0, 0];
    for_pairs(&mut Xorshift::stored(42), 400, |random, table, graph, _| {
        if paths::paths(graph).len() > 60 {
            return;
        }
        let table = &table.accepted();
        let obeyed = random::obeyed_list(random, table, &[graph]);
        let broken = random::broken_list(random, table, &[], graph);
        for list in [Some(obeyed), broken].into_iter().flatten() {
            let obeys = accepted(table, &list).is_obeyed(table, graph);
            let by_paths = paths::obeys(table, &list, &PathGraph::of(graph));
            assert_eq!(obeys, by_paths, "{list:?} {graph:?}");
            counts[usize::from(obeys)] += 1;
        }
    });
    assert!(counts.iter().all(|&count| count > 1000), "{counts:?}");
}

/// Graphs of any size: common parts and combinations obey what both graphs obey, for
/// every list, and what is written with a list is rewritten with it as it is.
#[test]
fn results_of_graphs_that_obey_a_list_obey_it() {
    let (mut combined, mut tight) = (0, 0);
    for_pairs(&mut Xorshift::stored(43), 600, |random, table, p, q| {
        let types = &table.accepted();
        let list = random::obeyed_list(random, types, &[p, q]);
        let obeyed = |graph: &Graph| accepted(types, &list).is_obeyed(types, graph);
        assert!(obeyed(p) && obeyed(q));
        let common = generalize(types, p, q);
        assert!(obeyed(&common), "{list:?} {p:?} {q:?}");
        // With an entry at the type of a node that has the feature.
        let is_tight = |node: &Node| {
            let at = |&feature: &u8| list[usize::from(feature)] == node.label.node_type;
            node.links.keys().any(at)
        };
        tight += usize::from(common.nodes.iter().any(is_tight));
        if let Ok(result) = unify(types, p, q) {
            assert!(obeyed(&result), "{list:?} {p:?} {q:?}");
            combined += usize::from(result.link_count() > 0);
        }
        let (first, second) = (record::write(p), record::write(q));
        for (call, _) in PAIRS {
            if let Ok(record) = given(call, table, &list, &first, &second) {
                assert_eq!(rewritten(table, &list, &record), Ok(record.clone()));
            }
        }
    });
    assert!(combined > 1000 && tight > 1000, "{combined} {tight}");
}

/// Where a result obeys a list, its graphs need not: a list that a combination or a
/// common part obeys is no reason not to look at the graphs.
#[test]
fn results_may_obey_what_their_graphs_break() {
    let table = random::diamond();
    let list = list(3, &[(0, 1)]);
    // The combination has type a where the first graph has top.
    let [first, second, combined] = ["top[0: b]", "a", "a[0: b]"].map(over_diamond);
    let plain = written(calls::unify, table.n, &table.bytes, &first, &second);
    assert_eq!(plain, Ok(combined.clone()));
    assert_eq!(rewritten(&table, &list, &combined), Ok(combined));
    assert_refused(&table, &list, [&first, &second], inappropriate(Side::First));
    // The common part leaves the link out.
    let plain = written(calls::generalize, table.n, &table.bytes, &first, &second);
    assert_eq!(plain, Ok(over_diamond("top")));
}

/// On any input: 17 and 18 are given exactly where the table and the list, or the graphs
/// before it, leave room for them; else reply and output are the plain call's.
#[test]
fn nothing_else_differs_from_the_plain_calls() {
    let mut random = Xorshift::stored(44);
    let mut counts: BTreeMap<String, usize> = BTreeMap::new();
    for round in 0..12_000 {
        let ranges = [Ranges::Absent, Ranges::Present][round / 3 % 2];
        let input = random::input_with_list(&mut random, ranges);
        let InputWithList {
            table,
            list,
            records: [first, second],
        } = &input;
        let length = *random.choose(&[0, 9, 30, 100, record::LONGEST_RECORD]);
        let before: Vec<u8> = (0..length).map(|_| random.byte()).collect();
        let (mut with_list, mut plain) = (before.clone(), before.clone());
        let n = table.n;
        let records = match round % 3 {
            2 => vec![first],
            _ => vec![first, second],
        };
        let (reply, expected) = match round % 3 {
            2 => (
                calls::rewrite_appropriate(n, &table.bytes, list, first, &mut with_list),
                calls::rewrite(n, &table.bytes, first, &mut plain),
            ),
            pair => {
                let (call, plain_call) = PAIRS[pair];
                (
                    call(n, &table.bytes, list, first, second, &mut with_list),
                    plain_call(n, &table.bytes, first, second, &mut plain),
                )
            }
        };
        let expected = match forbidden(&input, &records) {
            Some(refusal) => {
                plain = before;
                Reply::Refused(refusal)
            }
            None => expected,
        };
        assert_eq!(reply, expected, "{input:?}");
        assert_eq!(with_list, plain, "{input:?}");
        let kind = match reply {
            Reply::Refused(Refusal::Graph(fault, side)) => format!("{} {side:?}", fault.number()),
            reply => format!("{:?}", reply.number()),
        };
        *counts.entry(kind).or_default() += 1;
    }
    let kinds = [1, 2, 3, 8, 9, 10, 17].map(|number| format!("{:?}", Some(number)));
    let faults =
        [4, 5, 6, 7, 18].map(|number| [format!("{number} First"), format!("{number} Second")]);
    for kind in kinds.iter().chain(faults.as_flattened()) {
        assert!(
            counts.get(kind).is_some_and(|&count| count > 10),
            "{counts:?}"
        );
    }
    assert!(counts["None"] > 1000, "{counts:?}");
}

/// 17 or 18, where a call with a list gives it for these records: worked out from the
/// table, from the bytes of the list, and from the links of each graph in turn.
fn forbidden(input: &InputWithList, records: &[&Vec<u8>]) -> Option<Refusal> {
    let InputWithList { table, list, .. } = input;
    let types = Table::accept(table.n, &table.bytes).ok()?;
    if list.len() != 64 || list.iter().any(|&entry| usize::from(entry) >= table.n) {
        return Some(Refusal::TypeList);
    }
    for (record, side) in records.iter().zip([Side::First, Side::Second]) {
        let graph = record::read(&types, record).ok()?;
        for link in graph.incoming().concat() {
            let node_type = graph.nodes[link.parent].label.node_type;
            let entry = list[usize::from(link.feature)];
            if types.join(node_type, entry) != entry {
                return Some(inappropriate(side));
            }
        }
    }
    None
}

/// The general graph says that the root is of type a, so the difference need not; but
/// then it has feature 0 at a root of type top.
#[test]
fn a_difference_need_not_obey_the_list() {
    let table = random::diamond();
    let list = list(3, &[(0, 1)]);
    let [general, specific, rest] = ["a[0: top]", "a[0: b]", "top[0: b]"].map(over_diamond);
    for record in [&general, &specific] {
        assert_eq!(rewritten(&table, &list, record), Ok(record.clone()));
    }
    let plain = |call: Call, first: &[u8], second: &[u8]| {
        written(call, table.n, &table.bytes, first, second)
    };
    assert_eq!(
        plain(calls::difference, &general, &specific),
        Ok(rest.clone())
    );
    let refused = Err(inappropriate(Side::First));
    assert_eq!(rewritten(&table, &list, &rest), refused);
    let combination = calls::unify_appropriate;
    let refused = Err(inappropriate(Side::Second));
    assert_eq!(given(combination, &table, &list, &general, &rest), refused);
    // Through the plain call it gives the specific graph, which obeys.
    let restored = plain(calls::unify, &general, &rest);
    assert_eq!(restored, Ok(specific));
}

#[test]
fn a_difference_combined_by_the_plain_call_obeys_again() {
    let (mut obeying, mut disobeying) = (0, 0);
    for_pairs(&mut Xorshift::stored(45), 1000, |random, table, g, s| {
        let types = &table.accepted();
        let Ok(rest) = difference(types, g, s) else {
            return;
        };
        let list = random::obeyed_list(random, types, &[g, s]);
        let restored = unify(types, g, &rest).expect("a difference restores");
        assert_eq!(canonical(&restored), canonical(s));
        assert!(accepted(types, &list).is_obeyed(types, &restored));
        match accepted(types, &list).is_obeyed(types, &rest) {
            true => obeying += usize::from(rest.link_count() > 0),
            false => disobeying += 1,
        }
    });
    assert!(obeying > 300 && disobeying > 100, "{obeying} {disobeying}");
}
