//! The reasons for the links of a difference (Paper 13). These tests have cases by hand. On many
//! random pairs they compare each reason with the paths of both graphs. They also make the call on
//! bytes with outputs of every length.

mod overlaid;

use overlaid::{facts_of_reasons, links, table_and_shape};
use reference::calls;
use reference::canonical::canonical;
use reference::difference::{Reason, difference_explained};
use reference::graph::{Graph, Link};
use reference::notation::{bytes, graph};
use reference::order::subsumption;
use reference::paths::paths;
use reference::random::{self, Ranges, Shape, Xorshift};
use reference::record::{self, LONGEST_RECORD, MOST_LINKS};
use reference::reply::{Refusal, Reply};
use std::collections::BTreeMap;

const P: &str = "top[0: X top, 1: X]";
const Q: &str = "top[0: top, 1: top]";
const R: &str = "top[0: X a, 1: X]";

/// Over the diamond, the difference of s from g is the graph expected, which is noted as
/// it is written, and these are its reasons; by the graphs and by the call on bytes.
fn assert_explained(g: &str, s: &str, expected: &str, reasons: &[u8]) {
    let table = random::diamond();
    let [g, s, expected] = [g, s, expected].map(|text| graph(3, text));
    let explained = difference_explained(&table.accepted(), &g, &s).expect("a difference");
    let found: Vec<u8> = explained.reasons.iter().map(|why| why.byte()).collect();
    assert_eq!(found, reasons, "{s:?}");
    assert_eq!(explained.graph, expected);
    let [g, s, expected] = [g, s, expected].map(|graph| record::write(&graph));
    let mut output = [0xEE; LONGEST_RECORD];
    let mut beside = [0xEE; MOST_LINKS];
    let reply =
        calls::difference_explained(table.n, &table.bytes, &g, &s, &mut output, &mut beside);
    assert_eq!(reply, Reply::Length(expected.len()));
    assert_eq!(output[..expected.len()], expected);
    assert_eq!(beside[..reasons.len()], *reasons);
    let untouched = output[expected.len()..]
        .iter()
        .chain(&beside[reasons.len()..]);
    assert!(untouched.copied().all(|byte| byte == 0xEE));
}

#[test]
fn case_7_is_kept_for_a_type() {
    assert_explained(P, R, "top[0: a]", &[3]);
}

#[test]
fn case_8_has_two_groups() {
    assert_explained(Q, R, R, &[2, 2]);
}

#[test]
fn case_9_has_no_links() {
    for text in [P, Q, R, "a[0: b[5: X a], 63: X]"] {
        assert_explained(text, text, "top", &[]);
    }
}

#[test]
fn case_11_has_two_groups() {
    let s = "top[0: X top, 1: X, 2: X]";
    let g = "top[0: X top, 1: X, 2: top]";
    assert_explained(g, s, "top[0: X top, 2: X]", &[2, 2]);
}

#[test]
fn a_link_that_nothing_lies_over() {
    assert_explained("top", "top[0: top]", "top[0: top]", &[1]);
    // What hangs below it is bare too, whatever its type; all of R from a lone top.
    assert_explained("top", "top[3: a[5: b]]", "top[3: a[5: b]]", &[1, 1]);
    assert_explained("top", R, R, &[1, 1]);
    // The way to a bare link is kept for it.
    assert_explained(
        "a[1: b]",
        "a[1: b[0: top], 2: top]",
        "top[1: top[0: top], 2: top]",
        &[3, 1, 1],
    );
}

#[test]
fn a_bare_link_is_told_before_two_groups() {
    assert_explained("top[0: top]", P, P, &[2, 1]);
    // Two bare links are two groups, and a third group is covered.
    assert_explained(
        "top[1: top]",
        "top[0: X a, 1: X, 2: X]",
        "top[0: X a, 1: X, 2: X]",
        &[1, 2, 1],
    );
    // A bare link beside two that share in g.
    assert_explained(
        "top[0: X a, 2: X]",
        "top[0: X a, 1: X, 2: X]",
        "top[0: X top, 1: X]",
        &[2, 1],
    );
}

#[test]
fn two_groups_are_told_before_a_wanted_label() {
    // The shared node wants a type and a range, and a link below it is kept.
    assert_explained(
        "top[0: top[7: top], 1: top]",
        "top[0: X a{1..2}[7: b], 1: X]",
        "top[0: X a{1..2}[7: b], 1: X]",
        &[2, 2, 3],
    );
}

#[test]
fn a_wanted_range_and_what_hangs_below() {
    assert_explained(
        "a[0: b{10..200}, 1: b]",
        "a[0: b{10..100}, 1: b]",
        "top[0: top{0..100}]",
        &[3],
    );
    assert_explained(
        "a[0: b[1: a[2: top]], 3: b]",
        "a[0: b[1: a[2: b]], 3: b]",
        "top[0: top[1: top[2: b]]]",
        &[3, 3, 3],
    );
}

/// s numbers U, V, W, and the difference, which reaches V by feature 1 of the root, U,
/// W, V.
#[test]
fn reasons_go_by_the_numbers_of_the_difference() {
    assert_explained(
        "top[0: U top[0: V top, 1: top], 1: V]",
        "top[0: U top[0: V a, 1: b], 1: V]",
        "top[0: U top[1: W b], 1: V a]",
        &[3, 3, 3],
    );
    // The same with a link below V that is bare and one below W that is not: the order
    // of s would have the 1 before the last 3.
    assert_explained(
        "top[0: U top[0: V top, 1: top[0: top]], 1: V]",
        "top[0: U top[0: V a[0: top], 1: b[0: a]], 1: V]",
        "top[0: U top[1: W b[0: a]], 1: V a[0: top]]",
        &[3, 3, 3, 3, 1],
    );
}

/// The reasons do not depend on how the records number their nodes.
#[test]
fn reasons_do_not_go_by_the_numbers_of_the_record() {
    let table = random::diamond();
    let g = record::write(&graph(3, "top[0: top[0: top], 1: top]"));
    // top[0: a[0: top[0: top]], 1: top[0: b]] with the nodes numbered backwards.
    let s = bytes(
        "06 03 0300000000000000 05 02
         02 0000000000000000 03 0100000000000000 01 03 0000000000000000
         03 0100000000000000 03 01 0100000000000000 04",
    );
    let mut output = [0; LONGEST_RECORD];
    let mut reasons = [0; 6];
    let reply =
        calls::difference_explained(table.n, &table.bytes, &g, &s, &mut output, &mut reasons);
    let expected = record::write(&graph(3, "top[0: a[0: top[0: top]], 1: top[0: b]]"));
    assert_eq!(reply, Reply::Length(expected.len()));
    assert_eq!(output[..expected.len()], expected);
    assert_eq!(reasons, [3, 3, 3, 1, 1, 0]);
}

/// Half of the graphs are with ranges, and the tables are of all kinds.
#[test]
fn each_reason_is_true_of_the_paths_of_both_graphs() {
    let mut random = Xorshift::stored(41);
    let mut counts = BTreeMap::new();
    for round in 0..8_000 {
        let (table, shape) = table_and_shape(&mut random, round);
        let s = random::graph(&mut random, table.n(), &shape);
        let g = random::graph_above(&mut random, &table, &s);
        if paths(&s).len() > 60 {
            continue;
        }
        let Ok(explained) = difference_explained(&table, &g, &s) else {
            continue;
        };
        let by_parent = |link: Link| (link.parent, usize::from(link.feature));
        for facts in facts_of_reasons(&table, &g, &s, &explained, by_parent) {
            *counts.entry(facts).or_insert(0) += 1;
        }
    }
    // Every reason with and without each of the two, but for a 3 without both.
    let often = counts.len() == 11 && counts.values().all(|&count| count >= 50);
    assert!(often || !random::is_stored(), "{counts:?}");
}

/// Differences for which the order of the links in s would give other bytes come up
/// often, where g has much of the sharing of s and less of its labels.
#[test]
fn the_order_of_reasons_is_often_not_that_of_s() {
    let mut random = Xorshift::stored(42);
    let mut others = 0;
    for round in 0..2_000 {
        let table = random::brouwer_table(&mut random).accepted();
        let ranges = [Ranges::Absent, Ranges::Present][round % 2];
        let shape = Shape::shared(&mut random).ranged(&mut random, ranges);
        let s = canonical(&random::graph(&mut random, table.n(), &shape));
        let g = random::graph_well_above(&mut random, &table, &s);
        let explained = difference_explained(&table, &g, &s).expect("s is below g");
        let in_s = subsumption(&table, &explained.graph, &s).expect("a part of s");
        let links_of_s = links(&explained.graph).into_iter().map(|link| Link {
            parent: in_s.image[link.parent],
            feature: link.feature,
        });
        let by_s: BTreeMap<Link, Reason> = links_of_s.zip(explained.reasons.clone()).collect();
        assert_eq!(by_s.len(), explained.reasons.len());
        others += usize::from(!by_s.values().eq(&explained.reasons));
    }
    assert!(others >= 300 || !random::is_stored(), "{others}");
}

/// Outputs of every length around those of the record and of the reasons: 8 where the
/// record does not fit, else 22 where the reasons do not, and both outputs unchanged.
#[test]
fn refusal_22_comes_after_8_and_changes_nothing() {
    let table = random::diamond();
    let (n, table) = (table.n, &table.bytes);
    let [q, r] = [Q, R].map(|text| record::write(&graph(3, text)));
    for room in [0, 1, r.len() - 1, r.len(), r.len() + 3, LONGEST_RECORD] {
        for count in [0, 1, 2, 3, 5, MOST_LINKS] {
            let mut output = vec![0xEE; room];
            let mut reasons = vec![0xEE; count];
            let reply = calls::difference_explained(n, table, &q, &r, &mut output, &mut reasons);
            let expected = match (room < r.len(), count < 2) {
                (true, _) => Reply::Refused(Refusal::NoRoom),
                (false, true) => Reply::Refused(Refusal::NoReasonRoom),
                (false, false) => Reply::Length(r.len()),
            };
            assert_eq!(reply, expected);
            let (written, explained) = match expected {
                Reply::Length(length) => (length, 2),
                _ => (0, 0),
            };
            assert_eq!(output[..written], r[..written]);
            assert_eq!(reasons[..explained], [2, 2][..explained]);
            let beyond = output[written..].iter().chain(&reasons[explained..]);
            assert!(beyond.copied().all(|byte| byte == 0xEE));
        }
    }
    assert_eq!(Refusal::NoReasonRoom.number(), 22);
    // No reason needs no room.
    let mut output = [0; 10];
    let reply = calls::difference_explained(n, table, &q, &q, &mut output, &mut []);
    assert_eq!(reply, Reply::Length(10));
}

/// The other refusals come before 8 and 22, as those of the plain call.
#[test]
fn no_room_at_all_is_told_last() {
    let diamond = random::diamond();
    let rivals = random::three_over_one();
    let lone = |node_type: u8| record::write(&Graph::lone(node_type));
    for (table, g, s, number) in [
        (&random::chain(2), vec![], vec![], 4),
        (&diamond, lone(1), lone(4), 5),
        (&diamond, lone(1), lone(3), 12),
        (&rivals, lone(2), lone(1), 13),
        (&diamond, lone(3), record::write(&graph(3, R)), 8),
    ] {
        let (n, table) = (table.n, &table.bytes);
        let reply = calls::difference_explained(n, table, &g, &s, &mut [], &mut []);
        assert_eq!(reply.number(), Some(number));
        assert_eq!(reply, calls::difference(n, table, &g, &s, &mut []));
    }
}
