//! The difference by a reading order (Paper 10). These tests have cases by hand. On many random
//! pairs with random lists they compare what is kept with the paths of both graphs. They also check
//! which lists are refused, and the order of the checks in the calls on bytes.

mod overlaid;

use overlaid::{facts_of_reasons, table_and_shape};
use reference::calls::{self, written_by};
use reference::canonical::canonical;
use reference::difference::{Reason, difference, difference_by, difference_explained};
use reference::graph::{FEATURES, Graph, Link};
use reference::link_order::LinkOrder;
use reference::notation::graph;
use reference::order::{Order, order};
use reference::paths::paths;
use reference::random::{self, InputWithList, Ranges, Xorshift};
use reference::record::{self, LONGEST_RECORD, MOST_LINKS};
use reference::reply::{Refusal, Reply};
use reference::unify::unify;
use std::collections::BTreeMap;

const P: &str = "top[0: X top, 1: X]";
const R: &str = "top[0: X a, 1: X]";

/// Over the diamond, by the list that has these features first, the difference of s from
/// g is the graph expected, which is noted as it is written, and these are its reasons; it
/// restores s. By the graphs and by both calls on bytes.
fn assert_read(first: &[u8], g: &str, s: &str, expected: &str, reasons: &[u8]) {
    let list = random::list_beginning(first);
    let table = random::diamond();
    let [g, s, expected] = [g, s, expected].map(|text| graph(3, text));
    let order = LinkOrder::by_list(&list).expect("all features, each once");
    let explained = difference_by(&order, &table.accepted(), &g, &s).expect("a difference");
    let found: Vec<u8> = explained.reasons.iter().map(|why| why.byte()).collect();
    assert_eq!(found, reasons, "{s:?}");
    assert_eq!(explained.graph, expected);
    let [g, s, expected] = [g, s, expected].map(|graph| record::write(&graph));
    let (n, table) = (table.n, &table.bytes);
    let plain = written_by(|output| calls::difference_by(n, table, &list, &g, &s, output));
    assert_eq!(plain, Ok(expected.clone()));
    let mut beside = [0xEE; MOST_LINKS];
    let record = written_by(|output| {
        calls::difference_explained_by(n, table, &list, &g, &s, output, &mut beside)
    });
    assert_eq!(record, plain);
    assert_eq!(beside[..reasons.len()], *reasons);
    assert!(beside[reasons.len()..].iter().all(|&byte| byte == 0xEE));
    let restored = written_by(|output| calls::unify(n, table, &g, &expected, output));
    assert_eq!(restored, Ok(s));
}

#[test]
fn cases_7_and_11_under_the_feature_that_is_named_first() {
    assert_read(&[], P, R, "top[0: a]", &[3]);
    assert_read(&[0], P, R, "top[0: a]", &[3]);
    assert_read(&[1], P, R, "top[1: a]", &[3]);
    let s = "top[0: X top, 1: X, 2: X]";
    let g = "top[0: X top, 1: X, 2: top]";
    assert_read(&[], g, s, "top[0: X top, 2: X]", &[2, 2]);
    assert_read(&[1], g, s, "top[1: X top, 2: X]", &[2, 2]);
    assert_read(&[2, 1], g, s, "top[1: X top, 2: X]", &[2, 2]);
    // Features between those that the graphs have decide nothing.
    assert_read(&[63, 1, 40, 0], P, R, "top[1: a]", &[3]);
}

#[test]
fn the_feature_goes_before_the_parent() {
    let s = "top[0: U top[0: X a], 1: X]";
    let g = "top[0: U top[0: X top], 1: X]";
    // Feature 1 leaves the root, which has the least number, and feature 0 leaves U.
    let table = random::diamond().accepted();
    let plain = difference(&table, &graph(3, g), &graph(3, s));
    assert_eq!(plain, Ok(graph(3, "top[1: a]")));
    assert_read(&[], g, s, "top[0: top[0: a]]", &[3, 3]);
    assert_read(&[1], g, s, "top[1: a]", &[3]);
}

#[test]
fn among_links_of_one_feature_the_parent_decides() {
    // U is numbered 1 and V 3, whatever the list.
    let s = "top[0: U top[5: X a], 1: V top[5: X]]";
    let g = "top[0: U top[5: X top], 1: V top[5: X]]";
    for first in [&[][..], &[1], &[1, 5], &[5, 1, 0]] {
        assert_read(first, g, s, "top[0: top[5: a]]", &[3, 3]);
    }
}

#[test]
fn all_three_reasons_by_a_list() {
    // Of X two links share in g and one is bare; Y is kept for its type under feature 4.
    let s = "top[0: X a, 1: X, 2: X, 3: Y b, 4: Y]";
    let g = "top[0: X a, 1: X, 3: Y top, 4: Y]";
    assert_read(&[], g, s, "top[0: X top, 2: X, 3: b]", &[2, 1, 3]);
    assert_read(&[4, 1], g, s, "top[1: X top, 2: X, 4: b]", &[2, 1, 3]);
}

/// A list is accepted exactly when it is all features, each once: every change of one
/// entry, every other length, and every exchange of two.
#[test]
fn which_lists_are_accepted() {
    let mut random = Xorshift::stored(51);
    for _ in 0..20 {
        let list = random::reading_order(&mut random);
        let mut places = [0; FEATURES];
        for (place, &feature) in (0..).zip(&list) {
            places[usize::from(feature)] = place;
        }
        assert_eq!(LinkOrder::by_list(&list), Some(LinkOrder::ByList(places)));
        for place in 0..FEATURES {
            for entry in 0..=255 {
                let mut changed = list.clone();
                changed[place] = entry;
                let accepted = LinkOrder::by_list(&changed).is_some();
                assert_eq!(accepted, changed == list, "{changed:?}");
            }
            let mut exchanged = list.clone();
            exchanged.swap(0, place);
            assert!(LinkOrder::by_list(&exchanged).is_some());
        }
        for length in (0..3 * FEATURES).filter(|&length| length != FEATURES) {
            let resized: Vec<u8> = list.iter().copied().cycle().take(length).collect();
            assert_eq!(LinkOrder::by_list(&resized), None);
        }
        let damaged = random::damaged_reading_order(&mut random, list);
        assert_eq!(LinkOrder::by_list(&damaged), None, "{damaged:?}");
    }
}

/// What is kept and why, held against the paths of s and g, over tables of all kinds and
/// half of the time with ranges; the difference restores, and where it is another than that
/// of a second list neither is above the other.
#[test]
fn what_a_list_keeps_is_true_of_the_paths_of_both_graphs() {
    let mut random = Xorshift::stored(52);
    let mut reasons = BTreeMap::new();
    let [mut differing, mut parents, mut checked] = [0; 3];
    for round in 0..8_000 {
        let (table, shape) = table_and_shape(&mut random, round);
        let (g, s) = random::low_pair(&mut random, &table, &shape);
        let lists = [0, 1].map(|_| random::reading_order(&mut random));
        if paths(&s).len() > 60 {
            continue;
        }
        let plain = difference_explained(&table, &g, &s);
        let by_lists = lists.each_ref().map(|list| {
            let order = LinkOrder::by_list(list).expect("all features, each once");
            difference_by(&order, &table, &g, &s)
        });
        let (Ok(plain), [Ok(one), Ok(two)]) = (&plain, &by_lists) else {
            // No list gives a wanted type, or takes one away.
            assert_eq!(by_lists, [plain.clone(), plain]);
            continue;
        };
        for (list, explained) in lists.iter().zip([one, two]) {
            let place = |link: Link| list.iter().position(|&feature| feature == link.feature);
            let key = |link: Link| (place(link).expect("each feature"), link.parent);
            for (reason, ..) in facts_of_reasons(&table, &g, &s, explained, key) {
                *reasons.entry(reason).or_insert(0) += 1;
            }
            let restored = unify(&table, &explained.graph, &g);
            assert_eq!(restored.map(|graph| canonical(&graph)), Ok(canonical(&s)));
        }
        let expected = match one.graph == two.graph {
            true => Order::Same,
            false => Order::Neither,
        };
        assert_eq!(order(&table, &one.graph, &two.graph), expected);
        differing += usize::from(one.graph != two.graph);
        parents += usize::from(one.graph != plain.graph);
        checked += 1;
    }
    let often = checked > 5_000 && differing > 300 && parents > 300;
    let often = often && Reason::ALL.iter().all(|reason| reasons[reason] > 1_000);
    let counts = (checked, differing, parents);
    assert!(often || !random::is_stored(), "{counts:?} {reasons:?}");
}

/// 19 after the table and before the graphs; with an accepted list the replies of the
/// plain calls, but for what is written. No output changes on a refusal.
#[test]
fn checks_run_in_the_papers_order() {
    let mut random = Xorshift::stored(53);
    let mut numbers = BTreeMap::new();
    for round in 0..6_000 {
        let ranges = [Ranges::Absent, Ranges::Present][round % 2];
        let InputWithList {
            table,
            list,
            records: [g, s],
        } = random::input_with_reading_order(&mut random, ranges);
        let (n, bytes) = (table.n, &table.bytes);
        let rooms = [LONGEST_RECORD, MOST_LINKS].map(|most| {
            let any = random.pick(most);
            *random.choose(&[0, 10, 30, any, most, most])
        });
        let before = rooms.map(|room| vec![0xEE; room]);
        let [mut output, mut reasons] = before.clone();
        let reply =
            calls::difference_explained_by(n, bytes, &list, &g, &s, &mut output, &mut reasons);
        let mut alone = before[0].clone();
        let plain = calls::difference_by(n, bytes, &list, &g, &s, &mut alone);
        *numbers.entry(reply.number().unwrap_or(0)).or_insert(0) += 1;
        match reply {
            Reply::Length(length) => {
                assert_eq!(plain, reply);
                assert_eq!(alone, output);
                assert_eq!(output[length..], before[0][length..]);
            }
            _ => {
                assert_eq!([output, reasons], before);
                let short = reply == Reply::Refused(Refusal::NoReasonRoom);
                assert!(plain == reply || short);
                assert!(short || alone == before[0]);
            }
        }
        // The plain call says what is told of the table, and else of the graphs.
        let mut longest = vec![0; LONGEST_RECORD];
        let expected = calls::difference(n, bytes, &g, &s, &mut longest);
        let expected = match (expected.number(), LinkOrder::by_list(&list)) {
            (Some(1..=3), _) | (Some(_), Some(_)) => expected.number(),
            (_, None) => Some(19),
            (None, Some(_)) => continue,
        };
        assert_eq!(reply.number(), expected, "{list:?}");
    }
    let all = [0, 1, 2, 3, 4, 5, 6, 7, 8, 12, 13, 19, 22];
    let often = all.iter().all(|number| numbers.get(number) >= Some(&10));
    let no_others = numbers.len() == all.len();
    assert!((often && no_others) || !random::is_stored(), "{numbers:?}");
}

#[test]
fn the_number_of_a_refused_list() {
    assert_eq!(Refusal::ReadingOrder.number(), 19);
    let lone = record::write(&Graph::lone(3));
    let table = random::diamond();
    let list = random::list_beginning(&[]);
    let longer = [&list[..], &[0]].concat();
    for list in [&[][..], &list[1..], &[7; FEATURES], &longer] {
        let mut output = [0xEE; 10];
        let reply = calls::difference_by(4, &table.bytes, list, &lone, &lone, &mut output);
        assert_eq!(reply, Reply::Refused(Refusal::ReadingOrder));
        assert_eq!(output, [0xEE; 10]);
    }
}
