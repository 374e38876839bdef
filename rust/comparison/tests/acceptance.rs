//! The acceptance run (Paper 14). It makes the five calls of both engines on every small graph over
//! the diamond with features 0 and 1, as the listing gives them.

use comparison::{Comparison, DIFFERENCE, GENERALIZE, ORDER, REWRITE, UNIFY};
use record_engine::Listing;
use reference::order::Order;
use reference::random::{self, TableBytes};
use reference::reply::Reply;

/// Every small fitting over the diamond.
fn fittings(table: &TableBytes) -> Vec<Vec<u8>> {
    let listing = Listing::new(table.n, &table.bytes, 2).expect("2 is a number of features");
    listing.collect()
}

/// A listed record is its own written form.
#[test]
fn every_fitting_is_written_as_it_is() {
    let table = random::diamond();
    let mut rewrite = Comparison::new(REWRITE, 421);
    let fittings = fittings(&table);
    assert_eq!(fittings.len(), 462);
    for fitting in &fittings {
        rewrite.check(&table, &[fitting]);
        let (_, written) = rewrite.answer(&table, &[fitting]);
        assert_eq!(written, *fitting);
    }
    rewrite.assert_replies(&[0, 8], 462);
}

/// The pairs of the run: each fitting of at most two nodes with every fitting, in both
/// orders, and every two of three nodes whose types are `a` and top alone.
fn in_run(first: &[u8], second: &[u8]) -> bool {
    let small = |fitting: &[u8]| fitting[0] < 3;
    small(first) || small(second) || plain(first) && plain(second)
}

/// Whether no node has the type `b`, which is 2.
fn plain(fitting: &[u8]) -> bool {
    let mut place = 1;
    for _ in 0..fitting[0] {
        if fitting[place] == 2 {
            return false;
        }
        let links: u32 = fitting[place + 1..][..8]
            .iter()
            .map(|b| b.count_ones())
            .sum();
        place += 9 + links as usize;
    }
    true
}

/// Order, common part, combination and difference of each pair of the run. No common part
/// and no combination is too large, and over the diamond no difference lacks a type.
#[test]
fn every_pair_of_the_run() {
    let table = random::diamond();
    let fittings = fittings(&table);
    let mut order = Comparison::new(ORDER, 422);
    let mut generalize = Comparison::new(GENERALIZE, 423);
    let mut unify = Comparison::new(UNIFY, 424);
    let mut difference = Comparison::new(DIFFERENCE, 425);
    let mut pairs = 0;
    for first in &fittings {
        for second in fittings.iter().filter(|second| in_run(first, second)) {
            pairs += 1;
            let pair: [&[u8]; 2] = [first, second];
            let (ordered, _) = order.answer(&table, &pair);
            let same = ordered == Reply::Order(Order::Same);
            assert_eq!(same, first == second, "{pair:?}");
            generalize.answer(&table, &pair);
            unify.answer(&table, &pair);
            // The difference of the first and the second, which is to be below it.
            let (reply, rest) = difference.answer(&table, &pair);
            let below = [Order::Same, Order::Above]
                .map(Reply::Order)
                .contains(&ordered);
            assert_eq!(reply.number(), (!below).then_some(12), "{pair:?}");
            if below {
                let (_, restored) = unify.answer(&table, &[first, &rest]);
                assert_eq!(restored, *second, "{pair:?}");
            }
        }
    }
    // Of 30 fittings of at most two nodes and 432 of three, of which 128 are plain.
    assert_eq!(pairs, 30 * 30 + 2 * 30 * 432 + 128 * 128);
    order.assert_answers(150);
    generalize.assert_replies(&[0], pairs);
    unify.assert_replies(&[0, 9, 10], 500);
    difference.assert_replies(&[0, 12], 2_000);
}
