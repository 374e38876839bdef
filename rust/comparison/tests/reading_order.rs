//! The difference by a reading order (Paper 10), with reasons and without, by the proved engine and
//! by the reference. There are cases by hand, random lists, and damaged lists (63 and 65 bytes, no
//! bytes, a feature twice, a feature of 64 or above), over random, large and damaged records and
//! tables. Whichever list is given, the difference restores the specific record.

use comparison::cases::record_of;
use comparison::{Call, Comparison, DIFFERENCE, ORDER, REWRITE, UNIFY, compare};
use comparison::{DIFFERENCE_BY, DIFFERENCE_EXPLAINED_BY, on_stated_stack};
use record_engine::{FEATURES, MOST_LINKS, Reason, Refusal};
use record_engine::{difference_by, difference_explained_by};
use reference::order::Order;
use reference::random::{self, InputWithList, Ranges, Shape, TableBytes, Xorshift, list_beginning};
use reference::record::{self, LONGEST_RECORD, MOST_NODES};
use reference::reply::{self, Reply};

const P: &str = "top[0: X top, 1: X]";
const R: &str = "top[0: X a, 1: X]";

#[test]
fn differences_by_hand() {
    use Reason::{Bare, Groups, Wanted};
    // The features that are read first, g, s, the difference and its reasons.
    type ByHand = (
        &'static [u8],
        &'static str,
        &'static str,
        &'static str,
        &'static [Reason],
    );
    let cases: [ByHand; 9] = [
        // Cases 7 and 11, under the feature that is named first.
        (&[0], P, R, "top[0: a]", &[Wanted]),
        (&[1], P, R, "top[1: a]", &[Wanted]),
        (
            &[1],
            "top[0: X top, 1: X, 2: top]",
            "top[0: X top, 1: X, 2: X]",
            "top[1: X top, 2: X]",
            &[Groups, Groups],
        ),
        // The feature goes before the parent, also in the order of the numbers.
        (
            &[0],
            "top[0: U top[0: X top], 1: X]",
            "top[0: U top[0: X a], 1: X]",
            "top[0: top[0: a]]",
            &[Wanted, Wanted],
        ),
        (
            &[1],
            "top[0: U top[0: X top], 1: X]",
            "top[0: U top[0: X a], 1: X]",
            "top[1: a]",
            &[Wanted],
        ),
        // Among links of one feature the parent decides, numbered as written.
        (
            &[1, 5],
            "top[0: top[5: X top], 1: top[5: X]]",
            "top[0: top[5: X a], 1: top[5: X]]",
            "top[0: top[5: a]]",
            &[Wanted, Wanted],
        ),
        // All three reasons, by two lists.
        (
            &[],
            "top[0: X a, 1: X, 3: Y top, 4: Y]",
            "top[0: X a, 1: X, 2: X, 3: Y b, 4: Y]",
            "top[0: X top, 2: X, 3: b]",
            &[Groups, Bare, Wanted],
        ),
        (
            &[4, 1],
            "top[0: X a, 1: X, 3: Y top, 4: Y]",
            "top[0: X a, 1: X, 2: X, 3: Y b, 4: Y]",
            "top[1: X top, 2: X, 4: b]",
            &[Groups, Bare, Wanted],
        ),
        (&[63], R, R, "top", &[]),
    ];
    let table = random::diamond();
    for (first, general, specific, rest, reasons) in cases {
        let list = list_beginning(first);
        let [general, specific, rest] = [general, specific, rest].map(record_of);
        let (n, table) = (table.n, &table.bytes);
        let mut output = vec![7; LONGEST_RECORD];
        let length = difference_by(n, table, &list, &general, &specific, &mut output);
        assert_eq!(length, Ok(rest.len()), "{first:?}");
        assert_eq!(output[..rest.len()], rest);
        let mut again = vec![7; LONGEST_RECORD];
        let mut bytes = [0; MOST_LINKS];
        let length =
            difference_explained_by(n, table, &list, &general, &specific, &mut again, &mut bytes);
        assert_eq!(length, Ok(rest.len()), "{first:?}");
        assert_eq!(again, output);
        let reason = |byte| Reason::try_from(byte).ok();
        let found: Vec<Reason> = bytes.into_iter().map_while(reason).collect();
        assert_eq!(found, reasons, "{first:?}");
    }
    assert_eq!(Refusal::ReadingOrder.number(), 19);
}

/// Random inputs, valid and damaged in any of their parts.
fn compare_inputs(call: Call, seed: u64, count: usize, ranges: Ranges) -> Comparison {
    compare(call, seed, count, |compared, random| {
        let InputWithList {
            table,
            list,
            records: [general, specific],
        } = random::input_with_reading_order(random, ranges);
        compared.check(&table, &[&list, &general, &specific]);
    })
}

fn compare_differences(seed: u64, ranges: Ranges) {
    let compared = compare_inputs(DIFFERENCE_BY, seed, 12_000, ranges);
    compared.assert_replies(&[0, 1, 2, 3, 4, 5, 6, 7, 8, 12, 13, 19], 30);
    compared.assert_sides(&[4, 5, 6, 7], 20);
}

#[test]
fn the_difference_of_random_pairs() {
    compare_differences(301, Ranges::Absent);
}

#[test]
fn the_difference_of_random_pairs_with_ranges() {
    compare_differences(303, Ranges::Present);
}

fn compare_reasons(seed: u64, ranges: Ranges) {
    let compared = compare_inputs(DIFFERENCE_EXPLAINED_BY, seed, 6_000, ranges);
    compared.assert_replies(&[0, 1, 2, 3, 4, 5, 6, 7, 8, 12, 13, 19, 22], 20);
    compared.assert_reasons(2_000);
}

#[test]
fn the_reasons_of_random_pairs() {
    compare_reasons(305, Ranges::Absent);
}

#[test]
fn the_reasons_of_random_pairs_with_ranges() {
    compare_reasons(307, Ranges::Present);
}

/// Lists that are refused: each differs in one thing from a list that is not.
fn refused_lists(random: &mut Xorshift, list: &[u8]) -> Vec<Vec<u8>> {
    let place = random.pick(FEATURES);
    let other = (place + random.between(1, FEATURES - 1)) % FEATURES;
    let with_entry = |entry: usize| {
        let mut changed = list.to_vec();
        changed[place] = entry as u8;
        changed
    };
    vec![
        list[..FEATURES - 1].to_vec(),
        [list, &[random.pick(FEATURES) as u8]].concat(),
        Vec::new(),
        with_entry(usize::from(list[other])),
        with_entry(FEATURES),
        with_entry(random.between(FEATURES, 255)),
    ]
}

/// A table, and the records of a graph and of one below it.
fn pair(random: &mut Xorshift, shape: Shape) -> (TableBytes, [Vec<u8>; 2]) {
    let table = random::brouwer_table(random);
    let shape = shape.ranged(random, Ranges::Present);
    let s = random::graph(random, table.n, &shape);
    let g = random::graph_well_above(random, &table.accepted(), &s);
    let records = [g, s].map(|graph| random::record_of(random, &graph, Ranges::Present));
    (table, records)
}

/// Pairs with two lists each: both differences restore, and where they differ, which is
/// often, neither is above the other. Lists that are refused are so whatever the records
/// are, and after the table.
#[test]
fn every_kind_of_list() {
    let mut by_list = Comparison::new(DIFFERENCE_BY, 311);
    let plain = |call: Call, seed: u64| Comparison::new(call, seed);
    let [mut difference, mut unify] = [plain(DIFFERENCE, 312), plain(UNIFY, 313)];
    let [mut rewrite, mut order] = [plain(REWRITE, 314), plain(ORDER, 315)];
    let random = &mut Xorshift::stored(316);
    let [mut differing, mut other_than_plain] = [0; 2];
    for round in 0..1_500 {
        let shape = match round % 4 {
            0 => Shape::shared(random),
            _ => Shape::small(random, 9, 4),
        };
        let (table, [g, s]) = pair(random, shape);
        let lists = [0, 1].map(|_| random::reading_order(random));
        let (_, restored) = rewrite.answer(&table, &[&s]);
        let (_, without) = difference.answer(&table, &[&g, &s]);
        let rests = lists.each_ref().map(|list| {
            by_list.check(&table, &[list, &g, &s]);
            let (_, rest) = by_list.answer(&table, &[list, &g, &s]);
            let (_, combined) = unify.answer(&table, &[&g, &rest]);
            assert_eq!(combined, restored, "{table:?} {list:?}");
            rest
        });
        let [one, two] = &rests;
        let expected = match one == two {
            true => Order::Same,
            false => Order::Neither,
        };
        let (found, _) = order.answer(&table, &[one, two]);
        assert_eq!(found, Reply::Order(expected), "{table:?} {lists:?}");
        differing += usize::from(one != two);
        other_than_plain += usize::from(*one != without);
        let damaged = random::damaged_record(random, table.n, Ranges::Present);
        let refused_table = random::damaged_table(random);
        for list in refused_lists(random, &lists[0]) {
            for (left, right) in [(&g, &s), (&damaged, &s), (&g, &damaged)] {
                let found = by_list.check(&table, &[&list, left, right]);
                assert_eq!(
                    found,
                    Reply::Refused(reply::Refusal::ReadingOrder),
                    "{list:?}"
                );
            }
            let (expected, _) = difference.answer(&refused_table, &[&g, &s]);
            if let Some(1..=3) = expected.number() {
                assert_eq!(by_list.check(&refused_table, &[&list, &g, &s]), expected);
            }
        }
    }
    by_list.assert_replies(&[0, 1, 2, 3, 8, 19], 50);
    let often = differing > 300 && other_than_plain > 300;
    assert!(
        often || !random::is_stored(),
        "{differing} {other_than_plain}"
    );
}

/// Every bit of a list changed, every two neighbours exchanged, and every length up to
/// twice its own.
#[test]
fn every_bit_of_a_list_and_every_length() {
    let mut compared = Comparison::new(DIFFERENCE_BY, 321);
    let random = &mut Xorshift::stored(322);
    for _ in 0..40 {
        let shape = Shape::small(random, 9, 4);
        let (table, [g, s]) = pair(random, shape);
        let list = random::reading_order(random);
        let mut check = |list: &[u8]| compared.check(&table, &[list, &g, &s]).number();
        for bit in 0..8 * FEATURES {
            let mut changed = list.clone();
            changed[bit / 8] ^= 1 << (bit % 8);
            assert_eq!(check(&changed), Some(19));
        }
        for place in 1..FEATURES {
            let mut exchanged = list.clone();
            exchanged.swap(place - 1, place);
            assert_eq!(check(&exchanged), None);
        }
        for length in (0..=2 * FEATURES).filter(|&length| length != FEATURES) {
            let resized: Vec<u8> = list.iter().copied().cycle().take(length).collect();
            assert_eq!(check(&resized), Some(19));
        }
    }
    compared.assert_replies(&[0, 8, 19], 2_000);
}

/// Graphs with many shared nodes, and graphs of up to 255 nodes and 2,048 links, each with
/// a random list.
#[test]
fn the_reasons_of_shared_and_large_pairs() {
    let mut compared = Comparison::new(DIFFERENCE_EXPLAINED_BY, 331);
    let random = &mut Xorshift::stored(332);
    for round in 0..1_200 {
        let shape = match round % 6 {
            0 => Shape::large(random),
            _ => Shape::shared(random),
        };
        let (table, [g, s]) = pair(random, shape);
        let list = random::reading_order(random);
        compared.check(&table, &[&list, &g, &s]);
    }
    compared.assert_replies(&[0, 8, 22], 700);
    compared.assert_reasons(2_000);
}

/// The largest records: of the links from one node to the next, which all say the same,
/// the one that is read first is kept. The stack that is stated for a call is enough.
#[test]
fn the_largest_records_need_little_stack() {
    let table = random::diamond();
    let features = [0, 9, 18, 27, 36, 45, 54, 63];
    let [general, specific] =
        [3, 1].map(|node_type| record::write(&random::ladder(MOST_NODES, &features, node_type)));
    for first in features {
        let list = list_beginning(&[60, first]);
        let rest = record::write(&random::chain_graph(MOST_NODES, first, 1));
        let (lengths, output, reasons) = on_stated_stack(|| {
            let mut output = vec![0; LONGEST_RECORD];
            let mut reasons = vec![0; MOST_LINKS];
            let (n, table, list) = (table.n, &table.bytes, &list);
            let (g, s) = (&general, &specific);
            let plain = difference_by(n, table, list, g, s, &mut output);
            let explained =
                difference_explained_by(n, table, list, g, s, &mut output, &mut reasons);
            ([plain, explained], output, reasons)
        });
        assert_eq!(lengths, [Ok(rest.len()); 2]);
        assert_eq!(output[..rest.len()], rest);
        assert_eq!(reasons[..254], [3; 254]);
        assert_eq!(reasons[254..], [0; MOST_LINKS - 254]);
    }
}
