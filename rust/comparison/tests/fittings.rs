//! The cases of document 01 by the proved engine, over the diamond, and those of the
//! change requests.

use record_engine::{
    LONGEST_RECORD, Order, Refusal, difference, generalize, order, rewrite, unify,
};
use reference::graph::Graph;
use reference::notation;
use reference::random;
use reference::record;
use std::cmp::Ordering;

const P: &str = "top[0: X top, 1: X]";
const Q: &str = "top[0: top, 1: top]";
const R: &str = "top[0: X a, 1: X]";

fn record_of(text: &str) -> Vec<u8> {
    record::write(&notation::graph(3, text))
}

type Writes = fn(usize, &[u8], &[u8], &[u8], &mut [u8]) -> Result<usize, Refusal>;

/// What a call writes over the diamond.
fn written(call: Writes, first: &str, second: &str) -> Result<Vec<u8>, Refusal> {
    let table = random::diamond();
    let mut output = vec![0; LONGEST_RECORD];
    let (first, second) = (record_of(first), record_of(second));
    let length = call(table.n, &table.bytes, &first, &second, &mut output)?;
    output.truncate(length);
    Ok(output)
}

fn ordered(first: &str, second: &str) -> Order {
    let table = random::diamond();
    order(table.n, &table.bytes, &record_of(first), &record_of(second)).expect("accepted records")
}

#[test]
fn case_1_a_lone_top() {
    let lone_top = notation::bytes("01 03 00 00 00 00 00 00 00 00");
    assert_eq!(written(generalize, "a[0: b]", "b"), Ok(lone_top));
}

#[test]
fn case_6_what_one_side_shares_is_parted() {
    assert_eq!(written(generalize, P, Q), Ok(record_of(Q)));
    assert_eq!(written(generalize, Q, P), Ok(record_of(Q)));
}

#[test]
fn tops_that_nothing_shares_stay() {
    let common = written(generalize, "top[0: a, 1: a]", "top[0: b, 2: a]");
    assert_eq!(common, Ok(record_of("top[0: top]")));
    let common = written(generalize, "a[0: a[0: a]]", "a[0: b[0: b]]");
    assert_eq!(common, Ok(record_of("a[0: top[0: top]]")));
}

#[test]
fn the_order_of_small_graphs() {
    // Each list goes down; graphs of different lists are not named twice.
    for chain in [
        ["top", "top[0: top]", Q, P, R],
        ["top", "a", "a[1: top]", "a[1: b]", "a[0: top, 1: b]"],
        [
            "top",
            "top[0: top]",
            "top[0: top[0: top]]",
            "top[0: a[0: top]]",
            "a[0: a[0: a]]",
        ],
    ] {
        for (i, upper) in chain.into_iter().enumerate() {
            for (j, lower) in chain.into_iter().enumerate() {
                let expected = match i.cmp(&j) {
                    Ordering::Less => Order::Under,
                    Ordering::Equal => Order::Same,
                    Ordering::Greater => Order::Above,
                };
                assert_eq!(ordered(lower, upper), expected, "{lower} and {upper}");
            }
        }
    }
    for (first, second) in [
        ("a", "b"),
        (R, "top[0: a[0: top]]"),
        ("top[0: a]", P),
        ("top[0: top]", "top[1: top]"),
        ("top[0: X a, 1: X]", "top[0: a, 1: b]"),
    ] {
        assert_eq!(
            ordered(first, second),
            Order::Neither,
            "{first} and {second}"
        );
        assert_eq!(
            ordered(second, first),
            Order::Neither,
            "{second} and {first}"
        );
    }
}

#[test]
fn case_2_a_clash() {
    assert_eq!(written(unify, "a", "b"), Err(Refusal::Clash));
}

#[test]
fn case_3_a_type_on_one_path_holds_on_all_that_share() {
    let combined = written(unify, P, "top[0: a, 1: top]");
    assert_eq!(combined, Ok(record_of(R)));
}

#[test]
fn case_4_a_clash_by_sharing() {
    assert_eq!(written(unify, P, "top[0: a, 1: b]"), Err(Refusal::Clash));
}

#[test]
fn case_5_a_loop_though_types_clash_too() {
    let combined = written(unify, P, "top[0: Z a, 1: b[0: Z]]");
    assert_eq!(combined, Err(Refusal::Cycle));
}

#[test]
fn case_7_one_path_of_two_that_share() {
    assert_eq!(written(difference, P, R), Ok(record_of("top[0: a]")));
}

#[test]
fn case_8_sharing_and_type() {
    assert_eq!(written(difference, Q, R), Ok(record_of(R)));
}

#[test]
fn case_9_from_itself_a_lone_top() {
    for graph in ["top", "a", P, Q, R, "top[0: a[0: X b, 1: X], 1: X]"] {
        let lone_top = record_of("top");
        assert_eq!(written(difference, graph, graph), Ok(lone_top), "{graph}");
    }
}

#[test]
fn case_10_not_below() {
    assert_eq!(written(difference, P, Q), Err(Refusal::NotBelow));
}

#[test]
fn case_11_one_link_of_each_group() {
    let general = "top[0: X top, 1: X, 2: top]";
    let specific = "top[0: X top, 1: X, 2: X]";
    let rest = record_of("top[0: X top, 2: X]");
    assert_eq!(written(difference, general, specific), Ok(rest));
}

/// What a call answers over a table on two lone nodes.
fn over(call: Writes, table: &random::TableBytes, first: u8, second: u8) -> Result<usize, Refusal> {
    let [first, second] = [first, second].map(|node_type| record::write(&Graph::lone(node_type)));
    let mut output = vec![0; LONGEST_RECORD];
    call(table.n, &table.bytes, &first, &second, &mut output)
}

#[test]
fn case_12_three_middles_have_wanted_types() {
    let table = random::middles(3);
    for first in 1..5 {
        for second in 1..5 {
            let below = first == second || first == 4;
            let expected = below.then_some(10).ok_or(Refusal::NotBelow);
            assert_eq!(over(difference, &table, first, second), expected);
        }
    }
    assert_eq!(over(generalize, &table, 1, 2), Ok(10));
}

/// Paper 6: six types, of which 2, 3 and 4 are unordered above 1.
#[test]
fn three_types_over_one_keep_the_refusal() {
    let table = random::three_over_one();
    for first in 1..6 {
        for second in 1..6 {
            let expected = match (first, second) {
                (2..=4, 1) => Err(Refusal::NoWantedType),
                (first, second) if first == second || second == 1 || first == 5 => Ok(10),
                _ => Err(Refusal::NotBelow),
            };
            assert_eq!(over(difference, &table, first, second), expected);
        }
    }
}

#[test]
fn case_13_two_types_without_a_join() {
    use record_engine::TableFault;
    let table = random::TableBytes {
        n: 6,
        bytes: record_engine::table(&[0x01, 0x03, 0x05, 0x0F, 0x17, 0x3F]).expect("6 types"),
    };
    let refused = Err(Refusal::Table(TableFault::Bounds));
    assert_eq!(over(generalize, &table, 1, 2), refused);
    assert_eq!(over(difference, &table, 5, 5), refused);
}

#[test]
fn case_14_chains_up_to_and_past_255_nodes() {
    let table = random::diamond();
    let second = record::write(&random::chain_graph(128, 1, 3));
    for (nodes, expected) in [(128, Ok(1 + 9 * 255 + 254)), (129, Err(Refusal::TooLarge))] {
        let first = record::write(&random::chain_graph(nodes, 0, 3));
        let mut output = vec![0; LONGEST_RECORD];
        let combined = unify(table.n, &table.bytes, &first, &second, &mut output);
        assert_eq!(combined, expected, "{nodes} nodes");
    }
}

#[test]
fn case_15_an_output_one_byte_short() {
    let table = random::diamond();
    for (call, first, second) in [
        (generalize as Writes, P, Q),
        (unify, P, "top[0: a, 1: top]"),
        (difference, P, R),
    ] {
        let whole = written(call, first, second).expect("a result");
        let records = [first, second].map(record_of);
        let mut output = vec![7; whole.len()];
        let short = &mut output[..whole.len() - 1];
        let refused = call(table.n, &table.bytes, &records[0], &records[1], short);
        assert_eq!(refused, Err(Refusal::NoRoom));
        assert!(output.iter().all(|&byte| byte == 7), "unchanged");
        let exact = call(table.n, &table.bytes, &records[0], &records[1], &mut output);
        assert_eq!(exact, Ok(whole.len()));
        assert_eq!(output, whole);
    }
}

#[test]
fn a_difference_restores_its_graph() {
    for (general, specific) in [
        (P, R),
        (Q, R),
        (Q, P),
        ("top", "a[0: X b[2: a], 1: X]"),
        ("top[0: top, 2: top[1: top]]", "top[0: X a, 2: b[1: X]]"),
    ] {
        let rest = written(difference, general, specific).expect("below");
        let table = random::diamond();
        let mut output = vec![0; LONGEST_RECORD];
        let length = unify(
            table.n,
            &table.bytes,
            &record_of(general),
            &rest,
            &mut output,
        );
        let length = length.expect("a combination");
        assert_eq!(output[..length], record_of(specific), "{specific}");
    }
}

/// Paper 7.
#[test]
fn ranges_that_overlap_and_ranges_that_do_not() {
    let combined = written(unify, "a{10..100}", "top{50..200}");
    assert_eq!(combined, Ok(record_of("a{50..100}")));
    let combined = written(unify, "a{0..50}", "a{50..255}");
    assert_eq!(combined, Ok(record_of("a{50..50}")));
    let apart = written(unify, "a{0..50}", "a{51..255}");
    assert_eq!(apart, Err(Refusal::Clash));
    // Two that a third graph makes one, and a loop before them.
    let apart = written(unify, P, "top[0: top{0..50}, 1: top{51..255}]");
    assert_eq!(apart, Err(Refusal::Clash));
    let looping = written(unify, P, "top[0: Z top{0..50}, 1: top{51..255}[0: Z]]");
    assert_eq!(looping, Err(Refusal::Cycle));
}

#[test]
fn a_common_part_widens() {
    let common = written(generalize, "a{10..20}[0: b]", "a{90..100}[0: b{7..7}]");
    assert_eq!(common, Ok(record_of("a{10..100}[0: b]")));
    let full = written(generalize, "a{0..20}", "b{90..255}");
    assert_eq!(full, Ok(record_of("top")));
}

#[test]
fn a_difference_keeps_a_node_for_its_range_alone() {
    let general = "a[0: b{10..200}, 1: b]";
    let specific = "a[0: b{10..100}, 1: b]";
    let rest = written(difference, general, specific);
    assert_eq!(rest, Ok(record_of("top[0: top{0..100}]")));
    let both_ends = written(difference, "a{5..200}", "a{10..100}");
    assert_eq!(both_ends, Ok(record_of("top{10..100}")));
    assert_eq!(
        written(difference, specific, specific),
        Ok(record_of("top"))
    );
    assert_eq!(
        written(difference, specific, general),
        Err(Refusal::NotBelow)
    );
}

#[test]
fn a_full_range_spelled_out_is_not_written() {
    let table = random::diamond();
    let graph = notation::graph(3, "a[0: b{1..2}, 1: top]");
    let spelled = record::write_spelling(&graph, |_| true);
    let plain = record::write(&graph);
    assert_eq!([spelled.len(), plain.len()], [36, 32]);
    let mut output = vec![7; spelled.len()];
    let length = rewrite(table.n, &table.bytes, &spelled, &mut output);
    assert_eq!(length, Ok(plain.len()));
    assert_eq!(output[..plain.len()], plain);
    assert_eq!(output[plain.len()..], [7; 4]);
}

#[test]
fn the_order_of_ranges() {
    for (first, second, expected) in [
        ("a{10..20}", "a{10..20}", Order::Same),
        ("a{10..20}", "top{10..21}", Order::Under),
        ("a", "a{0..254}", Order::Above),
        ("a{10..20}", "a{11..21}", Order::Neither),
        ("a", "top{10..20}", Order::Neither),
        ("top[0: a{3..3}]", "top[0: a{3..4}]", Order::Under),
    ] {
        assert_eq!(ordered(first, second), expected, "{first} and {second}");
    }
}
