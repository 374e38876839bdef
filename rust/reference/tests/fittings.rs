//! The fifteen cases of document 01's "Fittings to check", with exact replies
//! and bytes. Expected records are written out in hexadecimal.

use reference::calls::{self, Call, written};
use reference::graph::Graph;
use reference::notation::{bytes, graph};
use reference::random::{self, TableBytes};
use reference::reply::{Refusal, Reply};
use reference::{mapcalc, record};

const P: &str = "top[0: X top, 1: X]";
const Q: &str = "top[0: top, 1: top]";
const R: &str = "top[0: X a, 1: X]";

const P_BYTES: &str = "02 03 0300000000000000 01 01 03 0000000000000000";
const Q_BYTES: &str = "03 03 0300000000000000 01 02 03 0000000000000000 03 0000000000000000";
const R_BYTES: &str = "02 03 0300000000000000 01 01 01 0000000000000000";
const LONE_TOP: &str = "01 03 0000000000000000";

fn diamond() -> TableBytes {
    let rows = "0100000000000000 0300000000000000 0500000000000000 0F00000000000000";
    TableBytes {
        n: 4,
        bytes: bytes(rows),
    }
}

/// The record of a graph over the diamond.
fn over_diamond(text: &str) -> Vec<u8> {
    record::write(&graph(3, text))
}

fn on_diamond(call: Call, first: &str, second: &str) -> Result<Vec<u8>, Refusal> {
    let table = diamond();
    let (first, second) = (over_diamond(first), over_diamond(second));
    written(call, table.n, &table.bytes, &first, &second)
}

#[test]
fn notation_and_tables_are_those_of_the_document() {
    assert_eq!(over_diamond(P), bytes(P_BYTES));
    assert_eq!(over_diamond(Q), bytes(Q_BYTES));
    assert_eq!(over_diamond(R), bytes(R_BYTES));
    assert_eq!(random::diamond(), diamond());
    assert_eq!(record::LONGEST_RECORD, 4854);
}

#[test]
fn case_1_common_part_without_agreement_is_a_lone_top() {
    let result = on_diamond(calls::generalize, "a[0: b]", "b");
    assert_eq!(result, Ok(bytes(LONE_TOP)));
}

#[test]
fn case_2_a_with_b_clashes() {
    let result = on_diamond(calls::unify, "a", "b");
    assert_eq!(result, Err(Refusal::Clash));
    assert_eq!(Refusal::Clash.number(), 10);
}

#[test]
fn case_3_sharing_merges_types() {
    let result = on_diamond(calls::unify, P, "top[0: a, 1: top]");
    assert_eq!(result, Ok(bytes(R_BYTES)));
}

#[test]
fn case_4_sharing_makes_a_clash() {
    let result = on_diamond(calls::unify, P, "top[0: a, 1: b]");
    assert_eq!(result, Err(Refusal::Clash));
}

#[test]
fn case_5_a_loop_is_told_before_a_clash() {
    let result = on_diamond(calls::unify, P, "top[0: Z a, 1: b[0: Z]]");
    assert_eq!(result, Err(Refusal::Cycle));
    assert_eq!(Refusal::Cycle.number(), 9);
}

#[test]
fn case_6_common_part_shares_only_what_both_share() {
    assert_eq!(on_diamond(calls::generalize, P, Q), Ok(bytes(Q_BYTES)));
    assert_eq!(on_diamond(calls::generalize, Q, P), Ok(bytes(Q_BYTES)));
}

#[test]
fn case_7_difference_keeps_one_way_to_a_type() {
    let expected = "02 03 0100000000000000 01 01 0000000000000000";
    assert_eq!(on_diamond(calls::difference, P, R), Ok(bytes(expected)));
    assert_eq!(over_diamond("top[0: a]"), bytes(expected));
}

#[test]
fn case_7_as_the_small_program_prints_it() {
    let table = diamond();
    let input = mapcalc::input(3, 4, &table.bytes, &bytes(P_BYTES), &bytes(R_BYTES));
    let expected = "ok 20 0203010000000000000001010000000000000000";
    assert_eq!(mapcalc::line(&input), expected);
}

#[test]
fn case_8_difference_keeps_sharing_that_is_new() {
    assert_eq!(on_diamond(calls::difference, Q, R), Ok(bytes(R_BYTES)));
}

#[test]
fn case_9_difference_of_a_graph_from_itself_is_a_lone_top() {
    for text in [P, Q, R, "a", "top", "a[0: b[5: X a], 63: X]", "b[7: b]"] {
        let result = on_diamond(calls::difference, text, text);
        assert_eq!(result, Ok(bytes(LONE_TOP)), "{text}");
    }
}

#[test]
fn case_10_difference_wants_the_second_below_the_first() {
    let result = on_diamond(calls::difference, P, Q);
    assert_eq!(result, Err(Refusal::NotBelow));
    assert_eq!(Refusal::NotBelow.number(), 12);
}

#[test]
fn case_11_one_link_of_each_group_is_kept() {
    let s = "top[0: X top, 1: X, 2: X]";
    let g = "top[0: X top, 1: X, 2: top]";
    let expected = "02 03 0500000000000000 01 01 03 0000000000000000";
    assert_eq!(on_diamond(calls::difference, g, s), Ok(bytes(expected)));
    assert_eq!(over_diamond("top[0: X top, 2: X]"), bytes(expected));
}

#[test]
fn case_12_three_middle_types_have_wanted_types() {
    let rows = "0100000000000000 0300000000000000 0500000000000000 0900000000000000
                1F00000000000000";
    let table = TableBytes {
        n: 5,
        bytes: bytes(rows),
    };
    assert_eq!(random::middles(3), table);
    assert!(!table.accepted().admits_differences());
    // Paper 6: no difference gives 13, and a graph's from itself is a lone top.
    for (g, s, expected) in [
        ("4", "4", Ok("4")),
        ("1[0: 2]", "1[0: 2]", Ok("4")),
        ("4", "1", Ok("1")),
        ("1", "2", Err(Refusal::NotBelow)),
        ("4[0: 4]", "3[0: 1]", Ok("3[0: 1]")),
    ] {
        let (g, s) = (record::write(&graph(4, g)), record::write(&graph(4, s)));
        let result = written(calls::difference, 5, &table.bytes, &g, &s);
        assert_eq!(
            result,
            expected.map(|graph_of| record::write(&graph(4, graph_of)))
        );
    }
    // The table is accepted: the other calls give results.
    let one = record::write(&Graph::lone(1));
    let two = record::write(&Graph::lone(2));
    let common = written(calls::generalize, 5, &table.bytes, &one, &two);
    assert_eq!(common, Ok(bytes("01 04 0000000000000000")));
}

/// Paper 6: with g a lone 2 and s a lone 1, the types 1, 3 and 4 all restore and
/// none is the greatest.
#[test]
fn three_types_over_one_keep_the_refusal() {
    let table = random::three_over_one();
    assert_eq!(
        table.bytes,
        bytes(
            "0100000000000000 0300000000000000 0700000000000000
             0B00000000000000 1300000000000000 3F00000000000000"
        )
    );
    let [one, two] = [1, 2].map(|of_type| record::write(&Graph::lone(of_type)));
    let result = |g: &[u8], s: &[u8]| written(calls::difference, 6, &table.bytes, g, s);
    assert_eq!(result(&two, &one), Err(Refusal::NoWantedType));
    assert_eq!(Refusal::NoWantedType.number(), 13);
    // 12 comes first, and equal types want the greatest.
    assert_eq!(result(&one, &two), Err(Refusal::NotBelow));
    assert_eq!(result(&one, &one), Ok(record::write(&Graph::lone(5))));
}

/// Paper 7: two ranges that overlap and two that do not, a common part that widens, a
/// difference that keeps a node for its range alone, a full range spelled out.
#[test]
fn level_ranges() {
    let combined = on_diamond(calls::unify, "a{10..100}", "top{50..200}");
    assert_eq!(combined, Ok(bytes("01 81 32 64 0000000000000000")));
    let clash = on_diamond(calls::unify, "a{10..100}", "a{101..200}");
    assert_eq!(clash, Err(Refusal::Clash));
    let common = on_diamond(calls::generalize, "a{10..20}", "a{90..100}");
    assert_eq!(common, Ok(bytes("01 81 0A 64 0000000000000000")));
    // One end is shared and need not be said again; the root has nothing to say.
    let rest = on_diamond(
        calls::difference,
        "a[0: b{10..200}, 1: b]",
        "a[0: b{10..100}, 1: b]",
    );
    let expected = "02 03 0100000000000000 01 83 00 64 0000000000000000";
    assert_eq!(rest, Ok(bytes(expected)));
    assert_eq!(over_diamond("top[0: top{0..100}]"), bytes(expected));
    let table = diamond();
    let mut output = [0xEE; 12];
    let spelled_out = bytes("01 81 00 FF 0000000000000000");
    let reply = calls::rewrite(4, &table.bytes, &spelled_out, &mut output);
    assert_eq!(reply, Reply::Length(10));
    assert_eq!(output[..], bytes("01 01 0000000000000000 EE EE"));
}

#[test]
fn case_13_two_types_with_two_least_upper_bounds() {
    let rows = "0100000000000000 0300000000000000 0500000000000000
                0F00000000000000 1700000000000000 3F00000000000000";
    let record = bytes("01 05 0000000000000000");
    let mut output = [0xEE; 10];
    let reply = calls::rewrite(6, &bytes(rows), &record, &mut output);
    assert_eq!(reply.number(), Some(3));
    assert_eq!(output, [0xEE; 10]);
    let result = written(calls::generalize, 6, &bytes(rows), &record, &record);
    assert_eq!(result.map_err(Refusal::number), Err(3));
}

#[test]
fn case_14_a_combination_of_255_nodes_and_one_of_256() {
    let table = diamond();
    let chain = |nodes: usize, feature: u8| record::write(&random::chain_graph(nodes, feature, 3));
    let result = written(
        calls::unify,
        4,
        &table.bytes,
        &chain(128, 0),
        &chain(128, 1),
    );
    let mut expected = bytes("FF 03 0300000000000000 01 80");
    for node in 1..127 {
        expected.extend(bytes("03 0100000000000000"));
        expected.push(node + 1);
    }
    expected.extend(bytes("03 0000000000000000"));
    for node in 128..254 {
        expected.extend(bytes("03 0200000000000000"));
        expected.push(node + 1);
    }
    expected.extend(bytes("03 0000000000000000"));
    assert_eq!(expected.len(), 1 + 9 * 255 + 254);
    assert_eq!(result, Ok(expected));

    let result = written(
        calls::unify,
        4,
        &table.bytes,
        &chain(129, 0),
        &chain(128, 1),
    );
    assert_eq!(result, Err(Refusal::TooLarge));
    assert_eq!(Refusal::TooLarge.number(), 11);
}

#[test]
fn case_15_an_output_one_byte_short_and_one_that_fits() {
    let table = diamond();
    let cases: [(Call, &str, &str, &str); 4] = [
        (calls::generalize, P, Q, Q_BYTES),
        (calls::unify, P, R, R_BYTES),
        (calls::difference, Q, R, R_BYTES),
        (calls::difference, P, P, LONE_TOP),
    ];
    for (call, first, second, expected) in cases {
        let (first, second) = (over_diamond(first), over_diamond(second));
        let expected = bytes(expected);
        let length = expected.len();

        let mut short = vec![0xEE; length - 1];
        let reply = call(4, &table.bytes, &first, &second, &mut short);
        assert_eq!(reply, Reply::Refused(Refusal::NoRoom));
        assert_eq!(reply.number(), Some(8));
        assert_eq!(short, vec![0xEE; length - 1]);

        let mut exact = vec![0xEE; length];
        let reply = call(4, &table.bytes, &first, &second, &mut exact);
        assert_eq!(reply, Reply::Length(length));
        assert_eq!(exact, expected);

        let mut longer = vec![0xEE; length + 3];
        let reply = call(4, &table.bytes, &first, &second, &mut longer);
        assert_eq!(reply, Reply::Length(length));
        assert_eq!(longer[..length], expected);
        assert_eq!(longer[length..], [0xEE; 3]);
    }
}
