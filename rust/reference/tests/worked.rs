//! Examples worked by hand, at points where the rules of document 01 are easily misread: the
//! written numbering, ties between links, transitively closed groups, kept top nodes, wanted types
//! and ranges, and sharing in the common part.

use reference::calls::{self, Call, written};
use reference::graph::Graph;
use reference::notation::{bytes, graph};
use reference::order::Order;
use reference::random::{self, TableBytes};
use reference::record;
use reference::reply::{Refusal, Reply};

/// A call over a table; the graphs are given in the document's notation.
fn make(table: &TableBytes, call: Call, first: &str, second: &str) -> Result<Vec<u8>, Refusal> {
    let top = (table.n - 1) as u8;
    let (first, second) = (graph(top, first), graph(top, second));
    let (first, second) = (record::write(&first), record::write(&second));
    written(call, table.n, &table.bytes, &first, &second)
}

/// The call over the diamond gives the graph, which is noted as it is written.
fn assert_gives(call: Call, first: &str, second: &str, expected: &str) {
    let expected = record::write(&graph(3, expected));
    assert_eq!(make(&random::diamond(), call, first, second), Ok(expected));
}

fn rewritten(record: &[u8]) -> Vec<u8> {
    let mut output = vec![0; record.len()];
    let table = random::diamond();
    let reply = calls::rewrite(table.n, &table.bytes, record, &mut output);
    assert_eq!(reply, Reply::Length(record.len()));
    output
}

#[test]
fn all_below_a_link_is_numbered_before_the_next_link() {
    // top[0: a[0: top], 1: b], numbered breadth first and as written.
    let breadth_first = "04 03 0300000000000000 01 02 01 0100000000000000 03
                         02 0000000000000000 03 0000000000000000";
    let depth_first = "04 03 0300000000000000 01 03 01 0100000000000000 02
                       03 0000000000000000 02 0000000000000000";
    assert_eq!(rewritten(&bytes(breadth_first)), bytes(depth_first));
    assert_eq!(rewritten(&bytes(depth_first)), bytes(depth_first));
}

#[test]
fn the_lowest_feature_is_followed_first() {
    // top[8: a, 7: b, 63: top]: features 7, 8, 63 in three bytes of the map.
    let other = "04 03 8001000000000080 03 01 02
                 01 0000000000000000 03 0000000000000000 02 0000000000000000";
    let expected = "04 03 8001000000000080 01 02 03
                    02 0000000000000000 01 0000000000000000 03 0000000000000000";
    assert_eq!(rewritten(&bytes(other)), bytes(expected));
}

#[test]
fn a_shared_node_is_numbered_at_its_first_visit() {
    // top[0: a[1: X b], 1: X]: X is met below feature 0 first.
    let other = "03 03 0300000000000000 02 01
                 02 0000000000000000 01 0200000000000000 01";
    let expected = "03 03 0300000000000000 01 02
                    01 0200000000000000 02 02 0000000000000000";
    assert_eq!(rewritten(&bytes(other)), bytes(expected));
}

#[test]
fn links_are_ordered_by_parent_before_feature() {
    // X is entered by feature 5 of the root (node 0) and by feature 0 of node 1.
    // The path 0·0 is the lesser path, but the link from node 0 is the lesser link.
    assert_gives(
        calls::difference,
        "top[0: top[0: X top], 5: X]",
        "top[0: top[0: X a], 5: X]",
        "top[5: a]",
    );
}

#[test]
fn links_are_ordered_by_the_numbers_as_written() {
    let general = record::write(&graph(3, "top[0: top[0: X top], 1: top[0: X]]"));
    // top[0: top[0: X a], 1: top[0: X]] with the node below feature 0 numbered last.
    let specific = bytes(
        "04 03 0300000000000000 03 01 03 0100000000000000 02
         01 0000000000000000 03 0100000000000000 02",
    );
    let table = random::diamond();
    let result = written(calls::difference, 4, &table.bytes, &general, &specific);
    let expected = record::write(&graph(3, "top[0: top[0: a]]"));
    assert_eq!(result, Ok(expected));
}

#[test]
fn groups_are_closed_transitively() {
    // The link from Y to X lies under two links of g, one with each of the others.
    assert_gives(
        calls::difference,
        "top[0: top[0: U top], 1: top[0: V top], 2: U, 3: V]",
        "top[0: Y top[0: X top], 1: Y, 2: X, 3: X]",
        "top[0: Y top, 1: Y]",
    );
}

#[test]
fn sharing_that_the_merge_passes_down_is_not_kept() {
    assert_gives(
        calls::difference,
        "top[0: top[0: top[0: top]], 1: top[0: top[0: top]]]",
        "top[0: X top[0: top[0: top]], 1: X]",
        "top[0: X top, 1: X]",
    );
}

#[test]
fn a_lone_top_that_nothing_lies_over_is_kept() {
    assert_gives(calls::difference, "top", "top[0: top]", "top[0: top]");
    assert_gives(
        calls::difference,
        "a[1: b]",
        "a[1: b[0: top], 2: top]",
        "top[1: top[0: top], 2: top]",
    );
}

#[test]
fn a_way_to_a_kept_link_is_kept() {
    assert_gives(
        calls::difference,
        "a[0: b[1: a[2: top]], 3: b]",
        "a[0: b[1: a[2: b]], 3: b]",
        "top[0: top[1: top[2: b]]]",
    );
}

#[test]
fn one_link_covered_and_one_not_are_two_groups() {
    assert_gives(
        calls::difference,
        "top[0: top]",
        "top[0: X top, 1: X]",
        "top[0: X top, 1: X]",
    );
}

#[test]
fn the_greatest_type_is_wanted() {
    // Subsets of three atoms: {0, 1} over {0} wants {0, 2}.
    let cube = random::boolean(3);
    let lone = |node_type: u8| record::write(&Graph::lone(node_type));
    assert_eq!(make(&cube, calls::difference, "3", "1"), Ok(lone(5)));
    // {0, 1} and {0, 2} together over {0} leave nothing to want.
    let result = make(&cube, calls::difference, "7[0: 3, 1: 5]", "7[0: X 1, 1: X]");
    let expected = record::write(&graph(7, "7[0: X 7, 1: X]"));
    assert_eq!(result, Ok(expected));
    // On a chain the type itself is wanted, or top where it is there.
    let chain = random::chain(5);
    assert_eq!(make(&chain, calls::difference, "3", "2"), Ok(lone(2)));
    assert_eq!(make(&chain, calls::difference, "2", "2"), Ok(lone(4)));
}

#[test]
fn different_nodes_may_lie_over_one() {
    let table = random::diamond();
    let general = record::write(&graph(3, "top[0: a, 1: top]"));
    let specific = record::write(&graph(3, "top[0: X a, 1: X]"));
    let below = calls::order(4, &table.bytes, &specific, &general);
    assert_eq!(below, Reply::Order(Order::Under));
    let above = calls::order(4, &table.bytes, &general, &specific);
    assert_eq!(above, Reply::Order(Order::Above));
}

#[test]
fn the_common_part_does_not_share_what_one_side_shares() {
    // Three paths to one node on one side, two of them shared on the other.
    assert_gives(
        calls::generalize,
        "top[0: X a, 1: X, 2: X]",
        "top[0: Y a, 1: top, 2: Y]",
        "top[0: Z a, 1: top, 2: Z]",
    );
    // What hangs below comes twice too.
    assert_gives(
        calls::generalize,
        "top[0: X a[3: b], 1: X]",
        "top[0: a[3: b], 1: a[3: top]]",
        "top[0: a[3: b], 1: a[3: top]]",
    );
}

#[test]
fn a_combination_merges_below_what_it_merges() {
    assert_gives(
        calls::unify,
        "top[0: X top, 1: X]",
        "top[0: top[2: a[3: top]], 1: top[2: top[3: b]]]",
        "top[0: X top[2: a[3: b]], 1: X]",
    );
}

#[test]
fn a_loop_far_below_is_told_before_a_clash_at_the_root() {
    let result = make(
        &random::diamond(),
        calls::unify,
        "a[0: top[0: X top, 1: X]]",
        "b[0: top[0: Z top, 1: top[7: Z]]]",
    );
    assert_eq!(result, Err(Refusal::Cycle));
}

/// The order over the diamond.
fn ordered(first: &str, second: &str) -> Order {
    let table = random::diamond();
    let [first, second] = [first, second].map(|text| record::write(&graph(3, text)));
    match calls::order(table.n, &table.bytes, &first, &second) {
        Reply::Order(order) => order,
        reply => panic!("{reply:?}"),
    }
}

#[test]
fn a_range_belongs_to_the_meaning_as_the_type_does() {
    assert_eq!(ordered("a{10..20}", "a{10..20}"), Order::Same);
    assert_eq!(ordered("a{10..20}", "a{10..21}"), Order::Under);
    assert_eq!(ordered("a{9..20}", "a{10..20}"), Order::Above);
    assert_eq!(ordered("a{10..20}", "a{11..21}"), Order::Neither);
    assert_eq!(ordered("a{10..20}", "a{30..40}"), Order::Neither);
    // Type and range must both be below.
    assert_eq!(ordered("a{10..20}", "top"), Order::Under);
    assert_eq!(ordered("a", "top{10..20}"), Order::Neither);
    assert_eq!(ordered("a{10..20}", "b{0..30}"), Order::Neither);
    // The full range is the same spelled out or not.
    assert_eq!(ordered("a{0..255}", "a"), Order::Same);
    // Below the root too.
    assert_eq!(
        ordered(
            "top[0: X a{10..20}, 1: X]",
            "top[0: a{10..20}, 1: a{0..20}]"
        ),
        Order::Under
    );
}

#[test]
fn a_range_of_one_level_is_not_empty() {
    assert_gives(calls::unify, "a{0..7}", "a{7..255}", "a{7..7}");
    assert_gives(calls::unify, "a{0..0}", "a", "a{0..0}");
    assert_gives(calls::unify, "a{255..255}", "a", "a{255..255}");
    let apart = make(&random::diamond(), calls::unify, "a{0..7}", "a{8..255}");
    assert_eq!(apart, Err(Refusal::Clash));
}

#[test]
fn a_combination_overlaps_all_ranges_of_a_class() {
    assert_gives(
        calls::unify,
        "top[0: X top{0..200}, 1: X]",
        "top[0: top{10..255}, 1: a{5..100}]",
        "top[0: X a{10..100}, 1: X]",
    );
    // Each two overlap with the shared node, and not with each other.
    let clash = make(
        &random::diamond(),
        calls::unify,
        "top[0: X top, 1: X]",
        "top[0: top{0..99}, 1: top{100..255}]",
    );
    assert_eq!(clash, Err(Refusal::Clash));
}

#[test]
fn a_loop_is_told_before_ranges_that_do_not_overlap() {
    let result = make(
        &random::diamond(),
        calls::unify,
        "top{0..5}[0: X top, 1: X]",
        "top{6..9}[0: Z top, 1: top[0: Z]]",
    );
    assert_eq!(result, Err(Refusal::Cycle));
}

#[test]
fn a_common_part_has_the_smallest_range_holding_both() {
    assert_gives(
        calls::generalize,
        "a{10..20}[0: b{7..7}, 1: a{0..9}]",
        "b{15..30}[0: b{9..9}, 1: a{200..255}]",
        "top{10..30}[0: b{7..9}, 1: a]",
    );
}

#[test]
fn a_difference_wants_the_widest_range() {
    for (g, s, wanted) in [
        ("a", "a{10..20}", "top{10..20}"),
        ("a{10..20}", "a{10..20}", "top"),
        ("a{5..20}", "a{10..20}", "top{10..255}"),
        ("a{10..30}", "a{10..20}", "top{0..20}"),
        ("a{5..30}", "a{10..20}", "top{10..20}"),
        ("top{5..30}", "a{5..30}", "a"),
        ("a{5..10}", "a{5..5}", "top{0..5}"),
    ] {
        assert_gives(calls::difference, g, s, wanted);
    }
}

#[test]
fn a_difference_keeps_a_node_for_its_range_alone() {
    assert_gives(
        calls::difference,
        "a[0: b[1: a], 2: b]",
        "a[0: b[1: a{0..9}], 2: b]",
        "top[0: top[1: top{0..9}]]",
    );
    // The ranges of all nodes of g over one of s count together.
    assert_gives(
        calls::difference,
        "top[0: top{10..255}, 1: top{0..20}]",
        "top[0: X top{10..20}, 1: X]",
        "top[0: X top, 1: X]",
    );
    assert_gives(
        calls::difference,
        "top[0: top{10..255}, 1: top{0..20}]",
        "top[0: X top{10..15}, 1: X]",
        "top[0: X top{0..15}, 1: X]",
    );
}

#[test]
fn a_range_comes_before_the_map_and_behind_the_type() {
    // a{10..200}[7: b{0..5}], and 63: top with the full range.
    let written = "03 81 0A C8 8000000000000080 01 02
                   82 00 05 0000000000000000 03 0000000000000000";
    let spelled_out = "03 81 0A C8 8000000000000080 02 01
                       83 00 FF 0000000000000000 82 00 05 0000000000000000";
    assert_eq!(
        record::write(&graph(3, "a{10..200}[7: b{0..5}, 63: top]")),
        bytes(written)
    );
    assert_eq!(rewritten(&bytes(written)), bytes(written));
    let table = random::diamond();
    let mut output = bytes(spelled_out);
    let reply = calls::rewrite(table.n, &table.bytes, &bytes(spelled_out), &mut output);
    assert_eq!(reply, Reply::Length(bytes(written).len()));
    assert_eq!(output[..bytes(written).len()], bytes(written));
    assert_eq!(output[bytes(written).len()..], [0, 0]);
}
