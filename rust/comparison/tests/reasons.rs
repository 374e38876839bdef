//! The reasons for the links of a difference (Paper 13). The proved engine gets the cases of
//! document 01 and other cases by hand. On random pairs, which are small, large, damaged, or have
//! many shared nodes, the engine is compared with the reference.

use comparison::cases::record_of;
use comparison::{Comparison, DIFFERENCE_EXPLAINED, compare, compare_pairs, on_stated_stack};
use record_engine::{LONGEST_RECORD, MOST_LINKS, Reason, Refusal, difference_explained};
use reference::random::{self, Ranges, Shape, Xorshift};
use reference::record;

const P: &str = "top[0: X top, 1: X]";
const Q: &str = "top[0: top, 1: top]";
const R: &str = "top[0: X a, 1: X]";

/// The difference over the diamond, and its reasons, which stand before bytes of 0.
fn explained(general: &str, specific: &str) -> (Vec<u8>, Vec<Reason>) {
    let table = random::diamond();
    let [general, specific] = [general, specific].map(record_of);
    let mut output = vec![0; LONGEST_RECORD];
    let mut reasons = [0; MOST_LINKS];
    let length = difference_explained(
        table.n,
        &table.bytes,
        &general,
        &specific,
        &mut output,
        &mut reasons,
    );
    output.truncate(length.expect("a difference"));
    let reasons = reasons
        .into_iter()
        .map_while(|byte| Reason::try_from(byte).ok());
    (output, reasons.collect())
}

#[test]
fn differences_by_hand() {
    use Reason::{Bare, Groups, Wanted};
    let cases: [(&str, &str, &str, &[Reason]); 12] = [
        // Cases 7, 8, 9 and 11.
        (P, R, "top[0: a]", &[Wanted]),
        (Q, R, R, &[Groups, Groups]),
        (R, R, "top", &[]),
        (
            "top[0: X top, 1: X, 2: top]",
            "top[0: X top, 1: X, 2: X]",
            "top[0: X top, 2: X]",
            &[Groups, Groups],
        ),
        // Nothing lies over a link, or over one of two that enter a node.
        ("top", "top[0: top]", "top[0: top]", &[Bare]),
        ("top", R, R, &[Bare, Bare]),
        ("top[0: top]", P, P, &[Groups, Bare]),
        // For what hangs below, and for a range.
        (
            "a[1: b]",
            "a[1: b[0: top], 2: top]",
            "top[1: top[0: top], 2: top]",
            &[Wanted, Bare, Bare],
        ),
        (
            "a[0: b{10..200}, 1: b]",
            "a[0: b{10..100}, 1: b]",
            "top[0: top{0..100}]",
            &[Wanted],
        ),
        (
            "top[0: top[7: top], 1: top]",
            "top[0: X a{1..2}[7: b], 1: X]",
            "top[0: X a{1..2}[7: b], 1: X]",
            &[Groups, Groups, Wanted],
        ),
        // The specific record numbers U, V and W, the difference U, W and V.
        (
            "top[0: U top[0: V top, 1: top], 1: V]",
            "top[0: U top[0: V a, 1: b], 1: V]",
            "top[0: U top[1: W b], 1: V a]",
            &[Wanted, Wanted, Wanted],
        ),
        (
            "top[0: U top[0: V top, 1: top[0: top]], 1: V]",
            "top[0: U top[0: V a[0: top], 1: b[0: a]], 1: V]",
            "top[0: U top[1: W b[0: a]], 1: V a[0: top]]",
            &[Wanted, Wanted, Wanted, Wanted, Bare],
        ),
    ];
    for (general, specific, rest, reasons) in cases {
        let expected = (record_of(rest), reasons.to_vec());
        assert_eq!(explained(general, specific), expected, "{specific}");
    }
}

/// Case 8 with outputs of many lengths: 8 goes before 22, and a refusal changes no byte
/// of either.
#[test]
fn outputs_of_every_length() {
    let table = random::diamond();
    let [general, specific] = [Q, R].map(record_of);
    let length = specific.len();
    for room in [0, 1, length - 1, length, length + 1, LONGEST_RECORD] {
        for count in [0, 1, 2, 3, MOST_LINKS, MOST_LINKS + 1] {
            let mut output = vec![7; room];
            let mut reasons = vec![7; count];
            let answer = difference_explained(
                table.n,
                &table.bytes,
                &general,
                &specific,
                &mut output,
                &mut reasons,
            );
            let expected = match (room < length, count < 2) {
                (true, _) => Err(Refusal::NoRoom),
                (false, true) => Err(Refusal::NoReasonRoom),
                (false, false) => Ok(length),
            };
            assert_eq!(answer, expected, "{room} and {count} bytes");
            let written = expected.map_or([0, 0], |length| [length, 2]);
            assert_eq!(output[..written[0]], specific[..written[0]]);
            assert_eq!(reasons[..written[1]], [2, 2][..written[1]]);
            let mut beyond = output[written[0]..].iter().chain(&reasons[written[1]..]);
            assert!(beyond.all(|&byte| byte == 7), "unchanged");
        }
    }
    assert_eq!(Refusal::NoReasonRoom.number(), 22);
}

#[test]
fn the_reasons_of_random_pairs() {
    let compared = compare_pairs(DIFFERENCE_EXPLAINED, 211, 10_000, Ranges::Absent);
    compared.assert_replies(&[0, 1, 2, 3, 4, 5, 6, 7, 8, 12, 13, 22], 15);
    compared.assert_reasons(2_000);
}

#[test]
fn the_reasons_of_random_pairs_with_ranges() {
    let compared = compare_pairs(DIFFERENCE_EXPLAINED, 213, 10_000, Ranges::Present);
    compared.assert_replies(&[0, 1, 2, 3, 4, 5, 6, 7, 8, 12, 13, 22], 15);
    compared.assert_reasons(2_000);
}

/// The general graph has much of the sharing of the specific one and less of its labels,
/// so that the order of reasons is often not that of the links in the specific record.
#[test]
fn the_reasons_of_graphs_with_many_shared_nodes() {
    let compared = compare(DIFFERENCE_EXPLAINED, 215, 2_000, |compared, random| {
        let table = random::brouwer_table(random);
        let accepted = table.accepted();
        for ranges in [Ranges::Absent, Ranges::Present] {
            let shape = Shape::shared(random).ranged(random, ranges);
            let s = random::graph(random, table.n, &shape);
            let g = random::graph_well_above(random, &accepted, &s);
            let [g, s] = [g, s].map(|graph| random::record_of(random, &graph, ranges));
            compared.check(&table, &[&g, &s]);
        }
    });
    compared.assert_replies(&[0, 8, 22], 1_500);
    compared.assert_reasons(4_000);
}

/// Over tables that admit no differences: 13 and lengths both come up often.
#[test]
fn the_reasons_over_rival_types() {
    let compared = compare(DIFFERENCE_EXPLAINED, 217, 3_000, |compared, random| {
        let table = random::rival_table(random);
        let accepted = table.accepted();
        for ranges in [Ranges::Absent, Ranges::Present] {
            let shape = Shape::small(random, 9, 4).ranged(random, ranges);
            let (g, s) = random::low_pair(random, &accepted, &shape);
            let [g, s] = [g, s].map(|graph| random::record_of(random, &graph, ranges));
            compared.check(&table, &[&g, &s]);
        }
    });
    compared.assert_replies(&[0, 8, 13, 22], 1_000);
    compared.assert_reasons(1_000);
}

/// Pairs of graphs with up to 255 nodes and 2,048 links.
#[test]
fn the_reasons_of_large_pairs() {
    let mut compared = Comparison::new(DIFFERENCE_EXPLAINED, 219);
    let random = &mut Xorshift::stored(220);
    for round in 0..200 {
        let ranges = [Ranges::Absent, Ranges::Present][round % 2];
        let table = random::valid_table(random);
        let shape = Shape::large(random).ranged(random, ranges);
        let s = random::graph(random, table.n, &shape);
        let g = random::graph_well_above(random, &table.accepted(), &s);
        let [g, s] = [g, s].map(|graph| random::record_of(random, &graph, ranges));
        compared.check(&table, &[&g, &s]);
    }
    compared.assert_replies(&[0, 8, 13, 22], 30);
    compared.assert_reasons(300);
}

/// The most links, all of them bare; and a chain over a ladder of as many nodes, on a
/// thread with the stack that is stated.
#[test]
fn the_most_reasons() {
    let table = random::diamond();
    let all: Vec<u8> = (0..64).collect();
    let most = record::write(&random::ladder(33, &all, 3));
    let lone = record_of("top");
    let chain = record::write(&random::chain_graph(255, 0, 3));
    let ladder = record::write(&random::ladder(255, &all[..8], 3));
    let call = move || {
        let mut output = vec![0; LONGEST_RECORD];
        [[&lone, &most], [&chain, &ladder]].map(|[general, specific]| {
            let mut reasons = vec![0; MOST_LINKS];
            let (n, bytes) = (table.n, &table.bytes);
            let length =
                difference_explained(n, bytes, general, specific, &mut output, &mut reasons);
            assert_eq!(length, Ok(specific.len()));
            assert_eq!(output[..specific.len()], **specific);
            reasons
        })
    };
    let [bare, groups] = on_stated_stack(call);
    assert_eq!(bare, [1; MOST_LINKS]);
    // Each node has a link by 0, which the chain has too, and seven that are bare.
    let of_node = [2, 1, 1, 1, 1, 1, 1, 1];
    assert_eq!(groups[..8 * 254], of_node.repeat(254));
    assert_eq!(groups[8 * 254..], [0; 16]);
}
