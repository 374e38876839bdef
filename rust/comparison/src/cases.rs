//! Inputs of the program `mapcalc`, each with a name: the cases of document 01, every refusal
//! that the program can print, every kind of bad input, and ranges.

use reference::graph::{Graph, Node};
use reference::mapcalc::{Operation, input};
use reference::notation;
use reference::random::{self, TableBytes};
use reference::record;

/// An input of the program, and its name.
pub struct Case {
    /// The name: what is asked, in a few words.
    pub name: &'static str,
    /// The bytes of standard input.
    pub input: Vec<u8>,
}

const P: &str = "top[0: X top, 1: X]";
const Q: &str = "top[0: top, 1: top]";
const R: &str = "top[0: X a, 1: X]";

/// The record of a graph in document 01's notation, over the diamond.
pub fn record_of(text: &str) -> Vec<u8> {
    record::write(&notation::graph(3, text))
}

/// An input over a table.
fn asked(operation: Operation, table: &TableBytes, first: &[u8], second: &[u8]) -> Vec<u8> {
    let n = u8::try_from(table.n).expect("n is one byte");
    input(operation.byte(), n, &table.bytes, first, second)
}

/// An input over the diamond.
fn over_diamond(operation: Operation, first: &str, second: &str) -> Vec<u8> {
    asked(
        operation,
        &random::diamond(),
        &record_of(first),
        &record_of(second),
    )
}

/// An input over the diamond with records that are no graphs.
fn with_records(first: &[u8], second: &[u8]) -> Vec<u8> {
    asked(Operation::Generalize, &random::diamond(), first, second)
}

/// An input with any table, and two lone nodes of type 3.
fn with_table(n: usize, bytes: Vec<u8>) -> Vec<u8> {
    let lone = record_of("top");
    asked(Operation::Order, &TableBytes { n, bytes }, &lone, &lone)
}

/// Rows of 8 bytes with these first bytes.
fn rows(first_bytes: &[u8]) -> Vec<u8> {
    first_bytes
        .iter()
        .flat_map(|&byte| [byte, 0, 0, 0, 0, 0, 0, 0])
        .collect()
}

/// Top nodes with 64 links each, all to the last of them.
fn full(nodes: usize) -> Graph {
    let node = |number: usize| {
        let features = (0..64).filter(|_| number + 1 < nodes);
        Node::new(3, features.map(|feature| (feature, nodes - 1)))
    };
    let mut graph = Graph {
        nodes: (0..nodes).map(node).collect(),
    };
    // Each node leads to the next by its lowest feature, so that all are reached.
    for number in 0..nodes.saturating_sub(2) {
        graph.nodes[number].links.insert(0, number + 1);
    }
    graph
}

/// 255 top nodes in a row with 2,048 links.
fn longest() -> Graph {
    let mut longest = random::ladder(255, &[0, 9, 18, 27, 36, 45, 54, 63], 3);
    for number in 0..16 {
        longest.nodes[number].links.insert(1, number + 1);
    }
    longest
}

/// Every case.
pub fn cases() -> Vec<Case> {
    let mut cases = Vec::new();
    let mut add = |name, input| cases.push(Case { name, input });
    fittings(&mut add);
    tables(&mut add);
    graphs(&mut add);
    bad_inputs(&mut add);
    ranges(&mut add);
    cases
}

fn fittings(add: &mut impl FnMut(&'static str, Vec<u8>)) {
    use Operation::{Difference, Generalize, Order, Unify};
    add("case 1", over_diamond(Generalize, "a[0: b]", "b"));
    add("case 2", over_diamond(Unify, "a", "b"));
    add("case 3", over_diamond(Unify, P, "top[0: a, 1: top]"));
    add("case 4", over_diamond(Unify, P, "top[0: a, 1: b]"));
    add("case 5", over_diamond(Unify, P, "top[0: Z a, 1: b[0: Z]]"));
    add("case 6", over_diamond(Generalize, P, Q));
    add("case 7", over_diamond(Difference, P, R));
    add("case 8", over_diamond(Difference, Q, R));
    add("case 9", over_diamond(Difference, R, R));
    add("case 10", over_diamond(Difference, P, Q));
    let specific = "top[0: X top, 1: X, 2: X]";
    let general = "top[0: X top, 1: X, 2: top]";
    add("case 11", over_diamond(Difference, general, specific));
    let middles = random::middles(3);
    let lone = record::write(&Graph::lone(4));
    let middle = record::write(&Graph::lone(1));
    add("case 12: accepted", asked(Order, &middles, &middle, &lone));
    add(
        "case 12: no difference gives 13",
        asked(Difference, &middles, &lone, &middle),
    );
    add(
        "case 12: a graph's difference from itself",
        asked(Difference, &middles, &middle, &middle),
    );
    let two = record::write(&Graph::lone(2));
    add(
        "a node without a wanted type",
        asked(Difference, &random::three_over_one(), &two, &middle),
    );
    let two_over_two = rows(&[0x01, 0x03, 0x05, 0x0F, 0x17, 0x3F]);
    add("case 13", with_table(6, two_over_two));
    for (name, nodes) in [
        ("case 14: 255 nodes", 128),
        ("case 14: with 129 in the first", 129),
    ] {
        let first = record::write(&random::chain_graph(nodes, 0, 3));
        let second = record::write(&random::chain_graph(128, 1, 3));
        add(name, asked(Unify, &random::diamond(), &first, &second));
    }
    // Case 15 is about an output one byte short, and the program lends the longest.
    let longest = record::write(&longest());
    add(
        "the longest record",
        asked(Unify, &random::diamond(), &longest, &longest),
    );
    add("order: itself", over_diamond(Order, P, P));
    add("order: shared", over_diamond(Order, P, Q));
    add("order: not shared", over_diamond(Order, Q, P));
    add("order: a lower type", over_diamond(Order, R, P));
    add("order: a higher type", over_diamond(Order, P, R));
    add(
        "order: types beside each other",
        over_diamond(Order, "a", "b"),
    );
}

fn tables(add: &mut impl FnMut(&'static str, Vec<u8>)) {
    add("1: no type", with_table(0, vec![]));
    add("1: one type", with_table(1, rows(&[0x01])));
    add("1: 65 types", with_table(65, vec![0; 8 * 65]));
    add("1: 255 types", with_table(255, vec![0xFF; 8 * 255]));
    add(
        "2: a bit at n",
        with_table(4, rows(&[0x01, 0x03, 0x05, 0x1F])),
    );
    add(
        "2: a type not below itself",
        with_table(4, rows(&[0x01, 0x01, 0x05, 0x0F])),
    );
    add(
        "2: two types below each other",
        with_table(4, rows(&[0x01, 0x07, 0x07, 0x0F])),
    );
    add(
        "2: not transitive",
        with_table(5, rows(&[0x01, 0x03, 0x07, 0x0D, 0x1F])),
    );
    add(
        "2: 0 not least",
        with_table(4, rows(&[0x01, 0x03, 0x04, 0x0F])),
    );
    add(
        "2: n - 1 not greatest",
        with_table(4, rows(&[0x01, 0x03, 0x05, 0x0B])),
    );
    add(
        "3: two types without a meet",
        with_table(6, rows(&[0x01, 0x03, 0x05, 0x0F, 0x17, 0x3F])),
    );
}

fn graphs(add: &mut impl FnMut(&'static str, Vec<u8>)) {
    let lone = record_of("top");
    let mut both = |names: [&'static str; 2], record: &[u8]| {
        add(names[0], with_records(record, &lone));
        add(names[1], with_records(&lone, record));
    };
    both(["4: empty, first", "4: empty, second"], &[]);
    both(["4: no nodes, first", "4: no nodes, second"], &[0]);
    both(["4: short, first", "4: short, second"], &lone[..9]);
    let mut more = lone.clone();
    more.push(0);
    both(["4: a byte left, first", "4: a byte left, second"], &more);
    let many = record::write(&full(34));
    both(["4: 2,112 links, first", "4: 2,112 links, second"], &many);
    let type_0 = record::write(&Graph::lone(0));
    both(["5: type 0, first", "5: type 0, second"], &type_0);
    let type_n = record::write(&Graph::lone(4));
    both(["5: type n, first", "5: type n, second"], &type_n);
    let target = |target| {
        record::write(&Graph {
            nodes: vec![Node::new(3, [(0, target)])],
        })
    };
    both(["5: target N, first", "5: target N, second"], &target(1));
    both(["6: itself, first", "6: itself, second"], &target(0));
    let unreached = record::write(&Graph {
        nodes: [3, 3].map(|node_type| Node::new(node_type, [])).into(),
    });
    both(["7: first", "7: second"], &unreached);
    add("4 first before 5 second", with_records(&lone[..9], &type_0));
    add("6 first before 4 second", with_records(&target(0), &[]));
    // The second is above the first, which has 2,048 links.
    let [first, second] = [&full(33), &random::chain_graph(2, 63, 3)].map(record::write);
    add(
        "a combination of 2,048 links",
        asked(Operation::Unify, &random::diamond(), &first, &second),
    );
    let [first, second] = disjoint_links();
    add(
        "11: more than 2,048 links",
        asked(Operation::Unify, &random::diamond(), &first, &second),
    );
}

/// Two graphs of 35 nodes in a row that share the first feature alone: 2,048 links
/// or fewer in each, more together.
fn disjoint_links() -> [Vec<u8>; 2] {
    [1..33u8, 33..64].map(|features| {
        let mut all = vec![0];
        all.extend(features);
        record::write(&random::ladder(35, &all, 3))
    })
}

fn bad_inputs(add: &mut impl FnMut(&'static str, Vec<u8>)) {
    let good = over_diamond(Operation::Order, "a", "top");
    let operation = |byte| {
        let mut input = good.clone();
        input[0] = byte;
        input
    };
    add("bad: operation 0", operation(0));
    add("bad: operation 5", operation(5));
    add("bad: operation 255", operation(255));
    // The operation, n, the table, a length, a record, a length, a record.
    for (name, length) in [
        ("bad: nothing", 0),
        ("bad: no n", 1),
        ("bad: no table", 2),
        ("bad: a byte of the table missing", 33),
        ("bad: no first length", 34),
        ("bad: half a first length", 35),
        ("bad: no first record", 36),
        ("bad: a byte of the first record missing", 45),
        ("bad: no second length", 46),
        ("bad: half a second length", 47),
        ("bad: no second record", 48),
        ("bad: a byte of the second record missing", 57),
    ] {
        add(name, good[..length].to_vec());
    }
    let mut more = good.clone();
    more.push(0);
    add("bad: a byte left", more);
    let mut endless = good.clone();
    endless.resize(40_000, 0);
    add("bad: many bytes left", endless);
    let diamond = random::diamond();
    for (name, length) in [
        ("a first record of 8,192 bytes", 8192),
        ("bad: a first record of 8,193 bytes", 8193),
    ] {
        let record = vec![0; length];
        add(name, asked(Operation::Order, &diamond, &record, &[]));
    }
    for (name, length) in [
        ("a second record of 8,192 bytes", 8192),
        ("bad: a second record of 8,193 bytes", 8193),
    ] {
        let record = vec![0; length];
        let lone = record_of("top");
        add(name, asked(Operation::Order, &diamond, &lone, &record));
    }
    let widest = input(
        Operation::Order.byte(),
        255,
        &[0; 2040],
        &[0; 8192],
        &[0; 8192],
    );
    add("the longest input that is not bad", widest.clone());
    let mut more = widest;
    more.push(0);
    add("bad: one byte more", more);
}

fn ranges(add: &mut impl FnMut(&'static str, Vec<u8>)) {
    use Operation::{Difference, Generalize, Order, Unify};
    add(
        "ranges: two that overlap",
        over_diamond(Unify, "a{10..100}", "top{50..200}"),
    );
    add(
        "ranges: two that overlap in one level",
        over_diamond(Unify, "a{0..50}", "a{50..255}"),
    );
    add(
        "ranges: two that do not overlap",
        over_diamond(Unify, "a{0..50}", "a{51..255}"),
    );
    add(
        "ranges: two that do not overlap where paths share",
        over_diamond(Unify, P, "top[0: top{0..50}, 1: top{51..255}]"),
    );
    add(
        "ranges: a loop before two that do not overlap",
        over_diamond(Unify, P, "top[0: Z top{0..50}, 1: top{51..255}[0: Z]]"),
    );
    add(
        "ranges: a common part that widens",
        over_diamond(Generalize, "a{10..20}[0: b]", "a{90..100}[0: b{7..7}]"),
    );
    add(
        "ranges: a common part that widens to the full range",
        over_diamond(Generalize, "a{0..20}", "b{90..255}"),
    );
    let general = "a[0: b{10..200}, 1: b]";
    let specific = "a[0: b{10..100}, 1: b]";
    add(
        "ranges: a difference that keeps a node for its range alone",
        over_diamond(Difference, general, specific),
    );
    add(
        "ranges: a difference of both ends",
        over_diamond(Difference, "a{5..200}", "a{10..100}"),
    );
    add(
        "ranges: a graph's difference from itself",
        over_diamond(Difference, specific, specific),
    );
    add(
        "ranges: no difference where none lies inside",
        over_diamond(Difference, specific, general),
    );
    for (name, first, second) in [
        ("ranges: order, the same", "a{10..20}", "a{10..20}"),
        ("ranges: order, inside", "a{10..20}", "top{10..21}"),
        ("ranges: order, around", "a", "a{0..254}"),
        ("ranges: order, beside", "a{10..20}", "a{11..21}"),
    ] {
        add(name, over_diamond(Order, first, second));
    }
    let spelled = record::write_spelling(&notation::graph(3, "a[0: b{1..2}, 1: top]"), |_| true);
    add(
        "ranges: full ones spelled out and rewritten",
        asked(Unify, &random::diamond(), &spelled, &spelled),
    );
    add(
        "ranges: a full one spelled out is the same",
        asked(
            Order,
            &random::diamond(),
            &spelled,
            &record_of("a[0: b{1..2}, 1: top]"),
        ),
    );
    let mut longest = longest();
    for node in &mut longest.nodes {
        node.label.range.lowest = 1;
    }
    let longest = record::write(&longest);
    add(
        "ranges: the longest record",
        asked(Unify, &random::diamond(), &longest, &longest),
    );
    let lone = record_of("top");
    let mut both = |names: [&'static str; 2], record: &[u8]| {
        add(names[0], with_records(record, &lone));
        add(names[1], with_records(&lone, record));
    };
    both(
        [
            "4: bit 7 and no levels, first",
            "4: bit 7 and no levels, second",
        ],
        &notation::bytes("01 83 0000000000000000"),
    );
    both(
        [
            "4: bit 7 and one level, first",
            "4: bit 7 and one level, second",
        ],
        &notation::bytes("01 83 07"),
    );
    both(
        [
            "5: the lowest level above the highest, first",
            "5: the lowest level above the highest, second",
        ],
        &record_of("top{51..50}"),
    );
    both(
        [
            "5: type 0 with bit 7, first",
            "5: type 0 with bit 7, second",
        ],
        &record_of("0{10..20}"),
    );
    both(
        [
            "5: type n with bit 7, first",
            "5: type n with bit 7, second",
        ],
        &record_of("4{10..20}"),
    );
}
