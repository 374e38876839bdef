//! The stack of each call is what the header and the wrapper state. On the deepest and
//! on the largest records, every call takes what its comment in the header states, and runs on a
//! thread that has exactly the stack stated for all calls. `appropriate.rs` runs the calls with a
//! list on such a thread.

use comparison::{on_stated_stack, stack_taken};
use record_engine::{Counts, FEATURES, GATHERING_LENGTH, Order, Refusal, Row, Table};
use record_engine::{LONGEST_RECORD, MOST_LINKS, MOST_NODES, STORE_LENGTH, Store, VERSIONS};
use record_engine::{check_table, difference, difference_by};
use record_engine::{difference_explained, difference_explained_by};
use record_engine::{export, generalize, house_table, import, next, order, rewrite, unify};
use record_engine::{gathering_add, gathering_begin, gathering_finish, gathering_order};
use record_engine::{generalize_appropriate, rewrite_appropriate, unify_appropriate};
use record_engine::{store_drop, store_put, store_read};
use reference::graph::Graph;
use reference::house;
use reference::random::{self, TableBytes};
use reference::record;
use std::collections::BTreeMap;

const HEADER: &str = include_str!("../../../include/record_engine.h");

/// The bytes of stack that the header states for each call.
fn stated() -> BTreeMap<String, usize> {
    let mut stated = BTreeMap::new();
    let parts: Vec<&str> = HEADER.split("uint64_t record_").collect();
    for pair in parts.windows(2) {
        let words = pair[0].split_whitespace().filter(|&word| word != "*");
        let comment = words.collect::<Vec<&str>>().join(" ");
        let (_, stack) = comment.rsplit_once("Takes ").expect("the stack");
        let (kib, _) = stack.split_once(" KiB of stack.").expect("a number of KiB");
        let (call, _) = pair[1].split_once('(').expect("parameters");
        let kib: usize = kib.parse().expect("a number");
        stated.insert(call.to_string(), 1024 * kib);
    }
    stated
}

/// The bytes of stack that each call takes at most on two records over a table.
fn taken(table: &TableBytes, first: &[u8], second: &[u8]) -> [(&'static str, usize); 23] {
    let (n, table) = (table.n, &table.bytes[..]);
    let types = [(n - 1) as u8; FEATURES];
    let reading: Vec<u8> = (0..FEATURES as u8).rev().collect();
    let mut output = vec![0; LONGEST_RECORD];
    let mut reasons = vec![0; MOST_LINKS];
    let (mut rows, mut nodes) = (vec![Row::default(); MOST_LINKS], vec![0; 3 * MOST_NODES]);
    let mut gathering = vec![0; GATHERING_LENGTH];
    let (out, why) = (&mut output[..], &mut reasons[..]);
    let held = &mut gathering[..];
    let stores = stores(n, table, first, second);
    macro_rules! take {
        ($call:expr) => {
            stack_taken(|| assert!(!matches!($call, Err(Refusal::Table(_)))))
        };
    }
    [
        ("check_table", take!(check_table(n, table))),
        ("rewrite", take!(rewrite(n, table, first, out))),
        ("order", take!(order(n, table, first, second))),
        (
            "generalize",
            take!(generalize(n, table, first, second, out)),
        ),
        ("unify", take!(unify(n, table, first, second, out))),
        (
            "difference",
            take!(difference(n, table, first, second, out)),
        ),
        (
            "rewrite_appropriate",
            take!(rewrite_appropriate(n, table, &types, first, out)),
        ),
        (
            "generalize_appropriate",
            take!(generalize_appropriate(n, table, &types, first, second, out)),
        ),
        (
            "unify_appropriate",
            take!(unify_appropriate(n, table, &types, first, second, out)),
        ),
        (
            "difference_explained",
            take!(difference_explained(n, table, first, second, out, why)),
        ),
        (
            "difference_by",
            take!(difference_by(n, table, &reading, first, second, out)),
        ),
        (
            "difference_explained_by",
            take!(difference_explained_by(
                n, table, &reading, first, second, out, why
            )),
        ),
        ("next", take!(next(n, table, 2, first, out))),
        (
            "export",
            take!(export(n, table, first, &mut rows, &mut nodes)),
        ),
        ("import", {
            let counts = export(n, table, first, &mut rows, &mut nodes).expect("a planning table");
            let (rows, nodes) = (&rows[..counts.rows], &nodes[..3 * counts.nodes]);
            take!(import(n, table, rows, nodes, out))
        }),
        ("gathering_begin", take!(gathering_begin(n, table, held))),
        ("gathering_add", {
            gathering_add(held, first).expect("a first addition");
            take!(gathering_add(held, second))
        }),
        ("gathering_order", take!(gathering_order(held, first))),
        ("gathering_finish", take!(gathering_finish(held, out))),
        ("store_put", {
            let at_the_end = take!(store_put(n, table, &mut stores[0].clone(), 2, first));
            let others = stores.iter().map(|store| {
                let mut store = store.clone();
                take!(store_put(n, table, &mut store, 0, second))
            });
            others.fold(at_the_end, usize::max)
        }),
        ("store_read", {
            let all = stores.iter();
            let taken = all.map(|store| take!(store_read(n, table, store, 1, out)));
            taken.fold(0, usize::max)
        }),
        ("store_drop", {
            let taken = stores.iter().map(|store| {
                let mut store = store.clone();
                take!(store_drop(n, table, &mut store, 1))
            });
            taken.fold(0, usize::max)
        }),
        ("house_table", take!(house_table(out))),
    ]
}

/// A store of two records as the versions 1 and 15, and bytes that state the one as a common
/// part and the other as the difference of version 1 from it, which need not hold a store.
fn stores(n: usize, table: &[u8], first: &[u8], second: &[u8]) -> [Vec<u8>; 2] {
    let mut put = vec![0; STORE_LENGTH];
    store_put(n, table, &mut put, 1, first).expect("a first version");
    // Their common part may be too large.
    let _ = store_put(n, table, &mut put, 15, second);
    let part = |record: &[u8]| [&(record.len() as u16).to_le_bytes()[..], record].concat();
    let mut stated = [vec![2, 0], part(first), part(second)].concat();
    stated.resize(STORE_LENGTH, 0);
    [put, stated]
}

/// A chain of 255 nodes whose root has a link to the last of them, and a root with a link
/// to a chain of 254. Combined, the one chain goes on where the other ends: no combination
/// has a longer path.
fn longest_path() -> [Graph; 2] {
    let [mut first, mut second] = [0, 0].map(|feature| random::ladder(255, &[feature], 3));
    first.nodes[0].links.insert(1, 254);
    second.nodes[0].links = [(1, 1)].into();
    [first, second]
}

#[test]
fn a_call_takes_the_stack_that_is_stated() {
    let graphs = [largest(), longest_path()].concat();
    let ranged = graphs.clone().into_iter().map(with_ranges);
    let graphs = graphs.into_iter().chain(ranged);
    let records: Vec<Vec<u8>> = graphs.map(|graph| record::write(&graph)).collect();
    let mut most: BTreeMap<String, usize> = BTreeMap::new();
    for table in [random::diamond(), house::table(), random::middles(62)] {
        for first in &records {
            for second in &records {
                for (call, bytes) in taken(&table, first, second) {
                    let most = most.entry(call.to_string()).or_default();
                    *most = bytes.max(*most);
                }
            }
        }
    }
    let stated = stated();
    assert!(most.keys().eq(stated.keys()), "{most:?} {stated:?}");
    for (call, bytes) in &most {
        // Some 4 KiB are to spare, which a dynamic linker takes that binds `memcpy` at its
        // first call, and less than 4 more by rounding up.
        let spare = stated[call].checked_sub(*bytes);
        let is_enough = spare.is_some_and(|spare| (3 << 10..=8 << 10).contains(&spare));
        assert!(is_enough, "{call} takes {bytes} bytes: {stated:?}");
    }
}

#[test]
fn a_method_takes_little_more_than_its_call() {
    let table = random::diamond();
    let made = Table::from_bytes(&table.bytes).expect("an accepted table");
    let [chain, _] = largest().map(|graph| record::write(&graph));
    let [first, second] = longest_path().map(|graph| record::write(&graph));
    let (rows, nodes) = made.export(&chain).expect("a planning table");
    let mut gathering = made.gathering();
    gathering.add(&chain).expect("a first addition");
    let mut store = Store::new();
    store.put(&made, 15, &chain).expect("a first version");
    let by_methods = [
        ("rewrite", stack_taken(|| drop(made.rewrite(&chain)))),
        (
            "generalize",
            stack_taken(|| drop(made.generalize(&chain, &chain))),
        ),
        ("unify", stack_taken(|| drop(made.unify(&first, &second)))),
        (
            "difference",
            stack_taken(|| drop(made.difference(&chain, &chain))),
        ),
        (
            "difference_explained",
            stack_taken(|| drop(made.explained(&chain, &chain))),
        ),
        ("import", stack_taken(|| drop(made.import(&rows, &nodes)))),
        ("export", stack_taken(|| drop(made.export(&chain)))),
        (
            "gathering_finish",
            stack_taken(|| drop(gathering.common_part())),
        ),
        (
            "gathering_add",
            stack_taken(|| drop(made.generalize_all([&chain, &chain]))),
        ),
        (
            "store_put",
            stack_taken(|| assert!(store.put(&made, 1, &chain).is_ok())),
        ),
        ("store_read", stack_taken(|| drop(store.read(&made, 1)))),
        (
            "store_drop",
            stack_taken(|| assert!(store.drop(&made, 1).is_ok())),
        ),
    ];
    let pairs = [(&chain, &chain), (&first, &second)];
    let by_calls: Vec<_> = pairs.map(|(a, b)| taken(&table, a, b)).concat();
    for (name, bytes) in by_methods {
        let of_call = by_calls.iter().filter(|(call, _)| *call == name);
        let most = of_call.map(|&(_, bytes)| bytes).max().expect("a call");
        assert!(bytes <= most + (8 << 10), "{name}: {bytes} and {most}");
    }
}

#[test]
fn the_largest_records_need_little_stack() {
    let [chain, ladder] = compare(largest());
    assert_eq!([chain, ladder], [1 + 9 * 255 + 254, 1 + 9 * 255 + 8 * 254]);
}

/// The same with a range at every node, so that the records are longer.
#[test]
fn the_largest_records_with_ranges_need_little_stack() {
    let [chain, ladder] = compare(largest().map(with_ranges));
    assert_eq!(
        [chain, ladder],
        [1 + 11 * 255 + 254, 1 + 11 * 255 + 8 * 254]
    );
}

/// The graph with a range at every node.
fn with_ranges(mut graph: Graph) -> Graph {
    for node in &mut graph.nodes {
        node.label.range.highest = 100;
    }
    graph
}

/// A chain of 255 nodes, and 255 nodes with 8 links from each to the next.
fn largest() -> [Graph; 2] {
    [&[0][..], &[0, 9, 18, 27, 36, 45, 54, 63]].map(|features| random::ladder(255, features, 3))
}

/// Makes every call on a chain and a ladder below it, and gives their lengths.
fn compare(graphs: [Graph; 2]) -> [usize; 2] {
    let table = random::diamond();
    let [chain, ladder] = graphs.map(|graph| record::write(&graph));
    let [chain_length, ladder_length] = [chain.len(), ladder.len()];
    let lengths = on_stated_stack(|| {
        let mut output = vec![0; LONGEST_RECORD];
        let (n, table) = (table.n, &table.bytes);
        assert_eq!(order(n, table, &ladder, &chain), Ok(Order::Under));
        assert_eq!(order(n, table, &chain, &chain), Ok(Order::Same));
        let unlisted = next(n, table, 2, &ladder, &mut output);
        assert_eq!(unlisted, Err(Refusal::NotListed));
        let mut rows = vec![Row::default(); MOST_LINKS];
        let mut nodes = vec![0; 3 * MOST_NODES];
        let counts = [&chain, &ladder].map(|record| {
            let counts = export(n, table, record, &mut rows, &mut nodes);
            let filled = &rows[..counts.map_or(0, |counts| counts.rows)];
            let length = import(n, table, filled, &nodes, &mut output);
            assert_eq!(length, Ok(record.len()));
            counts
        });
        let counts_of = |rows| Ok(Counts { nodes: 255, rows });
        assert_eq!(counts, [254, 8 * 254].map(counts_of));
        [
            rewrite(n, table, &chain, &mut output),
            rewrite(n, table, &ladder, &mut output),
            generalize(n, table, &ladder, &ladder, &mut output),
            unify(n, table, &ladder, &ladder, &mut output),
            unify(n, table, &ladder, &chain, &mut output),
            difference(n, table, &chain, &ladder, &mut output),
        ]
    });
    assert_eq!(lengths[0], Ok(chain_length));
    assert_eq!(lengths[1..5], [Ok(ladder_length); 4]);
    // Each link beside the chain's says that it leads to the same node; a range that the
    // chain has too need not be said.
    assert_eq!(lengths[5], Ok(1 + 9 * 255 + 8 * 254));
    [chain_length, ladder_length]
}

/// A store of a chain and a ladder below it, so that the programs, their common part and a
/// difference are all of the largest.
#[test]
fn a_store_of_the_largest_records_needs_little_stack() {
    let table = random::diamond();
    let [chain, ladder] = largest().map(|graph| record::write(&with_ranges(graph)));
    let (used, read) = on_stated_stack(|| {
        let table = &Table::from_bytes(&table.bytes).expect("an accepted table");
        let mut store = Store::new();
        let used = [
            store.put(table, 1, &ladder),
            store.put(table, 0, &chain),
            store.put(table, 2, &ladder),
            store.drop(table, 2),
        ];
        (used, store.read(table, 1))
    });
    assert_eq!(read.as_ref(), Ok(&ladder));
    // The chain is the common part, and the ladder's links stand in its difference.
    let difference = 1 + 9 * 255 + 8 * 254;
    let alone = 2 + 2 + ladder.len() + 12;
    let both = 2 + 2 + chain.len() + 12 + 2 + difference;
    let three = both + 2 + difference;
    assert_eq!(used, [alone, both, three, both].map(Ok));
}

/// A store of 16 versions of the largest record, each with another type at one node.
#[test]
fn sixteen_versions_of_the_largest_record_need_little_stack() {
    let table = random::diamond();
    let [_, ladder] = largest();
    let programs: Vec<Vec<u8>> = (0..VERSIONS)
        .map(|version| {
            let mut graph = ladder.clone();
            graph.nodes[version].label.node_type = 1;
            record::write(&graph)
        })
        .collect();
    let mut read = on_stated_stack(|| {
        let table = &Table::from_bytes(&table.bytes).expect("an accepted table");
        let mut store = Store::new();
        for version in (0..VERSIONS).rev() {
            let used = store.put(table, version, &programs[version]);
            assert!(used.is_ok(), "{version}: {used:?}");
        }
        let dropped = store.drop(table, 15);
        assert_eq!(dropped, Ok(store.used().len()));
        let read = (0..VERSIONS).map(|version| store.read(table, version));
        read.collect::<Vec<_>>()
    });
    assert_eq!(read.pop(), Some(Err(Refusal::WrongVersion)));
    for (read, program) in read.into_iter().zip(programs) {
        assert_eq!(read, Ok(program));
    }
}
