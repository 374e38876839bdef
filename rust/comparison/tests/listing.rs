//! All small graphs in order (Paper 14), by the proved engine and by the reference: whole
//! lists over tables of 2 to 5 types, steps over 64 types, records that are read and not
//! listed, the order of the checks, and random and damaged inputs.

use comparison::{Comparison, NEXT, compare, number};
use record_engine::{LONGEST_LISTED, LONGEST_RECORD, Listing, Refusal, next};
use reference::canonical::canonical;
use reference::graph::{Graph, Node};
use reference::listing;
use reference::notation;
use reference::random::{self, Ranges, Shape, TableBytes, Xorshift};
use reference::record;
use reference::reply::{self, Reply};

/// The records that calls from the first on give, each step compared, to the end.
fn compared_list(compared: &mut Comparison, table: &TableBytes, features: usize) -> Vec<Vec<u8>> {
    let features = number(features);
    let mut records = Vec::new();
    let mut given = Vec::new();
    loop {
        let reply = compared.check(table, &[&features, &given]);
        if reply == Reply::End {
            return records;
        }
        assert_eq!(reply.number(), None, "{table:?} {given:?}");
        (_, given) = compared.answer(table, &[&features, &given]);
        records.push(given.clone());
    }
}

/// Every table of 2 to 5 types, but for the numbering of its types.
fn small_tables() -> Vec<TableBytes> {
    let chains = (2..=5).map(random::chain);
    let within = |below: fn(usize, usize) -> bool| {
        TableBytes::of_relation(5, |j, i| j == i || j == 0 || i == 4 || below(j, i))
    };
    let others = [
        random::diamond(),
        random::middles(3),
        random::pentagon(),
        // The diamond under a fifth type, and over one.
        within(|j, i| j < 3 && i == 3),
        within(|j, i| j == 1 && i > 0),
    ];
    chains.chain(others).collect()
}

#[test]
fn whole_lists() {
    let counts = [(3, 20), (14, 142), (39, 462), (84, 1_076)];
    let mut compared = Comparison::new(NEXT, 401);
    for table in small_tables() {
        let (one, two) = counts[table.n - 2];
        for (features, count) in [(1, one), (2, two)] {
            let records = compared_list(&mut compared, &table, features);
            assert_eq!(records.len(), count, "{table:?}");
            let made = listing::Listing::of(&table.accepted(), features).expect("1 or 2");
            assert!(made.records().eq(records.iter().map(|record| &**record)));
            let iterated = Listing::new(table.n, &table.bytes, features).expect("1 or 2");
            assert_eq!(iterated.collect::<Vec<_>>(), records);
            let longest = records.iter().map(Vec::len).max();
            assert!(features == 1 || longest == Some(LONGEST_LISTED));
        }
    }
    compared.assert_replies(&[0, 8], 4_000);
    compared.assert_ends(18);
}

/// "Over a two-type table with F of 1 the list has three records: chains of one, two and
/// three nodes."
#[test]
fn three_chains() {
    let table = random::chain(2);
    let chains = ["1", "1[0: 1]", "1[0: 1[0: 1]]"];
    let chains = chains.map(|text| record::write(&notation::graph(2, text)));
    let listing = Listing::new(table.n, &table.bytes, 1).expect("1 is a number of features");
    assert_eq!(listing.collect::<Vec<_>>(), chains);
}

/// Tables of 64 types: sets of six things, and a chain.
fn large_tables() -> [TableBytes; 2] {
    [random::boolean(6), random::chain(64)]
}

/// The first, the last and many between, over 64 types: among some four million the next is
/// found as fast as among a few.
#[test]
fn steps_over_64_types() {
    let mut compared = Comparison::new(NEXT, 403);
    let random = &mut Xorshift::stored(404);
    for table in large_tables() {
        for (features, count) in [(1, 254_079), (2, 4_012_722)] {
            let made = listing::Listing::of(&table.accepted(), features).expect("1 or 2");
            let records: Vec<&[u8]> = made.records().collect();
            assert_eq!(records.len(), count);
            let features = number(features);
            let reply = compared.check(&table, &[&features, &[]]);
            assert_eq!(reply, Reply::Length(records[0].len()));
            let last = records[count - 1];
            assert_eq!(compared.check(&table, &[&features, last]), Reply::End);
            let at_ends = (0..20).chain(count - 20..count - 1);
            let between: Vec<usize> = (0..1_000).map(|_| random.pick(count - 1)).collect();
            for place in at_ends.chain(between) {
                let input: [&[u8]; 2] = [&features, records[place]];
                compared.check(&table, &input);
                assert_eq!(compared.answer(&table, &input).1, records[place + 1]);
            }
        }
    }
    compared.assert_replies(&[0, 8], 4_000);
    compared.assert_ends(4);
}

/// Records over the diamond that are read and are not listed, beside the number of features.
fn unlisted() -> Vec<(usize, Vec<u8>)> {
    let written = |text: &str| record::write(&canonical(&notation::graph(3, text)));
    let chain = notation::graph(3, "a[0: b[0: top]]");
    let fork = notation::graph(3, "a[0: b, 1: top]");
    // Nodes 1 and 2 exchanged.
    let exchanged = |graph: &Graph| {
        let nodes = [0, 2, 1].map(|number: usize| {
            let Node { label, links } = &graph.nodes[number];
            let links = links
                .iter()
                .map(|(&feature, &target)| (feature, 3 - target));
            Node::new(*label, links)
        });
        record::write(&Graph {
            nodes: nodes.to_vec(),
        })
    };
    vec![
        // By another numbering.
        (1, exchanged(&chain)),
        (2, exchanged(&chain)),
        (2, exchanged(&fork)),
        // By a full range that is spelled out, at one node and at all.
        (1, record::write_spelling(&chain, |node| node == 0)),
        (1, record::write_spelling(&chain, |node| node == 2)),
        (2, record::write_spelling(&fork, |_| true)),
        (2, record::write_spelling(&Graph::lone(1), |_| true)),
        // By a range.
        (1, written("a{10..200}")),
        (2, written("a[0: b{0..254}]")),
        // By four nodes.
        (1, written("a[0: a[0: a[0: a]]]")),
        (2, written("a[0: a[0: X a, 1: a], 1: X]")),
        // By a feature too many.
        (1, written("a[1: a]")),
        (1, written("a[0: X a, 1: X]")),
        (1, written("a[0: a[1: a]]")),
        (2, written("a[2: a]")),
        (2, written("a[0: X a, 63: X]")),
        (2, written("a[0: a, 1: a[8: a]]")),
        (2, written("a[0: a, 1: a, 2: a]")),
    ]
}

#[test]
fn read_and_not_listed() {
    let table = random::diamond();
    let mut compared = Comparison::new(NEXT, 405);
    let not_listed = Reply::Refused(reply::Refusal::NotListed);
    for (features, bytes) in unlisted() {
        assert!(record::read(&table.accepted(), &bytes).is_ok(), "{bytes:?}");
        let reply = compared.check(&table, &[&number(features), &bytes]);
        assert_eq!(reply, not_listed, "{features} {bytes:?}");
    }
    // A type too many and a longer record are no listed ones either: they are not read.
    for (bytes, fault) in [
        (vec![1, 4, 0, 0, 0, 0, 0, 0, 0, 0], 5),
        (vec![1, 3, 0, 0, 0, 0, 0, 0, 0, 0, 0], 4),
    ] {
        let reply = compared.check(&table, &[&number(2), &bytes]);
        assert_eq!(reply.number(), Some(fault));
    }
    // What two features list, one need not, and what one lists, two do.
    let [one, two] = [1, 2].map(|features| {
        let listing = Listing::new(table.n, &table.bytes, features).expect("1 or 2");
        listing.collect::<Vec<_>>()
    });
    for bytes in &two {
        let reply = compared.check(&table, &[&number(1), bytes]);
        assert_eq!(reply == not_listed, !one.contains(bytes), "{bytes:?}");
    }
    assert!(one.iter().all(|bytes| two.contains(bytes)));
    compared.assert_replies(&[0, 4, 5, 8, 24], 3);
    assert_eq!(Refusal::NotListed.number(), 24);
}

/// 1 to 3, 4 to 7 of the first graph, 23, 24 and 8, each before those that follow, and no
/// byte of the output changed.
#[test]
fn the_order_of_checks() {
    let good = random::diamond();
    let other_size = TableBytes {
        n: 5,
        bytes: good.bytes.clone(),
    };
    let no_order = TableBytes {
        n: 4,
        bytes: vec![0; 32],
    };
    let no_bounds = TableBytes::of_relation(6, |j, i| {
        j == i || j == 0 || i == 5 || (j < 3 && (i == 3 || i == 4))
    });
    let node = [0; 8];
    let malformed = vec![0];
    let out_of_range = [&[1, 9][..], &node].concat();
    let cyclic = [&[1, 1, 1][..], &node[1..], &[0]].concat();
    let unreached = [&[2, 1][..], &node, &[1], &node].concat();
    let unlisted = record::write(&notation::graph(3, "a[2: a]"));
    let listed = record::write(&notation::graph(3, "a"));
    let records = [
        &malformed,
        &out_of_range,
        &cyclic,
        &unreached,
        &unlisted,
        &listed,
        &Vec::new(),
    ];
    let tables = [&other_size, &no_order, &no_bounds, &good];
    let mut compared = Comparison::new(NEXT, 407);
    for (table_place, table) in tables.into_iter().enumerate() {
        for (record_place, record) in records.into_iter().enumerate() {
            for features in [0, 1, 2, 3, 64, 255, 256, 257, 1 << 32, usize::MAX] {
                for room in [0, 9, 10, LONGEST_RECORD] {
                    let input: [&[u8]; 2] = [&number(features), record];
                    let (reply, _) = compared.answer_within(table, &input, &[room]);
                    let expected = match (table_place, record_place) {
                        (0..=2, _) => Some(table_place as u8 + 1),
                        (_, 0..=3) => Some(record_place as u8 + 4),
                        _ if features != 1 && features != 2 => Some(23),
                        (_, 4) => Some(24),
                        _ if room < 10 => Some(8),
                        _ => None,
                    };
                    assert_eq!(reply.number(), expected, "{input:?} {room}");
                    let side = match reply {
                        Reply::Refused(refusal) => refusal.side(),
                        _ => None,
                    };
                    let of_graph = matches!(expected, Some(4..=7));
                    assert_eq!(side, of_graph.then_some(reply::Side::First));
                }
            }
        }
    }
    compared.assert_replies(&[0, 1, 2, 3, 4, 5, 6, 7, 8, 23, 24], 4);
}

/// Random records over random tables, some of them small, some damaged, beside numbers of
/// features of which some are refused.
#[test]
fn random_and_damaged_inputs() {
    let compared = compare(NEXT, 411, 12_000, |compared, random| {
        let table = match random.chance(1, 8) {
            true => random::damaged_table(random),
            false => random::valid_table(random),
        };
        let n = table.n.clamp(2, 64);
        // The list over many types is long, and its steps are compared above.
        let features = match n > 16 {
            true => *random.choose(&[0, 1, 1, 1, 3]),
            false => *random.choose(&[0, 1, 1, 2, 2, 2, 2, 3, 1 << 40]),
        };
        for _ in 0..4 {
            let record = match random.pick(8) {
                0 => Vec::new(),
                1 => random::damaged_record(random, n, Ranges::Present),
                2 => random::valid_record(random, n, Ranges::Present),
                3 => {
                    let shape = Shape::small(random, 3, 2);
                    let graph = random::graph(random, n, &shape);
                    changed(random, &record::write(&graph))
                }
                _ => {
                    let shape = Shape::small(random, 3, 2);
                    record::write(&canonical(&random::graph(random, n, &shape)))
                }
            };
            compared.check(&table, &[&number(features), &record]);
        }
    });
    compared.assert_replies(&[0, 1, 2, 3, 4, 5, 6, 7, 8, 23, 24], 40);
    compared.assert_ends(4);
}

/// A record with one bit changed, one byte left out or one put in.
fn changed(random: &mut Xorshift, record: &[u8]) -> Vec<u8> {
    let mut changed = record.to_vec();
    let place = random.pick(changed.len());
    match random.pick(3) {
        0 => changed[place] ^= 1 << random.pick(8),
        1 => drop(changed.remove(place)),
        _ => changed.insert(place, random.byte()),
    }
    changed
}

/// Every bit of every third listed record changed, over the diamond: what is read is listed or
/// refused by 24.
#[test]
fn every_bit_of_listed_records() {
    let table = random::diamond();
    let mut compared = Comparison::new(NEXT, 413);
    let listing = Listing::new(table.n, &table.bytes, 2).expect("2 is a number of features");
    for record in listing.step_by(3) {
        for bit in 0..8 * record.len() {
            let mut changed = record.clone();
            changed[bit / 8] ^= 1 << (bit % 8);
            compared.answer(&table, &[&number(2), &changed]);
        }
    }
    compared.assert_replies(&[0, 4, 5, 6, 7, 24], 50);
}

/// An output as long as the record, one shorter and one longer; what is beyond stays.
#[test]
fn short_exact_and_long_outputs() {
    let table = random::diamond();
    let record = record::write(&notation::graph(3, "top"));
    let expected = record::write(&notation::graph(3, "a[0: a]"));
    for room in [0, 19, 20, 21, 64] {
        let mut output = vec![7; room];
        let reply = next(table.n, &table.bytes, 2, &record, &mut output);
        if room < 20 {
            assert_eq!(reply, Err(Refusal::NoRoom));
            assert_eq!(output, vec![7; room]);
        } else {
            assert_eq!(reply, Ok(Some(20)));
            assert_eq!(output[..20], expected);
            assert_eq!(output[20..], vec![7; room - 20]);
        }
    }
    let last = Listing::new(table.n, &table.bytes, 2).expect("2").last();
    let mut output = [7; 64];
    let reply = next(
        table.n,
        &table.bytes,
        2,
        &last.expect("a record"),
        &mut output,
    );
    assert_eq!(reply, Ok(None));
    assert_eq!(output, [7; 64]);
}
