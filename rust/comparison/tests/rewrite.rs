//! Rewriting by the proved engine and by the reference. Both give the same reply and the same
//! bytes, and change nothing around the output. Tables and records are random and damaged, with
//! ranges and without. Outputs are empty, one byte short, exactly long enough, and longer.

use comparison::{Comparison, REWRITE, compare};
use reference::graph::{Graph, Node};
use reference::label::Range;
use reference::random::{self, Ranges, Shape, TableBytes, Xorshift};
use reference::record::{self, HAS_RANGE, LONGEST_RECORD, MOST_LINKS, MOST_NODES};
use reference::reply::Reply;

/// Tables of every kind, all accepted.
fn tables(random: &mut Xorshift) -> Vec<TableBytes> {
    let mut tables = vec![
        random::chain(2),
        random::chain(5),
        random::chain(64),
        random::diamond(),
        random::boolean(4),
        random::middles(3),
        random::pentagon(),
    ];
    for _ in 0..4 {
        tables.push(random::closure_system(random));
        tables.push(random::distributive(random));
    }
    tables
}

/// An acyclic graph with so many nodes, each below the one before it, and so many
/// links, in any numbering with the root at 0.
fn with_links(random: &mut Xorshift, n: usize, nodes: usize, links: usize) -> Graph {
    let shape = Shape {
        nodes,
        extra_links: 0,
        features: vec![random.pick(64) as u8],
        spread: 1,
        tops: 2,
        ranges: 0,
    };
    let mut graph = random::graph(random, n, &shape);
    // From a parent to one that is listed before it, so that none reaches itself.
    let bottom_up = graph.bottom_up().expect("a chain");
    while graph.link_count() < links {
        let parent = random.between(1, nodes - 1);
        let target = bottom_up[random.pick(parent)];
        let feature = random.pick(64) as u8;
        let links = &mut graph.nodes[bottom_up[parent]].links;
        links.entry(feature).or_insert(target);
    }
    graph
}

/// A record that is accepted, of a few nodes.
fn small_record(random: &mut Xorshift, n: usize, most_nodes: usize, ranges: Ranges) -> Vec<u8> {
    let shape = Shape::small(random, most_nodes, 3).ranged(random, ranges);
    let graph = random::graph(random, n, &shape);
    random::record_of(random, &graph, ranges)
}

/// Random bytes in the form of a record: few nodes, few bits in the maps.
fn random_rows(random: &mut Xorshift, ranges: Ranges) -> Vec<u8> {
    let nodes = random.between(0, 4);
    let mut record = vec![nodes as u8];
    for _ in 0..nodes {
        let node_type = random.pick(6) as u8;
        if ranges == Ranges::Present && random.chance(1, 3) {
            record.extend([node_type | HAS_RANGE, random.byte(), random.byte()]);
        } else {
            record.push(node_type);
        }
        let mut map = [0; 8];
        for _ in 0..random.pick(3) {
            map[random.pick(8)] |= 1 << random.pick(8);
        }
        record.extend(map);
        let links: u32 = map.iter().map(|byte| byte.count_ones()).sum();
        record.extend((0..links).map(|_| random.pick(5) as u8));
    }
    record
}

/// Any bytes, up to a few dozen.
fn random_bytes(random: &mut Xorshift) -> Vec<u8> {
    let length = random.pick(40);
    (0..length).map(|_| random.byte()).collect()
}

#[test]
fn random_and_damaged_records_over_random_and_damaged_tables() {
    compare_records(1, Ranges::Absent);
}

#[test]
fn random_and_damaged_records_with_ranges() {
    compare_records(13, Ranges::Present);
}

fn compare_records(seed: u64, ranges: Ranges) {
    let compared = compare(REWRITE, seed, 20_000, |compared, random| {
        let table = match random.chance(1, 8) {
            true => random::damaged_table(random),
            false => random::valid_table(random),
        };
        // A table that is refused may state any n.
        let n = table.n.clamp(2, 64);
        for _ in 0..4 {
            let record = match random.pick(12) {
                0 => random::valid_record(random, n, ranges),
                1..=3 => small_record(random, n, 8, ranges),
                4..=8 => random::damaged_record(random, n, ranges),
                9 | 10 => random_rows(random, ranges),
                _ => random_bytes(random),
            };
            compared.check(&table, &[&record]);
        }
    });
    compared.assert_replies(&[0, 1, 2, 3, 4, 5, 6, 7, 8], 100);
}

#[test]
fn every_bit_of_a_record_and_every_length() {
    let mut compared = Comparison::new(REWRITE, 3);
    let random = &mut Xorshift::stored(4);
    for table in tables(random) {
        for (most_nodes, ranges) in [
            (2, Ranges::Absent),
            (4, Ranges::Absent),
            (2, Ranges::Present),
            (4, Ranges::Present),
        ] {
            let record = small_record(random, table.n, most_nodes, ranges);
            assert!(matches!(
                compared.check(&table, &[&record]),
                Reply::Length(_)
            ));
            for bit in 0..8 * record.len() {
                let mut damaged = record.clone();
                damaged[bit / 8] ^= 1 << (bit % 8);
                compared.check(&table, &[&damaged]);
            }
            for length in 0..record.len() {
                let reply = compared.check(&table, &[&record[..length]]);
                assert_eq!(reply.number(), Some(4), "cut to {length} bytes");
            }
            for more in 1..=20 {
                let mut extended = record.clone();
                extended.extend((0..more).map(|_| random.byte()));
                let reply = compared.check(&table, &[&extended]);
                assert_eq!(reply.number(), Some(4), "{more} bytes more");
            }
        }
    }
    compared.assert_replies(&[0, 4, 5, 6, 7, 8], 20);
}

#[test]
fn every_bit_of_a_table_and_every_number_of_types() {
    let mut compared = Comparison::new(REWRITE, 5);
    let random = &mut Xorshift::stored(6);
    for table in tables(random) {
        let record = small_record(random, table.n, 4, Ranges::Absent);
        for row in 0..table.n {
            // Of a large table one bit in eight.
            for bit in 0..64 {
                if table.n <= 16 || row % 8 == bit % 8 {
                    let mut damaged = table.clone();
                    damaged.bytes[8 * row + bit / 8] ^= 1 << (bit % 8);
                    compared.check(&damaged, &[&record]);
                }
            }
        }
        for n in (0..70).chain([255, 256, 1 << 32, 1 << 61, (1 << 61) + table.n, usize::MAX]) {
            let stated = TableBytes { n, ..table.clone() };
            let expected = if n == table.n { None } else { Some(1) };
            assert_eq!(compared.check(&stated, &[&record]).number(), expected);
        }
        for length in [0, 8 * table.n - 1, 8 * table.n + 1, 8 * table.n + 8] {
            let mut resized = table.clone();
            resized.bytes.resize(length, 0);
            assert_eq!(compared.check(&resized, &[&record]).number(), Some(1));
        }
    }
    for _ in 0..500 {
        let order = random::bounded_order(random);
        compared.check(&order, &[&record::write(&Graph::lone(1))]);
    }
    compared.assert_replies(&[0, 1, 2, 3, 8], 20);
}

#[test]
fn links_up_to_and_past_2048() {
    let mut compared = Comparison::new(REWRITE, 7);
    let random = &mut Xorshift::stored(8);
    for table in [random::diamond(), random::middles(3), random::chain(64)] {
        for nodes in [40, 100, 254, MOST_NODES] {
            for (links, number) in [(2047, None), (2048, None), (2049, Some(4)), (2300, Some(4))] {
                let graph = with_links(random, table.n, nodes, links);
                let record = record::write(&graph);
                assert_eq!(record.len(), 1 + 9 * nodes + links);
                let reply = compared.check(&table, &[&record]);
                assert_eq!(reply.number(), number, "{nodes} nodes, {links} links");
                // With faults that would be told later.
                let mut broken = record.clone();
                broken[1] = 0;
                let reply = compared.check(&table, &[&broken]);
                assert_eq!(reply.number(), Some(number.unwrap_or(5)));
            }
        }
    }
    compared.assert_replies(&[0, 4, 5, 8], 20);
}

/// The same with a range at every node: the longest record, and longer ones.
#[test]
fn links_up_to_and_past_2048_with_ranges() {
    let mut compared = Comparison::new(REWRITE, 15);
    let random = &mut Xorshift::stored(16);
    let table = random::diamond();
    for nodes in [40, 254, MOST_NODES] {
        for (links, number) in [(2047, None), (2048, None), (2049, Some(4)), (2300, Some(4))] {
            let mut graph = with_links(random, table.n, nodes, links);
            for node in &mut graph.nodes {
                let lowest = random.between(1, 255) as u8;
                node.label.range = Range {
                    lowest,
                    highest: 255,
                };
            }
            let record = record::write(&graph);
            assert_eq!(record.len(), 1 + 11 * nodes + links);
            if [nodes, links] == [MOST_NODES, MOST_LINKS] {
                assert_eq!(record.len(), LONGEST_RECORD);
            }
            let reply = compared.check(&table, &[&record]);
            assert_eq!(reply.number(), number, "{nodes} nodes, {links} links");
            // With a lowest level above the highest, which would be told later.
            let mut broken = record.clone();
            broken[3] = broken[2] - 1;
            let reply = compared.check(&table, &[&broken]);
            assert_eq!(reply.number(), Some(number.unwrap_or(5)));
        }
    }
    compared.assert_replies(&[0, 4, 5, 8], 6);
}

#[test]
fn chains_of_255_nodes() {
    let mut compared = Comparison::new(REWRITE, 9);
    let random = &mut Xorshift::stored(10);
    let table = random::diamond();
    let features: Vec<u8> = (20..28).collect();
    for nodes in [1, 2, 128, 253, 254, MOST_NODES] {
        for _ in 0..5 {
            let chain = random::chain_graph(nodes, random.pick(64) as u8, 3);
            let ladder = random::ladder(nodes, &features, 2);
            for graph in [chain, ladder] {
                let written = record::write(&graph);
                // The chain is numbered as written; other numberings give the same record.
                let shuffled = random::renumbered(random, &graph);
                let mut output = vec![0; LONGEST_RECORD];
                let record = record::write(&shuffled);
                let reply = record_engine::rewrite(table.n, &table.bytes, &record, &mut output);
                assert_eq!(reply, Ok(written.len()));
                assert_eq!(output[..written.len()], written);
                assert_eq!(
                    compared.check(&table, &[&record]),
                    Reply::Length(written.len())
                );
                // A link from the last node to any node closes a loop.
                let last = graph.nodes.len() - 1;
                let mut looping = graph.clone();
                let back = random.pick(nodes);
                looping.nodes[last]
                    .links
                    .insert(random.pick(64) as u8, back);
                let looping = record::write(&random::renumbered(random, &looping));
                assert_eq!(compared.check(&table, &[&looping]).number(), Some(6));
                // Without the links of one node the ones below it are not reached.
                if nodes > 1 {
                    let mut cut = graph.clone();
                    cut.nodes[random.pick(nodes - 1)].links.clear();
                    let cut = record::write(&random::renumbered(random, &cut));
                    assert_eq!(compared.check(&table, &[&cut]).number(), Some(7));
                }
            }
        }
    }
    compared.assert_replies(&[0, 6, 7, 8], 20);
}

#[test]
fn loops_in_parts_that_the_root_does_not_reach() {
    let mut compared = Comparison::new(REWRITE, 11);
    let random = &mut Xorshift::stored(12);
    for table in tables(random) {
        for _ in 0..20 {
            let shape = Shape::small(random, 6, 3);
            let reached = random::graph(random, table.n, &shape);
            let first = reached.nodes.len();
            // So many nodes more in a row, the last one with a link back or without.
            let more = random.between(1, 4);
            let back = first + random.pick(more);
            for (target, number) in [(Some(back), 6), (Some(random.pick(first)), 7), (None, 7)] {
                let mut graph = reached.clone();
                for node in first..first + more {
                    let next = (node + 1 < first + more).then_some(node + 1);
                    let link = next.or(target);
                    let link = link.map(|target| (random.pick(64) as u8, target));
                    graph.nodes.push(Node::new((table.n - 1) as u8, link));
                }
                let record = record::write(&random::renumbered(random, &graph));
                assert_eq!(compared.check(&table, &[&record]).number(), Some(number));
            }
        }
    }
    compared.assert_replies(&[6, 7], 100);
}
