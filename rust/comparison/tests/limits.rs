//! Common parts with exactly as many nodes and links as a record can hold, and with one more. The
//! pairs of graphs are random; nodes and links are added below both roots until the size fits.

use comparison::{Comparison, GENERALIZE};
use reference::generalize::generalize;
use reference::graph::{Feature, Graph, Node, ROOT};
use reference::random::{self, Shape, TableBytes, Xorshift};
use reference::record::{self, MOST_LINKS, MOST_NODES};
use std::collections::BTreeSet;

/// How many pairs are compared at each limit.
const PAIRS: usize = 150;

/// Adds as many nodes and links to two graphs, the same to both, below the root and
/// by features that neither graph has, so that their common part gets them once.
fn hang(
    random: &mut Xorshift,
    n: usize,
    graphs: [&mut Graph; 2],
    features: &[Feature],
    nodes: usize,
    links: usize,
) {
    let mut places = BTreeSet::new();
    let mut hung = Vec::new();
    for child in 1..=nodes {
        while hung.len() < child {
            let place = (random.pick(child), *random.choose(features));
            if places.insert(place) {
                hung.push((place, child));
            }
        }
    }
    while hung.len() < links {
        let child = random.between(1, nodes);
        let place = (random.pick(child), *random.choose(features));
        if places.insert(place) {
            hung.push((place, child));
        }
    }
    for graph in graphs {
        let first = graph.nodes.len();
        let number = |place: usize| if place == 0 { ROOT } else { first + place - 1 };
        for _ in 0..nodes {
            let node_type = random.between(1, n - 1) as u8;
            graph.nodes.push(Node::new(node_type, []));
        }
        for &((parent, feature), child) in &hung {
            let links = &mut graph.nodes[number(parent)].links;
            links.insert(feature, number(child));
        }
        *graph = random::renumbered(random, graph);
    }
}

/// Two unrelated graphs over some features, a common part of them, and the other features.
fn unrelated(
    random: &mut Xorshift,
    table: &TableBytes,
    most: usize,
) -> ([Graph; 2], Graph, Vec<Feature>) {
    let mut features: Vec<Feature> = (0..64).collect();
    random.shuffle(&mut features);
    let other = features.split_off(random.between(2, 4));
    let nodes = random.between(20, most);
    let shape = Shape {
        nodes,
        extra_links: random.pick(2 * nodes),
        features,
        spread: *random.choose(&[1, 2, 5]),
        tops: random.pick(5),
        ranges: 0,
    };
    let (first, second) = random::unrelated(random, table.n, &shape);
    let common = generalize(&table.accepted(), &first, &second);
    ([first, second], common, other)
}

/// Compares pairs of graphs and tells how many nodes and links their common parts have.
fn compare(
    compared: &mut Comparison,
    table: &TableBytes,
    [first, second]: &[Graph; 2],
    [nodes, links]: [usize; 2],
) {
    let common = generalize(&table.accepted(), first, second);
    assert_eq!([common.nodes.len(), common.link_count()], [nodes, links]);
    let records = [first, second].map(record::write);
    let reply = compared.check(table, &[&records[0], &records[1]]);
    let large = nodes > MOST_NODES || links > MOST_LINKS;
    assert_eq!(reply.number(), large.then_some(11));
}

#[test]
fn common_parts_of_255_and_of_256_nodes() {
    let mut compared = Comparison::new(GENERALIZE, 51);
    let random = &mut Xorshift::stored(52);
    for limit in [MOST_NODES, MOST_NODES + 1] {
        let mut pairs = 0;
        while pairs < PAIRS {
            let table = random::valid_table(random);
            let (mut graphs, common, features) = unrelated(random, &table, 120);
            let size = graphs[0].nodes.len().max(graphs[1].nodes.len());
            if common.nodes.len() > limit || size + limit - common.nodes.len() > MOST_NODES {
                continue;
            }
            let nodes = limit - common.nodes.len();
            let links = nodes + if nodes > 0 { random.pick(nodes) } else { 0 };
            let [first, second] = &mut graphs;
            hang(random, table.n, [first, second], &features, nodes, links);
            let size = [limit, common.link_count() + links];
            compare(&mut compared, &table, &graphs, size);
            pairs += 1;
        }
    }
    compared.assert_replies(&[0, 8, 11], PAIRS);
}

#[test]
fn common_parts_of_2048_and_of_2049_links() {
    let mut compared = Comparison::new(GENERALIZE, 53);
    let random = &mut Xorshift::stored(54);
    for limit in [MOST_LINKS, MOST_LINKS + 1] {
        let mut pairs = 0;
        while pairs < PAIRS {
            let table = random::valid_table(random);
            let (mut graphs, common, features) = unrelated(random, &table, 60);
            let most = graphs[0].link_count().max(graphs[1].link_count());
            let nodes = random.between(40, 100);
            if common.nodes.len() + nodes > MOST_NODES || common.link_count() > limit {
                continue;
            }
            let links = limit - common.link_count();
            if links < nodes || most + links > MOST_LINKS {
                continue;
            }
            let [first, second] = &mut graphs;
            hang(random, table.n, [first, second], &features, nodes, links);
            let size = [common.nodes.len() + nodes, limit];
            compare(&mut compared, &table, &graphs, size);
            pairs += 1;
        }
    }
    compared.assert_replies(&[0, 8, 11], PAIRS);
}
