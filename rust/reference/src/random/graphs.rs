//! Random graphs of a given shape, with ranges or without, graphs above a given graph, and
//! pairs of graphs. A record can hold each of these graphs.

use super::Xorshift;
use crate::graph::{Feature, Graph, Node, ROOT};
use crate::label::{Label, Level, Range};
use crate::record::{MOST_LINKS, MOST_NODES};
use crate::table::{Table, Type};
use std::collections::BTreeMap;

/// Whether random inputs have ranges.
#[derive(Clone, Copy, Debug, PartialEq, Eq)]
pub enum Ranges {
    /// Every range is full, and none is spelled out.
    Absent,
    /// Some nodes have a range, and some full ranges may be spelled out.
    Present,
}

/// The shape of a random graph.
#[derive(Clone, Debug, PartialEq, Eq)]
pub struct Shape {
    /// How many nodes.
    pub nodes: usize,
    /// How many links to try to add to those that reach each node once.
    pub extra_links: usize,
    /// The features to use, at least one.
    pub features: Vec<Feature>,
    /// Each new node hangs below one of this many nodes before it; 1 makes a chain.
    pub spread: usize,
    /// This many of four nodes are top. The others have any type.
    pub tops: usize,
    /// This many of four nodes have a range. The others have the full range.
    pub ranges: usize,
}

impl Shape {
    /// A shape of a few nodes and features, without ranges.
    pub fn small(random: &mut Xorshift, most_nodes: usize, most_features: usize) -> Shape {
        let features = random.between(1, most_features);
        let most_extra = *random.choose(&[1, most_nodes, 4 * most_nodes]);
        Shape {
            nodes: random.between(1, most_nodes),
            extra_links: random.between(0, most_extra),
            features: (0..features as Feature).collect(),
            spread: random.between(1, most_nodes),
            tops: *random.choose(&[0, 2, 2, 4]),
            ranges: 0,
        }
    }

    /// The same shape, with ranges at some nodes if `ranges` are present.
    pub fn ranged(self, random: &mut Xorshift, ranges: Ranges) -> Shape {
        match ranges {
            Ranges::Absent => self,
            Ranges::Present => Shape {
                ranges: *random.choose(&[0, 1, 2, 4]),
                ..self
            },
        }
    }

    /// A shape of many shared nodes, few of them top, without ranges: a difference often
    /// numbers its nodes in another order than such a graph.
    pub fn shared(random: &mut Xorshift) -> Shape {
        let nodes = random.between(10, 40);
        let features = random.between(3, 5);
        Shape {
            nodes,
            extra_links: 2 * nodes,
            features: (0..features as Feature).collect(),
            spread: 3,
            tops: 0,
            ranges: 0,
        }
    }

    /// A shape of up to 255 nodes and 2,048 links, without ranges.
    pub fn large(random: &mut Xorshift) -> Shape {
        let features = *random.choose(&[2, 8, 64]);
        let nodes = *random.choose(&[40, 200, 254, MOST_NODES]);
        Shape {
            nodes,
            extra_links: random.pick(2 * MOST_LINKS),
            features: (0..features).collect(),
            spread: *random.choose(&[1, 2, 20, MOST_NODES]),
            tops: random.pick(5),
            ranges: 0,
        }
    }

    /// Mostly small shapes, some of any size that a record can have, without ranges.
    pub fn any(random: &mut Xorshift) -> Shape {
        let most_nodes = *random.choose(&[3, 5, 5, 8, 8, 16, 40, 120, MOST_NODES]);
        let mut shape = Shape::small(random, most_nodes, 6);
        if random.chance(1, 4) {
            shape.extra_links = random.pick(MOST_LINKS);
        }
        if random.chance(1, 3) {
            shape.features = any_features(random);
        }
        if random.chance(1, 50) {
            shape.nodes = MOST_NODES;
            shape.extra_links = 2 * MOST_LINKS;
            shape.features = (0..64).collect();
        }
        shape
    }
}

/// Some of the 64 features.
fn any_features(random: &mut Xorshift) -> Vec<Feature> {
    let mut features: Vec<Feature> = (0..64).collect();
    random.shuffle(&mut features);
    let count = *random.choose(&[1, 2, 4, 8, 16, 64]);
    features.truncate(count);
    features
}

/// A graph over n types that a record can hold, in any numbering with the root at 0.
pub fn graph(random: &mut Xorshift, n: usize, shape: &Shape) -> Graph {
    let mut nodes: Vec<Node> = Vec::new();
    for number in 0..shape.nodes.min(MOST_NODES) {
        nodes.push(Node::new(label(random, n, shape), []));
        if number > ROOT {
            let nearest = number.saturating_sub(shape.spread);
            let parent = random.between(nearest, number - 1);
            let feature = *random.choose(&shape.features);
            // The node before this one has no links yet, so it has room.
            let parent = match nodes[parent].links.contains_key(&feature) {
                true => number - 1,
                false => parent,
            };
            nodes[parent].links.insert(feature, number);
        }
    }
    let mut links = nodes.len() - 1;
    for _ in 0..shape.extra_links {
        // Links go from lower to higher numbers, so no node reaches itself.
        let (a, b) = (random.pick(nodes.len()), random.pick(nodes.len()));
        let feature = *random.choose(&shape.features);
        let parent = &mut nodes[a.min(b)];
        if a != b && links < MOST_LINKS && !parent.links.contains_key(&feature) {
            parent.links.insert(feature, a.max(b));
            links += 1;
        }
    }
    renumbered(random, &Graph { nodes })
}

/// A label that a node of this shape can have.
pub(super) fn label(random: &mut Xorshift, n: usize, shape: &Shape) -> Label {
    let node_type = node_type(random, n, shape.tops);
    let range = match shape.ranges > 0 && random.chance(shape.ranges, 4) {
        true => range(random),
        false => Range::FULL,
    };
    Label { node_type, range }
}

/// A range that is not empty and seldom full. Few levels come up often, so that ranges
/// have ends in common; most ranges overlap.
pub fn range(random: &mut Xorshift) -> Range {
    let low = *random.choose(&[0, 1, 10, 100]);
    let high = *random.choose(&[120, 200, 254, 255]);
    let any = [random.byte(), random.byte()];
    let (lowest, highest) = match random.pick(10) {
        0 => (0, low),
        1 => (high, 255),
        2 => (any[0].min(any[1]), any[0].max(any[1])),
        3 => (high, high),
        _ => (low, high),
    };
    Range { lowest, highest }
}

/// A type that a node can have, top in so many of four cases and otherwise any.
fn node_type(random: &mut Xorshift, n: usize, tops: usize) -> Type {
    if random.chance(tops, 4) {
        (n - 1) as Type
    } else {
        random.between(1, n - 1) as Type
    }
}

/// The same graph in any numbering with the root at 0.
pub fn renumbered(random: &mut Xorshift, graph: &Graph) -> Graph {
    let mut old: Vec<usize> = (0..graph.nodes.len()).collect();
    random.shuffle(&mut old[1..]);
    with_nodes(graph, &old)
}

/// The graph of the nodes given, which no link leaves, numbered by their places.
fn with_nodes(graph: &Graph, old: &[usize]) -> Graph {
    let number: BTreeMap<usize, usize> = old.iter().copied().zip(0..).collect();
    let nodes = old.iter().map(|&old| Node {
        label: graph.nodes[old].label,
        links: graph.nodes[old]
            .links
            .iter()
            .map(|(&feature, target)| (feature, number[target]))
            .collect(),
    });
    Graph {
        nodes: nodes.collect(),
    }
}

/// A chain of nodes of one type on one feature.
pub fn chain_graph(nodes: usize, feature: Feature, node_type: Type) -> Graph {
    ladder(nodes, &[feature], node_type)
}

/// Nodes of one type in a row, each with a link to the next for every feature: with
/// two features or more the paths are exponentially many.
pub fn ladder(nodes: usize, features: &[Feature], node_type: Type) -> Graph {
    let node = |number: usize| {
        let features = features.iter().filter(|_| number + 1 < nodes);
        Node::new(node_type, features.map(|&feature| (feature, number + 1)))
    };
    Graph {
        nodes: (0..nodes).map(node).collect(),
    }
}

/// A graph above the given one, made by one random step: a type is raised, a range is
/// widened, a link is dropped with all that only it reaches, or a shared node is split in
/// two. Gives none if the step is impossible.
pub fn weakened(random: &mut Xorshift, table: &Table, graph: &Graph) -> Option<Graph> {
    match random.pick(5) {
        0 | 1 => Some(raised(random, table, graph)),
        2 => dropped(random, graph),
        _ => parted(random, graph),
    }
}

/// The graph with the type of a node raised or its range widened, or left as it is.
fn raised(random: &mut Xorshift, table: &Table, graph: &Graph) -> Graph {
    let mut weaker = graph.clone();
    let node = random.pick(graph.nodes.len());
    let label = &mut weaker.nodes[node].label;
    if label.range != Range::FULL && random.chance(1, 2) {
        label.range = range_around(random, label.range);
    } else {
        let other = random.pick(table.n()) as Type;
        label.node_type = table.join(label.node_type, other);
    }
    weaker
}

/// A range that the one given lies inside, which may be the same.
pub fn range_around(random: &mut Xorshift, inner: Range) -> Range {
    let below = random.between(0, usize::from(inner.lowest)) as Level;
    let above = random.between(usize::from(inner.highest), 255) as Level;
    Range {
        lowest: *random.choose(&[0, inner.lowest, below]),
        highest: *random.choose(&[255, inner.highest, above]),
    }
}

/// One of the types above or equal to the one given.
pub(super) fn type_above(random: &mut Xorshift, table: &Table, lower: Type) -> Type {
    let above: Vec<Type> = table.types().filter(|&c| table.below(lower, c)).collect();
    *random.choose(&above)
}

/// A graph in which a third of the nodes have type 1.
pub fn low_graph(random: &mut Xorshift, n: usize, shape: &Shape) -> Graph {
    let mut low = graph(random, n, shape);
    for node in &mut low.nodes {
        if random.chance(1, 3) {
            node.label.node_type = 1;
        }
    }
    low
}

/// A graph above the one given, by a few steps and with every other type raised and
/// every other range widened.
pub fn graph_well_above(random: &mut Xorshift, table: &Table, graph: &Graph) -> Graph {
    let mut above = graph_above(random, table, graph);
    for node in &mut above.nodes {
        let label = &mut node.label;
        if random.chance(1, 2) {
            label.node_type = type_above(random, table, label.node_type);
        }
        if label.range != Range::FULL && random.chance(1, 2) {
            label.range = range_around(random, label.range);
        }
    }
    above
}

/// A graph well above another, and that one, which has many nodes of type 1.
pub fn low_pair(random: &mut Xorshift, table: &Table, shape: &Shape) -> (Graph, Graph) {
    let low = low_graph(random, table.n(), shape);
    (graph_well_above(random, table, &low), low)
}

/// The graph without one of its links, if it has any.
fn dropped(random: &mut Xorshift, graph: &Graph) -> Option<Graph> {
    let links = graph.incoming().concat();
    if links.is_empty() {
        return None;
    }
    let link = random.choose(&links);
    let mut weaker = graph.clone();
    weaker.nodes[link.parent].links.remove(&link.feature);
    Some(without_unreached(&weaker))
}

/// The graph with a shared node split in two. Some of its incoming links lead to each of
/// the two. Gives none if no node is shared or a record cannot hold the result.
fn parted(random: &mut Xorshift, graph: &Graph) -> Option<Graph> {
    let incoming = graph.incoming();
    let shared: Vec<usize> = (0..graph.nodes.len())
        .filter(|&node| incoming[node].len() >= 2)
        .collect();
    if shared.is_empty() {
        return None;
    }
    let node = *random.choose(&shared);
    let mut weaker = graph.clone();
    let copy = graph.nodes.len();
    weaker.nodes.push(graph.nodes[node].clone());
    // At least one link is moved to the copy, and at least one stays.
    let mut links = incoming[node].clone();
    random.shuffle(&mut links);
    let moved = random.between(1, links.len() - 1);
    for link in &links[..moved] {
        weaker.nodes[link.parent].links.insert(link.feature, copy);
    }
    let fits = weaker.nodes.len() <= MOST_NODES && weaker.link_count() <= MOST_LINKS;
    fits.then_some(weaker)
}

/// The graph without the nodes that its root does not reach.
fn without_unreached(graph: &Graph) -> Graph {
    let reached: Vec<usize> = graph.reached().into_iter().collect();
    with_nodes(graph, &reached)
}

/// A graph above the one given, by several steps.
pub fn graph_above(random: &mut Xorshift, table: &Table, graph: &Graph) -> Graph {
    let mut above = graph.clone();
    let steps = *random.choose(&[0, 1, 2, 4, 8, 16]);
    for _ in 0..steps {
        above = weakened(random, table, &above).unwrap_or(above);
    }
    renumbered(random, &above)
}

/// Two graphs made apart from each other, with the same features.
pub fn unrelated(random: &mut Xorshift, n: usize, shape: &Shape) -> (Graph, Graph) {
    let other = Shape {
        nodes: random.between(1, shape.nodes),
        extra_links: random.between(shape.extra_links / 2, shape.extra_links),
        ..shape.clone()
    };
    let first = graph(random, n, shape);
    (first, graph(random, n, &other))
}

/// Two graphs: unrelated, or one above the other, or both above a third.
pub fn pair(random: &mut Xorshift, table: &Table, shape: &Shape) -> (Graph, Graph) {
    if random.chance(2, 6) {
        return unrelated(random, table.n(), shape);
    }
    let base = graph(random, table.n(), shape);
    match random.pick(4) {
        0 => (base.clone(), graph_above(random, table, &base)),
        1 => {
            let first = graph_above(random, table, &base);
            (first, graph_above(random, table, &base))
        }
        _ => (graph_above(random, table, &base), base),
    }
}
