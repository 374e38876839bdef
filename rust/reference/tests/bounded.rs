//! Bounded searches over all small graphs. A counterexample among small graphs refutes a result. If
//! there is none, that proves nothing about larger graphs. So each test says which half of its claim
//! is exact.

use reference::canonical::canonical;
use reference::difference::difference_by;
use reference::generalize::generalize;
use reference::graph::{FEATURES, Feature, Graph, Node};
use reference::label::{Label, Level, Range};
use reference::link_order::LinkOrder;
use reference::order::below;
use reference::random::{self, TableBytes};
use reference::table::Table;
use reference::unify::unify;
use std::collections::{BTreeMap, BTreeSet};

/// All canonical graphs with a few nodes, features and ranges over a table, and for
/// each the places of the graphs above and below it.
struct Universe {
    table: Table,
    graphs: Vec<Graph>,
    place: BTreeMap<Graph, usize>,
    above: Vec<BTreeSet<usize>>,
    below: Vec<BTreeSet<usize>>,
}

impl Universe {
    /// Every range is full.
    fn new(table: &TableBytes, most_nodes: usize, features: Feature) -> Universe {
        Universe::with_ranges(table, most_nodes, features, &[Range::FULL])
    }

    fn with_ranges(
        table: &TableBytes,
        most_nodes: usize,
        features: Feature,
        ranges: &[Range],
    ) -> Universe {
        let table = table.accepted();
        let labels = (table.types().skip(1))
            .flat_map(|node_type| ranges.iter().map(move |&range| Label { node_type, range }));
        let labels: Vec<Label> = labels.collect();
        let mut graphs = Vec::new();
        for nodes in 1..=most_nodes {
            for shape in shapes(nodes, features, table.top()) {
                graphs.extend(labellings(&shape, &labels));
            }
        }
        let place = graphs.iter().cloned().zip(0..).collect();
        let mut universe = Universe {
            table,
            graphs,
            place,
            above: Vec::new(),
            below: Vec::new(),
        };
        universe.above = (universe.graphs.iter())
            .map(|graph| universe.places_above(graph))
            .collect();
        universe.below = (universe.graphs.iter())
            .map(|graph| universe.places_below(graph))
            .collect();
        universe
    }

    fn places(&self) -> std::ops::Range<usize> {
        0..self.graphs.len()
    }

    fn places_above(&self, graph: &Graph) -> BTreeSet<usize> {
        self.places()
            .filter(|&upper| below(&self.table, graph, &self.graphs[upper]))
            .collect()
    }

    fn places_below(&self, graph: &Graph) -> BTreeSet<usize> {
        self.places()
            .filter(|&lower| below(&self.table, &self.graphs[lower], graph))
            .collect()
    }

    /// For each pair: the common part is above both, and is below all small
    /// graphs above both. The first half is exact; a small graph above both and
    /// not above the common part would refute that it is the least.
    fn check_common_parts(&self) -> usize {
        let mut above_common: BTreeMap<Graph, BTreeSet<usize>> = BTreeMap::new();
        for a in self.places() {
            for b in a..self.graphs.len() {
                let (first, second) = (&self.graphs[a], &self.graphs[b]);
                let common = canonical(&generalize(&self.table, first, second));
                assert!(below(&self.table, first, &common));
                assert!(below(&self.table, second, &common));
                let above_both: BTreeSet<usize> = self.above[a]
                    .intersection(&self.above[b])
                    .copied()
                    .collect();
                let above_common = above_common
                    .entry(common)
                    .or_insert_with_key(|common| self.places_above(common));
                assert_eq!(above_both, *above_common, "{first:?} {second:?}");
            }
        }
        above_common.len()
    }

    /// For each pair: a combination is below both, and above all small graphs
    /// below both; where it is refused no small graph is below both. That it is
    /// below both is exact, and so a pair with a combination is rightly not
    /// refused. A small graph below both would refute a refusal, or that the
    /// combination is the greatest; a graph with more nodes is not looked for.
    fn check_combinations(&self) -> (usize, usize) {
        let mut below_combined: BTreeMap<Graph, BTreeSet<usize>> = BTreeMap::new();
        let mut refused = 0;
        for a in self.places() {
            for b in a..self.graphs.len() {
                let (first, second) = (&self.graphs[a], &self.graphs[b]);
                let mut below_both = self.below[a].intersection(&self.below[b]).copied();
                let Ok(combined) = unify(&self.table, first, second) else {
                    assert_eq!(below_both.next(), None, "{first:?} {second:?}");
                    refused += 1;
                    continue;
                };
                let combined = canonical(&combined);
                assert!(below(&self.table, &combined, first));
                assert!(below(&self.table, &combined, second));
                let below_combined = below_combined
                    .entry(combined)
                    .or_insert_with_key(|combined| self.places_below(combined));
                assert!(below_both.eq(below_combined.iter().copied()));
            }
        }
        (below_combined.len(), refused)
    }

    /// For each s below a g: the difference combined with g is exactly s, and no
    /// small graph strictly more general than the difference restores s; so too where
    /// the difference by a list, with the features upward or downward, is another. The
    /// first half is exact; the second looks at small graphs only. Gives how many
    /// differences there were without a list, and how many others with one.
    ///
    /// It suffices to try the small graphs next above the difference d: were c
    /// above d to restore s, all between d and c would too, as their combination
    /// with g lies between those of d and of c, which both are s.
    fn check_differences(&self) -> [usize; 2] {
        let next_above: Vec<Vec<usize>> = self.places().map(|d| self.next_above(d)).collect();
        let upward: Vec<Feature> = (0..FEATURES as Feature).collect();
        let downward: Vec<Feature> = upward.iter().rev().copied().collect();
        let by_list = |list: &[Feature]| LinkOrder::by_list(list).expect("all features");
        let orders = [LinkOrder::ByParent, by_list(&upward), by_list(&downward)];
        let mut checked = [0; 2];
        for s in self.places() {
            for &g in &self.above[s] {
                let (lower, upper) = (&self.graphs[s], &self.graphs[g]);
                let mut results: Vec<Graph> = Vec::new();
                for order in &orders {
                    let explained = difference_by(order, &self.table, upper, lower);
                    let result = explained.expect("s is below g").graph;
                    if results.contains(&result) {
                        continue;
                    }
                    assert_eq!(self.restored(&result, upper).as_ref(), Some(lower));
                    // A difference is a part of s, so it is among the small graphs.
                    for &candidate in &next_above[self.place[&result]] {
                        let candidate = &self.graphs[candidate];
                        assert_ne!(self.restored(candidate, upper).as_ref(), Some(lower));
                    }
                    checked[usize::from(!results.is_empty())] += 1;
                    results.push(result);
                }
            }
        }
        checked
    }

    fn restored(&self, difference: &Graph, g: &Graph) -> Option<Graph> {
        let combined = unify(&self.table, difference, g).ok()?;
        Some(canonical(&combined))
    }

    /// The small graphs strictly above one, with no small graph between.
    fn next_above(&self, place: usize) -> Vec<usize> {
        let strictly_above = |&&upper: &&usize| upper != place;
        self.above[place]
            .iter()
            .filter(strictly_above)
            .filter(|&&upper| {
                let between = self.above[place].intersection(&self.below[upper]);
                between.count() == 2
            })
            .copied()
            .collect()
    }
}

/// All canonical graphs of so many nodes, all of one type.
fn shapes(nodes: usize, features: Feature, node_type: u8) -> Vec<Graph> {
    let places = nodes * usize::from(features);
    // A counter with a digit for each node and feature: no link, or its target.
    let mut digits = vec![0; places];
    let mut shapes = Vec::new();
    loop {
        let node = |digits: &[usize]| {
            let links = (0..features)
                .zip(digits)
                .filter(|&(_, &digit)| digit > 0)
                .map(|(feature, &digit)| (feature, digit - 1));
            Node::new(node_type, links)
        };
        let graph = Graph {
            nodes: digits.chunks(usize::from(features)).map(node).collect(),
        };
        if graph.bottom_up().is_some() && canonical(&graph) == graph {
            shapes.push(graph);
        }
        let Some(place) = digits.iter().position(|&digit| digit < nodes) else {
            return shapes;
        };
        digits[..place].fill(0);
        digits[place] += 1;
    }
}

/// A graph with all choices of labels for its nodes.
fn labellings(shape: &Graph, labels: &[Label]) -> Vec<Graph> {
    let mut graphs = vec![shape.clone()];
    for node in 0..shape.nodes.len() {
        graphs = graphs
            .iter()
            .flat_map(|graph| {
                labels.iter().map(|&label| {
                    let mut labelled = graph.clone();
                    labelled.nodes[node].label = label;
                    labelled
                })
            })
            .collect();
    }
    graphs
}

/// The ranges with these ends that have a level. Where 0 and 255 are among the ends,
/// hulls, overlaps that have a level, and wanted ranges are among the ranges.
fn ranges(lowest: &[Level], highest: &[Level]) -> Vec<Range> {
    let with_lowest = |&lowest: &Level| {
        let range = move |&highest: &Level| Range { lowest, highest };
        highest.iter().map(range)
    };
    lowest
        .iter()
        .flat_map(with_lowest)
        .filter(|range| !range.is_empty())
        .collect()
}

/// Graphs of three nodes over one type besides the contradiction, with four ranges
/// that all overlap; and of two nodes over the diamond, with five of which some do not.
fn universes_with_ranges() -> [Universe; 2] {
    let overlapping = ranges(&[0, 10], &[15, 255]);
    let apart = ranges(&[0, 10, 20], &[15, 255]);
    assert_eq!([overlapping.len(), apart.len()], [4, 5]);
    [
        Universe::with_ranges(&random::chain(2), 3, 2, &overlapping),
        Universe::with_ranges(&random::diamond(), 2, 2, &apart),
    ]
}

#[test]
fn the_small_graphs_are_all_there() {
    // One node: a lone node. Two: by feature 0, by 1, by both. Three: one path to
    // each new node or two, counted by hand as 16.
    let shape_counts: Vec<usize> = (1..=3).map(|nodes| shapes(nodes, 2, 3).len()).collect();
    assert_eq!(shape_counts, [1, 3, 16]);
    let universe = Universe::new(&random::diamond(), 3, 2);
    assert_eq!(universe.graphs.len(), 3 + 3 * 9 + 16 * 27);
    assert_eq!(universe.place.len(), universe.graphs.len());
    let counts = universes_with_ranges().map(|universe| universe.graphs.len());
    assert_eq!(counts, [4 + 3 * 16 + 16 * 64, 15 + 3 * 225]);
}

#[test]
fn small_graphs_below_each_other_are_equal() {
    let [first, second] = universes_with_ranges();
    for universe in [Universe::new(&random::diamond(), 3, 2), first, second] {
        for place in universe.places() {
            let equal: Vec<usize> = universe.above[place]
                .intersection(&universe.below[place])
                .copied()
                .collect();
            assert_eq!(equal, [place]);
        }
    }
}

#[test]
fn common_parts_over_the_diamond() {
    let parts = Universe::new(&random::diamond(), 3, 2).check_common_parts();
    assert!(parts > 462, "common parts of more than three nodes come up");
}

#[test]
fn common_parts_over_other_lattices() {
    for table in [random::pentagon(), random::middles(3), random::chain(3)] {
        let parts = Universe::new(&table, 2, 2).check_common_parts();
        assert!(parts > 1);
        let parts = Universe::new(&table, 3, 1).check_common_parts();
        assert!(parts > 1);
    }
    let parts = Universe::new(&random::chain(2), 4, 2).check_common_parts();
    assert!(parts > 1);
}

#[test]
fn common_parts_with_ranges() {
    let parts = universes_with_ranges().map(|universe| universe.check_common_parts());
    assert!(parts[0] > 1076, "parts of more than three nodes come up");
    assert_eq!(parts[1], 690, "every graph is a common part");
}

#[test]
fn combinations_over_the_diamond() {
    let (combined, refused) = Universe::new(&random::diamond(), 3, 2).check_combinations();
    assert!(
        combined > 462,
        "combinations of more than three nodes come up"
    );
    assert!(refused > 0);
}

#[test]
fn combinations_over_other_lattices() {
    for table in [random::pentagon(), random::middles(3), random::chain(3)] {
        let (combined, _) = Universe::new(&table, 2, 2).check_combinations();
        assert!(combined > 1);
        let (combined, _) = Universe::new(&table, 3, 1).check_combinations();
        assert!(combined > 1);
    }
    // Over two types nothing clashes, so every refusal is a loop.
    let (_, refused) = Universe::new(&random::chain(2), 4, 2).check_combinations();
    assert!(refused > 0);
}

#[test]
fn combinations_with_ranges() {
    let [tops, apart] = universes_with_ranges().map(|universe| universe.check_combinations());
    assert!(tops.0 > 1076, "combinations of more than three nodes");
    assert!(apart.0 > 690, "combinations of more than two nodes");
    // Over one type and overlapping ranges nothing clashes, so every refusal is a loop.
    assert!(tops.1 > 0 && apart.1 > tops.1, "{tops:?} {apart:?}");
}

#[test]
fn differences_over_the_diamond() {
    let [checked, others] = Universe::new(&random::diamond(), 3, 2).check_differences();
    assert!(checked > 1000 && others > 50, "{checked} {others}");
}

#[test]
fn differences_over_chains() {
    for (table, nodes) in [(random::chain(3), 3), (random::chain(2), 4)] {
        let [checked, others] = Universe::new(&table, nodes, 2).check_differences();
        assert!(checked > 100 && others > 20, "{checked} {others}");
    }
}

#[test]
fn differences_with_ranges() {
    for universe in universes_with_ranges() {
        let [checked, others] = universe.check_differences();
        assert!(checked > 10_000 && others > 500, "{checked} {others}");
    }
}
