//! Document 01's sentences over paths, taken literally. A graph is its set of paths, their
//! types and ranges, and which paths share (corefer). The number of paths may be
//! exponential, so this module is for small graphs. Tests compare the other modules with it
//! there.

use crate::canonical::canonical;
use crate::graph::{Feature, Graph, Node, ROOT};
use crate::label::Label;
use crate::reply::Refusal;
use crate::table::{Table, Type};
use std::collections::{BTreeMap, BTreeSet};

/// A list of features from the root; the empty path is the root.
pub type Path = Vec<Feature>;

/// A graph over its paths.
#[derive(Clone, Debug, PartialEq, Eq)]
pub struct PathGraph {
    /// The type and the range of each path.
    pub labels: BTreeMap<Path, Label>,
    /// The classes of paths that share.
    pub classes: BTreeSet<BTreeSet<Path>>,
}

/// All paths of a graph, each with the node it leads to.
pub fn paths(graph: &Graph) -> BTreeMap<Path, usize> {
    let mut paths = BTreeMap::new();
    let mut waiting = vec![(Path::new(), ROOT)];
    while let Some((path, node)) = waiting.pop() {
        for (&feature, &target) in &graph.nodes[node].links {
            waiting.push((extended(&path, feature), target));
        }
        paths.insert(path, node);
    }
    paths
}

/// A path with one more feature.
fn extended(path: &Path, feature: Feature) -> Path {
    let mut longer = path.clone();
    longer.push(feature);
    longer
}

impl PathGraph {
    /// The paths of a graph, their labels and classes.
    pub fn of(graph: &Graph) -> PathGraph {
        let mut by_node: BTreeMap<usize, BTreeSet<Path>> = BTreeMap::new();
        let mut labels = BTreeMap::new();
        for (path, node) in paths(graph) {
            labels.insert(path.clone(), graph.nodes[node].label);
            by_node.entry(node).or_default().insert(path);
        }
        PathGraph {
            labels,
            classes: by_node.into_values().collect(),
        }
    }

    /// Whether two paths of the graph share.
    pub fn corefer(&self, p: &Path, q: &Path) -> bool {
        self.classes
            .iter()
            .any(|class| class.contains(p) && class.contains(q))
    }

    /// The graph in canonical form, a node for each class.
    pub fn graph(&self) -> Graph {
        let class_of = |path: &Path| self.classes.iter().position(|class| class.contains(path));
        let nodes = self.classes.iter().map(|class| {
            let path = class.first().expect("a class has a path");
            let links = (0..64).filter_map(|feature| {
                class_of(&extended(path, feature)).map(|target| (feature, target))
            });
            Node {
                label: self.labels[path],
                links: links.collect(),
            }
        });
        // The empty path comes before all others, so its class is the first.
        canonical(&Graph {
            nodes: nodes.collect(),
        })
    }
}

/// Whether s is below g: "every path of g is a path of s, its type in s is below
/// or equal to its type in g, and paths that share in g share in s"; its range in s
/// lies inside its range in g.
pub fn below(table: &Table, s: &PathGraph, g: &PathGraph) -> bool {
    let paths_and_labels = g.labels.iter().all(|(path, &upper)| {
        s.labels
            .get(path)
            .is_some_and(|&lower| lower.is_below(table, upper))
    });
    let sharing = g
        .classes
        .iter()
        .all(|class| class.iter().all(|p| class.iter().all(|q| s.corefer(p, q))));
    paths_and_labels && sharing
}

/// Whether a graph obeys a list: for each path that goes on by a feature, its type is
/// "below or equal to" the one that the list gives for the feature.
pub fn obeys(table: &Table, list: &[Type], graph: &PathGraph) -> bool {
    graph.labels.keys().all(|path| match path.split_last() {
        None => true,
        Some((&feature, shorter)) => {
            table.below(graph.labels[shorter].node_type, list[usize::from(feature)])
        }
    })
}

/// The common part: "the paths in both, each with the join of its two types, two
/// sharing exactly when they share in both"; each has "the smallest range holding
/// both".
pub fn generalize(table: &Table, first: &PathGraph, second: &PathGraph) -> PathGraph {
    let mut labels = BTreeMap::new();
    for (path, &left) in &first.labels {
        if let Some(&right) = second.labels.get(path) {
            labels.insert(path.clone(), left.join(table, right));
        }
    }
    let shares_with = |p: &Path| -> BTreeSet<Path> {
        labels
            .keys()
            .filter(|q| first.corefer(p, q) && second.corefer(p, q))
            .cloned()
            .collect()
    };
    PathGraph {
        classes: labels.keys().map(shares_with).collect(),
        labels,
    }
}

/// The combination: "sharing is the smallest equivalence that holds both graphs'
/// sharing and passes down equal features; a class has the meet of all types in
/// it", and the overlap of all ranges. The classes grow until nothing more is passed
/// down, or until a class holds a path and a longer path that begins with it. Such a
/// class reaches itself. If no class reaches itself, no path is longer than the number of
/// classes, so the loop ends.
pub fn unify(table: &Table, first: &PathGraph, second: &PathGraph) -> Result<PathGraph, Refusal> {
    let mut classes = equivalence(first.classes.union(&second.classes).cloned());
    loop {
        if classes.iter().any(reaches_itself) {
            return Err(Refusal::Cycle);
        }
        let paths: BTreeSet<Path> = classes.iter().flatten().cloned().collect();
        let features: BTreeSet<Feature> = paths.iter().flatten().copied().collect();
        let mut passed_down = classes.clone();
        for class in &classes {
            for &feature in &features {
                let longer: BTreeSet<Path> =
                    class.iter().map(|path| extended(path, feature)).collect();
                if !longer.is_disjoint(&paths) {
                    passed_down.insert(longer);
                }
            }
        }
        let next = equivalence(passed_down);
        if next == classes {
            break;
        }
        classes = next;
    }
    let mut labels = BTreeMap::new();
    for class in &classes {
        let labels_in_class = class
            .iter()
            .flat_map(|path| [first.labels.get(path), second.labels.get(path)])
            .flatten();
        let meet = Label::meet_of(table, labels_in_class.copied());
        if meet.is_contradiction() {
            return Err(Refusal::Clash);
        }
        labels.extend(class.iter().map(|path| (path.clone(), meet)));
    }
    Ok(PathGraph { labels, classes })
}

/// The classes of the smallest equivalence that holds these sets together.
fn equivalence(sets: impl IntoIterator<Item = BTreeSet<Path>>) -> BTreeSet<BTreeSet<Path>> {
    let mut classes: Vec<BTreeSet<Path>> = Vec::new();
    for set in sets {
        let (touched, mut others): (Vec<_>, Vec<_>) = classes
            .into_iter()
            .partition(|class| !class.is_disjoint(&set));
        others.push(touched.into_iter().flatten().chain(set).collect());
        classes = others;
    }
    classes.into_iter().collect()
}

/// Whether a class holds a path and a longer path that begins with it.
fn reaches_itself(class: &BTreeSet<Path>) -> bool {
    class.iter().any(|short| {
        class
            .iter()
            .any(|long| long.len() > short.len() && long.starts_with(short))
    })
}
