//! Why a record is refused by 4 to 7 or 18: where its bytes end, which node has something out of
//! range, which node reaches itself and by which path, which node no path leads to, or which node
//! has a feature that is for other types.

use super::{Cause, Place, listed};
use crate::graph::{Graph, Link, Malformed};
use crate::input::Input;
use crate::table::Table;
use record_engine::MOST_LINKS;

/// The cause of a refusal of a record, by the number of the refusal.
pub fn cause(number: u8, table: &Table, input: &Input) -> Option<Cause> {
    match (number, Graph::decode(&input.record)) {
        (4, _) => malformed(&input.record),
        (_, Ok(graph)) => cause_in(number, table, &graph),
        _ => None,
    }
}

/// The cause of a refusal of a graph, by the number of the refusal, 5 to 7 or 18.
pub fn cause_in(number: u8, table: &Table, graph: &Graph) -> Option<Cause> {
    match number {
        5 => out_of_range(table, graph),
        6 => cycle(table, graph),
        7 => unreached(table, graph),
        18 => inappropriate(table, graph),
        _ => None,
    }
}

/// What keeps bytes from being nodes and links of a record.
pub fn malformed(record: &[u8]) -> Option<Cause> {
    let length = record.len();
    let (what, advice) = match Graph::decode(record) {
        Err(Malformed::NoNodes) if length == 0 => (
            "there are no bytes".to_string(),
            "hand in a record of 10 bytes or more, or text",
        ),
        Err(Malformed::NoNodes) => (
            "byte 0, the number of nodes, is 0".to_string(),
            "a record has 1 to 255 nodes: is this another kind of file?",
        ),
        Err(Malformed::Ends { node, part }) => (
            format!("it ends after {length} bytes, in the {part} of node {node}"),
            "fetch the rest of the bytes, or correct the number of nodes in byte 0",
        ),
        Err(Malformed::LeftOver { length: nodes }) => (
            format!("its nodes end after {nodes} bytes, and it has {length}"),
            "cut off what follows, or correct the number of nodes in byte 0",
        ),
        Ok(graph) if graph.link_count() > MOST_LINKS => (
            format!("it has {} links", graph.link_count()),
            "leave links out: a record has at most 2,048",
        ),
        Ok(_) => return None,
    };
    Some(Cause::new(Place::Whole, what, advice))
}

fn out_of_range(table: &Table, graph: &Graph) -> Option<Cause> {
    let types = format!("a node's type is 1 to {}", table.n - 1);
    let count = graph.nodes.len();
    for (number, node) in graph.nodes.iter().enumerate() {
        let place = Place::Node(number);
        let name = table.type_shown(node.node_type);
        if node.node_type == 0 {
            let what = format!("node {number} has type {name}, the contradiction");
            return Some(Cause::new(place, what, types));
        }
        if usize::from(node.node_type) >= table.n {
            let what = format!("node {number} has type {name}, which the table does not have");
            return Some(Cause::new(place, what, types));
        }
        if node.levels.is_empty() {
            let what = format!("node {number} has levels {}", node.levels);
            let advice = "the lowest level comes first: exchange the two, if they are meant";
            return Some(Cause::new(place, what, advice));
        }
        if let Some(link) = node.links.iter().find(|link| link.target >= count) {
            let feature = table.feature_shown(link.feature);
            let what = format!(
                "link {feature} of node {number} leads to node {}",
                link.target
            );
            let advice = format!("the record's nodes are 0 to {}", count - 1);
            return Some(Cause::new(Place::Link(number, link.feature), what, advice));
        }
    }
    None
}

fn cycle(table: &Table, graph: &Graph) -> Option<Cause> {
    let cycle = graph.cycle()?;
    let node = cycle.node;
    let where_it_is = match graph.paths()[node].as_deref() {
        Some([]) => "the root".to_string(),
        Some(path) => format!("node {node}, at {},", table.path(path)),
        None => format!("node {node}, which the root does not reach,"),
    };
    Some(Cause::new(
        Place::Link(cycle.closing.0, cycle.closing.1),
        format!(
            "{where_it_is} reaches itself by {}",
            table.path(&cycle.around)
        ),
        "let one link on this way lead elsewhere",
    ))
}

fn unreached(table: &Table, graph: &Graph) -> Option<Cause> {
    const SHOWN: usize = 5;
    let paths = graph.paths();
    let alone: Vec<usize> = (0..paths.len()).filter(|&n| paths[n].is_none()).collect();
    let shown = alone.iter().take(SHOWN).map(|&number| {
        let name = table.type_shown(graph.nodes[number].node_type);
        format!("node {number} ({name})")
    });
    let mut shown: Vec<String> = shown.collect();
    if alone.len() > SHOWN {
        shown.push(format!("{} more", alone.len() - SHOWN));
    }
    Some(Cause::new(
        Place::Node(*alone.first()?),
        format!("no path from the root leads to {}", listed(&shown)),
        "add links to what is meant to stand there, or leave the nodes out",
    ))
}

/// The first link that the table's list forbids.
fn inappropriate(table: &Table, graph: &Graph) -> Option<Cause> {
    let list = table.list.as_ref()?;
    let paths = graph.paths();
    for (number, node) in graph.nodes.iter().enumerate() {
        let forbidden = |link: &&Link| {
            let broadest = list[usize::from(link.feature)];
            !table.below(node.node_type, broadest)
        };
        let Some(link) = node.links.iter().find(forbidden) else {
            continue;
        };
        let [feature, own] = [
            table.feature_shown(link.feature),
            table.type_shown(node.node_type),
        ];
        let where_it_is = table.path(paths[number].as_deref()?);
        let (who, advice) = match list[usize::from(link.feature)] {
            0 => (
                "which no type may have".to_string(),
                "leave the link out, or correct the feature".to_string(),
            ),
            broadest => {
                let broadest = table.type_shown(broadest);
                (
                    format!("which is for {broadest} and the types below it"),
                    format!("leave the link out, or give the node a type from {broadest} down"),
                )
            }
        };
        let what = format!("{where_it_is} is of type {own} and has the feature {feature}, {who}");
        return Some(Cause::new(Place::Link(number, link.feature), what, advice));
    }
    None
}
