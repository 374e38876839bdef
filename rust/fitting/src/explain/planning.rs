//! Why a planning table is refused by 4 to 7, 14 or 15: the line with the node or the row, and what
//! is wrong there.

use super::{Place, record};
use crate::graph::MOST_NODES;
use crate::planning::{self, Planning};
use crate::table::Table;
use record_engine::{FEATURES, MOST_LINKS, Row};
use std::collections::BTreeMap;

/// The cause of a refusal of a planning table, by the number of the refusal, as a message.
pub fn cause(number: u8, table: &Table, planning: &Planning) -> Option<String> {
    let (place, what, advice) = match number {
        4 => size(table, planning)?,
        14 => out_of_range(planning)?,
        15 => twice(table, planning)?,
        5..=7 => in_graph(number, table, planning)?,
        _ => return None,
    };
    Some(planning.message(place, &what, &advice))
}

/// A place, what is wrong there, and what to do.
type Words = (planning::Place, String, String);

fn size(table: &Table, planning: &Planning) -> Option<Words> {
    let nodes = planning.nodes.len();
    if nodes == 0 {
        let what = "below this header is no node".to_string();
        let top = table.type_shown(table.top());
        let advice = format!("write the root below it: `0,{top}`");
        return Some((planning.nodes_header, what, advice));
    }
    if let Some(&place) = planning.node_places.get(MOST_NODES) {
        let advice = format!("leave nodes out: a record has at most {MOST_NODES}");
        return Some((place, format!("there are {nodes} nodes"), advice));
    }
    let place = planning.row_places.get(MOST_LINKS)?[0];
    let (number, count) = (MOST_LINKS + 1, planning.rows.len());
    let what = format!("here begins link {number} of {count}");
    let advice = "leave links out: a record has at most 2,048";
    Some((place, what, advice.to_string()))
}

/// The first cell of a row with a number that no feature or no node has.
fn out_of_range(planning: &Planning) -> Option<Words> {
    let count = planning.nodes.len();
    let node = |place, node: u8| {
        let advice = || match count {
            1 => "node 0 is the only one".to_string(),
            _ => format!("the nodes are 0 to {}", count - 1),
        };
        (usize::from(node) >= count).then(|| (place, format!("there is no node {node}"), advice()))
    };
    let feature = |place, feature: u8| {
        let what = || format!("`{feature}` is too large for a feature");
        let advice = || format!("features are 0 to {}", FEATURES - 1);
        (usize::from(feature) >= FEATURES).then(|| (place, what(), advice()))
    };
    let rows = planning.rows.iter().zip(&planning.row_places);
    rows.flat_map(|(row, &places)| {
        [
            node(places[0], row.parent),
            feature(places[1], row.feature),
            node(places[2], row.target),
        ]
    })
    .flatten()
    .next()
}

/// The first row that has the same parent and feature as a row before it.
fn twice(table: &Table, planning: &Planning) -> Option<Words> {
    let mut met = BTreeMap::new();
    for (row, &[place, ..]) in planning.rows.iter().zip(&planning.row_places) {
        if let Some(before) = met.insert((row.parent, row.feature), place) {
            let (feature, line) = (table.feature_shown(row.feature), planning.line(before));
            let parent = row.parent;
            return Some((
                place,
                format!("node {parent} has the feature `{feature}` already, in line {line}"),
                "leave one of the two out: a node has one link for a feature".to_string(),
            ));
        }
    }
    None
}

/// What is wrong in the graph of rows that are in range.
fn in_graph(number: u8, table: &Table, planning: &Planning) -> Option<Words> {
    let cause = record::cause_in(number, table, &planning.graph())?;
    let place = match cause.place {
        Place::Whole => planning.nodes_header,
        Place::Node(node) => planning.node_places[node],
        Place::Link(parent, feature) => {
            let is_it = |row: &Row| (usize::from(row.parent), row.feature) == (parent, feature);
            planning.row_places[planning.rows.iter().position(is_it)?][0]
        }
    };
    Some((place, cause.what, cause.advice))
}
