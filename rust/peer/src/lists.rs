//! The two kinds of lists: lists of types for features, and reading orders.

use crate::Refusal;
use crate::graph::{Graph, Link};
use crate::table::Table;

/// A list of types for features: for each feature the broadest type that may have it.
pub type TypeList = [u8; 64];

/// Reads a list of types for features over n types, or gives 17.
pub fn type_list(n: usize, list: &[u8]) -> Result<&TypeList, Refusal> {
    let list: Option<&TypeList> = list.try_into().ok();
    list.filter(|list| list.iter().all(|&entry| usize::from(entry) < n))
        .ok_or(Refusal::of(17))
}

/// Whether every node may have the features that it has.
pub fn is_obeyed(table: &Table, list: &TypeList, graph: &Graph) -> bool {
    (0..graph.nodes).all(|node| {
        let may_have = |link: &Link| {
            let broadest = list[usize::from(link.feature())];
            table.is_below(graph.types[node], broadest)
        };
        graph.row(node).iter().all(may_have)
    })
}

/// The rank of each feature. Links are ordered by the rank of their feature, then by their places
/// in the graph.
pub type Ranks = [u8; 64];

/// The ranks without a reading order: links are ordered by parent number, then by feature.
pub const BY_NUMBER: &Ranks = &[0; 64];

/// The ranks by a reading order, or 19 if the list has not all 64 features, each once.
pub fn reading_order(list: &[u8]) -> Result<Ranks, Refusal> {
    let list: Option<&[u8; 64]> = list.try_into().ok();
    let list = list.ok_or(Refusal::of(19))?;
    let mut ranks = [0; 64];
    let mut seen = 0u64;
    for (place, &feature) in (0..).zip(list) {
        if feature >= 64 || seen >> feature & 1 == 1 {
            return Err(Refusal::of(19));
        }
        seen |= 1 << feature;
        ranks[usize::from(feature)] = place;
    }
    Ok(ranks)
}
