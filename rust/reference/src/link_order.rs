//! The order of links, by which a difference keeps the least link of each group. It is
//! document 01's order, or the order by a reading order, which is a list of all features in
//! the order in which a clinic reads them (Paper 10).

use crate::graph::{FEATURES, Feature, Link};
use std::collections::BTreeSet;

/// An order of links.
#[derive(Clone, Debug, PartialEq, Eq)]
pub enum LinkOrder {
    /// "Links are ordered by parent number, then feature."
    ByParent,
    /// "Order links by the feature's place in the list, then by parent number": for each
    /// feature its place.
    ByList([u8; FEATURES]),
}

impl LinkOrder {
    /// The order by a list. Gives none, which is refusal 19, if the list is not "a list of all
    /// 64 features, each once".
    pub fn by_list(list: &[u8]) -> Option<LinkOrder> {
        let list: [Feature; FEATURES] = list.try_into().ok()?;
        let mut places = [None; FEATURES];
        for (place, &feature) in (0..).zip(&list) {
            let first = places.get_mut(usize::from(feature))?.replace(place);
            if first.is_some() {
                return None;
            }
        }
        // 64 features that differ are all of them.
        let places = places.map(|place| place.expect("every feature has a place"));
        Some(LinkOrder::ByList(places))
    }

    /// The least of some links, by the parents' numbers in the links.
    pub fn least(&self, links: &BTreeSet<Link>) -> Option<Link> {
        match self {
            LinkOrder::ByParent => links.first().copied(),
            LinkOrder::ByList(places) => links
                .iter()
                .copied()
                .min_by_key(|link| (places[usize::from(link.feature)], link.parent)),
        }
    }
}
