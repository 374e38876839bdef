//! The common part: the pairs of nodes that one path leads to in both graphs.

use crate::Refusal;
use crate::bounds::Bounds;
use crate::graph::{Graph, Link};

/// Makes the common part, or gives 11.
pub fn generalize(joins: &Bounds, a: &Graph, b: &Graph, common: &mut Graph) -> Result<(), Refusal> {
    // A pair's number is at most 254.
    const CLEAR: u8 = u8::MAX;
    let mut marks = [CLEAR; 65025];
    let mut queue = [(0u8, 0u8); 255];
    marks[0] = 0;
    let (mut next, mut end, mut links) = (0, 1, 0);
    while next < end {
        let (u, v) = queue[next];
        let (u, v) = (usize::from(u), usize::from(v));
        common.types[next] = joins.join(a.types[u], b.types[v]);
        common.ranges[next] = a.ranges[u].hull(b.ranges[v]);
        let (left, right) = (a.row(u), b.row(v));
        let (mut i, mut j) = (0, 0);
        while i < left.len() && j < right.len() {
            let (one, other) = (left[i], right[j]);
            if one.feature() < other.feature() {
                i += 1;
                continue;
            }
            if other.feature() < one.feature() {
                j += 1;
                continue;
            }
            (i, j) = (i + 1, j + 1);
            let mark = &mut marks[255 * one.target() + other.target()];
            if *mark == CLEAR {
                if end == 255 {
                    return Err(Refusal::of(11));
                }
                *mark = end as u8;
                queue[end] = (one.target() as u8, other.target() as u8);
                end += 1;
            }
            let Some(link) = common.links.get_mut(links) else {
                return Err(Refusal::of(11));
            };
            *link = Link::new(one.feature(), *mark);
            links += 1;
        }
        next += 1;
        common.first[next] = links as u16;
    }
    common.nodes = end;
    Ok(())
}
