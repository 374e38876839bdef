//! The order: which of two graphs is the broader. It checks in both directions whether one graph
//! is below the other.

use crate::graph::Graph;
use crate::table::Table;

/// Which of two graphs is the broader, seen from the first.
#[derive(Clone, Copy, Debug, PartialEq, Eq)]
pub enum Order {
    /// Each is below the other.
    Same,
    /// Only the first is below the second.
    Under,
    /// Only the second is below the first.
    Above,
    /// Neither is below the other.
    Neither,
}

/// Which of two graphs is the broader.
pub fn order(table: &Table, first: &Graph, second: &Graph) -> Order {
    let below = is_below(table, first, second, &mut [NONE; 256]);
    let above = is_below(table, second, first, &mut [NONE; 256]);
    match (below, above) {
        (true, true) => Order::Same,
        (true, false) => Order::Under,
        (false, true) => Order::Above,
        (false, false) => Order::Neither,
    }
}

/// The node of s for each node of g, if s is below g.
pub fn node_map(table: &Table, s: &Graph, g: &Graph) -> Option<[u8; 256]> {
    let mut map = [NONE; 256];
    is_below(table, s, g, &mut map).then_some(map)
}

/// Marks a node that is not mapped yet. It is no node number, since there are at most 255 nodes.
const NONE: u8 = u8::MAX;

/// Whether s is below g; maps the nodes of g to those of s.
fn is_below(table: &Table, s: &Graph, g: &Graph, map: &mut [u8; 256]) -> bool {
    let mut queue = [0u8; 256];
    map[0] = 0;
    let (mut next, mut end) = (0, 1);
    while next < end {
        let upper = usize::from(queue[next]);
        let lower = usize::from(map[upper]);
        let is_below = table.is_below(s.types[lower], g.types[upper])
            && s.ranges[lower].is_inside(g.ranges[upper]);
        if !is_below {
            return false;
        }
        let mut below = s.row(lower).iter();
        for link in g.row(upper) {
            let found = below.find(|other| other.feature() >= link.feature());
            let Some(found) = found.filter(|found| found.feature() == link.feature()) else {
                return false;
            };
            let image = &mut map[link.target()];
            let target = found.target() as u8;
            if *image == NONE {
                *image = target;
                queue[end] = link.target() as u8;
                end += 1;
            } else if *image != target {
                return false;
            }
        }
        next += 1;
    }
    true
}
