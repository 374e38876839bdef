//! What a reply tells, in one form for all engines. Refusals have their numbers in the papers.

use record_engine::{Counts, Order, Refusal};
use reference::reply::Reply;

/// What a reply tells.
#[derive(Clone, Copy, Debug, PartialEq, Eq)]
pub enum Told {
    /// The length of a record.
    Length(usize),
    /// The place among same, under, above and neither.
    Order(usize),
    /// The end of a listing.
    End,
    /// The number of nodes that were filled, and the number of rows.
    Counts(usize, usize),
    /// The number of the refusal. If it tells of a graph, also 0 for the first and 1 for the second.
    Refused(u8, Option<usize>),
}

impl From<Refusal> for Told {
    fn from(refusal: Refusal) -> Told {
        Told::Refused(refusal.number(), refusal.side().map(|side| side as usize))
    }
}

impl From<Result<usize, Refusal>> for Told {
    fn from(result: Result<usize, Refusal>) -> Told {
        result.map_or_else(Told::from, Told::Length)
    }
}

impl From<Result<Order, Refusal>> for Told {
    fn from(result: Result<Order, Refusal>) -> Told {
        result.map_or_else(Told::from, |order| Told::Order(order as usize))
    }
}

impl From<Result<Option<usize>, Refusal>> for Told {
    fn from(result: Result<Option<usize>, Refusal>) -> Told {
        result.map_or_else(Told::from, |length| length.map_or(Told::End, Told::Length))
    }
}

impl From<Result<Counts, Refusal>> for Told {
    fn from(result: Result<Counts, Refusal>) -> Told {
        result.map_or_else(Told::from, |Counts { nodes, rows }| {
            Told::Counts(nodes, rows)
        })
    }
}

impl From<Reply> for Told {
    fn from(reply: Reply) -> Told {
        match reply {
            Reply::Length(length) => Told::Length(length),
            Reply::Order(order) => Told::Order(order as usize),
            Reply::End => Told::End,
            Reply::Counts { nodes, rows } => Told::Counts(nodes, rows),
            Reply::Refused(refusal) => {
                Told::Refused(refusal.number(), refusal.side().map(|side| side as usize))
            }
        }
    }
}
