//! The engine's calls as a Rust programmer would write them for speed: graphs in compressed
//! rows, sets of types as machine words, buffers on the stack, no allocation. The benchmark
//! compares the engine's speed with this package. The readable implementation is
//! `reference`. The calls have the names and parameters of `record-engine`.

#![forbid(unsafe_code)]
#![warn(missing_docs)]

mod bounds;
mod calls;
mod classes;
mod difference;
mod gathering;
mod generalize;
mod graph;
mod listing;
mod lists;
mod order;
mod range;
mod rows;
mod store;
mod table;
mod unify;
mod write;

pub use calls::{check_table, difference, generalize, house_table, order, rewrite, unify};
pub use calls::{difference_by, difference_explained, difference_explained_by};
pub use calls::{generalize_appropriate, rewrite_appropriate, unify_appropriate};
pub use gathering::{gathering_add, gathering_begin, gathering_finish, gathering_order};
pub use listing::next;
pub use order::Order;
pub use rows::{Counts, Row, export, import};
pub use store::{store_drop, store_put, store_read};

/// Why a call has no result: the number in the papers, and for 4 to 7 and 18 which record is
/// meant.
#[derive(Clone, Copy, Debug, PartialEq, Eq)]
pub struct Refusal {
    /// The number, 1 to 24.
    pub number: u8,
    /// Whether the refusal tells of the second record.
    pub second: bool,
}

impl Refusal {
    fn of(number: u8) -> Refusal {
        Refusal {
            number,
            second: false,
        }
    }

    fn of_second(number: u8) -> Refusal {
        Refusal {
            number,
            second: true,
        }
    }
}
