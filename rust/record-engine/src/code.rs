//! Turns the number that a call of the static library gives into an answer. The definition of
//! these numbers is `crates/record_engine/specs/Code.antt`.

use crate::refusal::{Refusal, Side};
use crate::{Counts, Order};

/// What a number stands for.
#[derive(Clone, Copy, Debug, PartialEq, Eq)]
pub enum Answer {
    Length(usize),
    Order(Order),
    End,
    Counts(Counts),
    Refused(Refusal),
}

/// A number below this one is a length. A refusal has this number or a greater one.
const FIRST_REFUSAL: u64 = 1 << 32;

/// The order's answers.
const SAME: u64 = 1 << 33;
const UNDER: u64 = SAME + 1;
const ABOVE: u64 = SAME + 2;
const NEITHER: u64 = SAME + 3;

/// The end of a listing.
const END: u64 = SAME + 4;

/// The first and the last number that is counts. Bits 16 to 31 are the number of nodes, and
/// bits 0 to 15 are the number of rows.
const FIRST_COUNTS: u64 = 1 << 34;
const LAST_COUNTS: u64 = FIRST_COUNTS + (1 << 32) - 1;

/// The answer that a number stands for. Panics if the number stands for no answer.
pub fn answer(code: u64) -> Answer {
    match code {
        length @ 0..FIRST_REFUSAL => Answer::Length(length as usize),
        SAME => Answer::Order(Order::Same),
        UNDER => Answer::Order(Order::Under),
        ABOVE => Answer::Order(Order::Above),
        NEITHER => Answer::Order(Order::Neither),
        END => Answer::End,
        FIRST_COUNTS..=LAST_COUNTS => Answer::Counts(Counts {
            nodes: (code >> 16 & 0xFFFF) as usize,
            rows: (code & 0xFFFF) as usize,
        }),
        _ => {
            let known = |&&refusal: &&Refusal| code_of(refusal) == code;
            match Refusal::ALL.iter().find(known) {
                Some(&refusal) => Answer::Refused(refusal),
                None => panic!("{code} is the number of no answer"),
            }
        }
    }
}

/// The answer of a call that writes nothing.
pub fn nothing(code: u64) -> Result<(), Refusal> {
    match answer(code) {
        Answer::Length(0) => Ok(()),
        Answer::Refused(refusal) => Err(refusal),
        other => unreachable!("a call that writes nothing gives 0, not {other:?}"),
    }
}

/// The answer of a call that writes.
pub fn length(code: u64) -> Result<usize, Refusal> {
    match answer(code) {
        Answer::Length(length) => Ok(length),
        Answer::Refused(refusal) => Err(refusal),
        other => unreachable!("a call that writes gives a length, not {other:?}"),
    }
}

/// The answer of a step through a listing. At the end of the listing it is none.
pub fn length_or_end(code: u64) -> Result<Option<usize>, Refusal> {
    match answer(code) {
        Answer::End => Ok(None),
        _ => length(code).map(Some),
    }
}

/// The answer of the order.
pub fn order_of(code: u64) -> Result<Order, Refusal> {
    match answer(code) {
        Answer::Order(order) => Ok(order),
        Answer::Refused(refusal) => Err(refusal),
        other => unreachable!("the order gives one of four answers, not {other:?}"),
    }
}

/// The answer of a call that fills rows.
pub fn counts(code: u64) -> Result<Counts, Refusal> {
    match answer(code) {
        Answer::Counts(counts) => Ok(counts),
        Answer::Refused(refusal) => Err(refusal),
        other => unreachable!("a call that fills rows gives counts, not {other:?}"),
    }
}

fn code_of(refusal: Refusal) -> u64 {
    let side = match refusal.side() {
        Some(Side::First) => 1,
        Some(Side::Second) => 2,
        None => 0,
    };
    FIRST_REFUSAL + 256 * side + u64::from(refusal.number())
}

#[cfg(test)]
mod tests {
    use super::*;
    use crate::refusal::{GraphFault, TableFault};

    #[test]
    fn numbers_are_read_as_the_library_states_them() {
        let known = [
            ((1 << 32) + 1, Refusal::Table(TableFault::Size)),
            (
                (1 << 32) + 256 + 4,
                Refusal::Graph(GraphFault::Malformed, Side::First),
            ),
            (
                (1 << 32) + 512 + 7,
                Refusal::Graph(GraphFault::Unreached, Side::Second),
            ),
            ((1 << 32) + 8, Refusal::NoRoom),
            ((1 << 32) + 11, Refusal::TooLarge),
            ((1 << 32) + 17, Refusal::TypeList),
            (
                (1 << 32) + 256 + 18,
                Refusal::Graph(GraphFault::Inappropriate, Side::First),
            ),
            (
                (1 << 32) + 512 + 18,
                Refusal::Graph(GraphFault::Inappropriate, Side::Second),
            ),
            ((1 << 32) + 19, Refusal::ReadingOrder),
            ((1 << 32) + 22, Refusal::NoReasonRoom),
            ((1 << 32) + 24, Refusal::NotListed),
        ];
        for (code, refusal) in known {
            assert_eq!(answer(code), Answer::Refused(refusal));
        }
        assert_eq!(answer(4854), Answer::Length(4854));
        let four = [Order::Same, Order::Under, Order::Above, Order::Neither];
        for (code, order) in (1 << 33..).zip(four) {
            assert_eq!(answer(code), Answer::Order(order));
        }
        assert_eq!(answer((1 << 33) + 4), Answer::End);
        for (nodes, rows) in [(1, 0), (3, 2), (255, 2048)] {
            let code = (1 << 34) + (nodes << 16) + rows;
            let [nodes, rows] = [nodes, rows].map(|count| count as usize);
            assert_eq!(answer(code), Answer::Counts(Counts { nodes, rows }));
        }
        for &refusal in Refusal::ALL {
            assert_eq!(answer(code_of(refusal)), Answer::Refused(refusal));
        }
    }
}
