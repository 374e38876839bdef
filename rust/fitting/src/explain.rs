//! A refusal in words. A message has the number and the record as the engine gives them, then
//! the cause as the tool finds it, and what to do.

mod pair;
mod planning;
mod record;
mod store;
mod table;
mod unify;

use crate::engine::Operation;
use crate::failure::Failure;
use crate::input::Input;
use crate::planning::Planning;
use crate::source::pointed;
use crate::table::Table;
pub use pair::{Contradiction, Kind, contradictions};
use record_engine::{Refusal, Side};

/// The cause of a refusal, as the tool finds it.
struct Cause {
    /// The part of a record where the cause is, if there is one.
    place: Place,
    what: String,
    advice: String,
}

/// A part of a record.
#[derive(Clone, Copy)]
enum Place {
    Whole,
    Node(usize),
    Link(usize, u8),
}

impl Cause {
    fn new(place: Place, what: impl Into<String>, advice: impl Into<String>) -> Cause {
        Cause {
            place,
            what: what.into(),
            advice: advice.into(),
        }
    }
}

/// The message of a refused call on records. `operation` is given if the call is one. An operation
/// on more than two records goes from one to the next; the refused call's second record is the last.
pub fn refused(
    refusal: Refusal,
    operation: Option<Operation>,
    table: &Table,
    inputs: &[&Input],
) -> Failure {
    let lines = match refusal.side() {
        Some(side) => {
            let input = match side {
                Side::First => inputs[0],
                Side::Second => inputs[inputs.len() - 1],
            };
            let cause = record::cause(refusal.number(), table, input);
            cause.map(|mut cause| {
                if (refusal.number(), operation) == (18, Some(Operation::Unify)) {
                    cause.advice += "; a difference is combined with `--plain`";
                }
                placed(&cause, input)
            })
        }
        None => {
            let cause = pair::cause(refusal.number(), operation, table, inputs);
            cause.map(|cause| format!("  {}\n  {}", cause.what, cause.advice))
        }
    };
    let heading = heading(refusal, inputs.len());
    let message = match lines {
        Some(lines) => format!("{heading}\n{lines}"),
        None => heading,
    };
    Failure::refused(refusal, message)
}

/// The first line of a message: the number and the sentence of the engine. If the call has two
/// records, the line also tells which record is meant.
fn heading(refusal: Refusal, records: usize) -> String {
    let words = refusal.to_string();
    match records {
        2 => words,
        _ => words
            .replacen(" first:", ":", 1)
            .replacen(" second:", ":", 1),
    }
}

/// What keeps bytes from being a list of nodes.
pub fn malformed(bytes: &[u8]) -> String {
    record::malformed(bytes).map_or("it is a list of nodes".to_string(), |cause| cause.what)
}

/// The message of a refused planning table.
pub fn planning_refused(refusal: Refusal, table: &Table, planning: &Planning) -> Failure {
    let heading = heading(refusal, 1);
    let message = match planning::cause(refusal.number(), table, planning) {
        Some(cause) => format!("{heading}\n{cause}"),
        None => heading,
    };
    Failure::refused(refusal, message)
}

/// What a store was asked for.
#[derive(Clone, Copy)]
pub enum Use<'a> {
    /// A program of this name is put.
    Put { name: &'a str, version: usize },
    /// A version is read or dropped; the file's name.
    Taken { file: &'a str, version: usize },
}

/// The message of a refusal by a store. The programs are those in the store, by their versions,
/// with the one that is put.
pub fn store_refused(
    refusal: Refusal,
    table: &Table,
    programs: &[(usize, Vec<u8>)],
    asked: Use,
) -> Failure {
    let heading = heading(refusal, 1);
    let message = match store::cause(refusal, table, programs, &asked) {
        Some((what, advice)) => format!("{heading}\n  {what}\n  {advice}"),
        None => heading,
    };
    Failure::refused(refusal, message)
}

/// The message of a refused table.
pub fn table_refused(refusal: Refusal, table: &Table, name: &str) -> Failure {
    let message = match table::cause(refusal.number(), table) {
        Some(cause) => format!("{refusal}\n  {name}: {}\n  {}", cause.what, cause.advice),
        None => format!("{refusal}\n  {name}"),
    };
    Failure::refused(refusal, message)
}

/// A cause with the name of the record, or with the place in the text if the record was a text.
fn placed(cause: &Cause, input: &Input) -> String {
    let Cause { what, advice, .. } = cause;
    if let Some((text, read)) = &input.text {
        let at = match cause.place {
            Place::Whole => None,
            Place::Node(node) => read.nodes.get(node),
            Place::Link(node, feature) => read.links.get(&(node, feature)),
        };
        if let Some(&at) = at {
            let pointed = pointed(&input.name, text, at, what);
            return format!("{pointed}\n  {advice}");
        }
    }
    format!("  {}: {what}\n  {advice}", input.name)
}

/// Items as a sentence lists them.
pub fn listed(items: &[String]) -> String {
    match items {
        [] => String::new(),
        [one] => one.clone(),
        [some @ .., last] => format!("{} and {last}", some.join(", ")),
    }
}

#[cfg(test)]
mod tests {
    use record_engine::Refusal;

    /// The tool always lends enough bytes and hands in whole lists of types and of features, so no
    /// session shows these refusals.
    #[test]
    fn refusals_that_no_command_meets_have_words_too() {
        let is_met =
            |refusal: &Refusal| matches!(refusal.number(), 1..=7 | 9..=15 | 18 | 20 | 21 | 23);
        let unmet = Refusal::ALL.iter().filter(|refusal| !is_met(refusal));
        let words: Vec<String> = unmet.map(|refusal| refusal.to_string()).collect();
        assert_eq!(
            words,
            [
                "refused 8: the output is shorter than the result",
                "refused 16: nothing has been added to the gathering",
                "refused 17: the list has not one type for each of the 64 features",
                "refused 19: the list has not each of the 64 features once",
                "refused 22: fewer bytes are lent for reasons than there are links",
                "refused 24: the record is not one of those listed",
            ]
        );
    }
}
