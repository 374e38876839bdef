//! Why a store refuses by 11, 13, 20 or 21: the number of the version, the room, or the common part
//! of the first programs on the way.

use super::{Use, listed, pair};
use crate::engine::{self, Operation};
use crate::input::Input;
use crate::table::Table;
use record_engine::{Refusal, VERSIONS};

/// The cause of a refusal, and what to do. The programs are those in the store, with the one that is
/// put.
pub fn cause(
    refusal: Refusal,
    table: &Table,
    programs: &[(usize, Vec<u8>)],
    asked: &Use,
) -> Option<(String, String)> {
    let last = VERSIONS - 1;
    match (refusal.number(), asked) {
        (20, Use::Put { name, version }) if *version > last => Some((
            format!("{name} would be version {version}"),
            format!("versions are 0 to {last}: a further program needs a file of its own"),
        )),
        (20, Use::Put { name, version }) => Some((
            format!("{name} would be version {version}, which is there"),
            "give another number, or drop that version first".to_string(),
        )),
        (20, Use::Taken { file, version }) => {
            let numbers: Vec<String> = programs.iter().map(|(v, _)| v.to_string()).collect();
            let advice = match numbers.is_empty() {
                true => "it has no version at all: `fitting put` adds one".to_string(),
                false => format!("it has {}", listed(&numbers)),
            };
            Some((format!("{file} has no version {version}"), advice))
        }
        (21, asked) => {
            let programs = match asked {
                Use::Put { name, .. } => format!("with {name} the programs"),
                Use::Taken { version, .. } => format!("without version {version} the others"),
            };
            Some((
                format!("{programs} take more together than the 16,384 bytes of a store"),
                "drop a version that is not needed, or pack two files".to_string(),
            ))
        }
        (11 | 13, _) => on_the_way(refusal, table, programs, asked),
        _ => None,
    }
}

/// The refusal of the common part of the first programs, or of a difference from it.
fn on_the_way(
    refusal: Refusal,
    table: &Table,
    programs: &[(usize, Vec<u8>)],
    asked: &Use,
) -> Option<(String, String)> {
    let programs: Vec<Input> = programs
        .iter()
        .filter(|(number, _)| !matches!(asked, Use::Taken { version, .. } if version == number))
        .map(|(version, record)| input(format!("version {version}"), record.clone()))
        .collect();
    let found = |operation, inputs: &[&Input]| {
        let cause = pair::cause(refusal.number(), Some(operation), table, inputs)?;
        Some((cause.what, cause.advice))
    };
    let mut common: Option<Input> = None;
    for (place, program) in programs.iter().enumerate() {
        let next = match &common {
            None => program.record.clone(),
            Some(common) => {
                let operation = Operation::Generalize;
                match engine::operate(operation, table, &common.record, &program.record) {
                    Ok(next) => next,
                    Err(_) => return found(operation, &[common, program]),
                }
            }
        };
        let next = input("the common part".to_string(), next);
        for other in &programs[..=place] {
            let operation = Operation::Difference;
            if engine::operate(operation, table, &next.record, &other.record).is_err() {
                return found(operation, &[&next, other]);
            }
        }
        common = Some(next);
    }
    None
}

fn input(name: String, record: Vec<u8>) -> Input {
    Input {
        shown: name.clone(),
        name,
        record,
        text: None,
    }
}
