//! Finds the definitions that the statements about the calls rest on. A statement is the type of a public theorem in one of the statement
//! files. It reaches the definitions that it names, and the definitions that those name in turn. Proofs and comments are not read.
//!
//! `docs/PROOFS.md` lists these definitions in two parts. A definition of the part `### Computed` is a program whose result a theorem states,
//! so the definitions that the program names are not followed. `Document` reads what else `docs/PROOFS.md` refers to.

mod document;
mod list;
mod source;

use std::collections::{BTreeMap, BTreeSet};
use std::path::{Path, PathBuf};

pub use document::{Cited, Document, in_repository};
pub use list::{List, Told};
pub use source::{Kind, Place, Sources};

/// The file with the three demands.
pub const DEMANDS: &str = "crates/demands/proofs/Demands.antt";

/// The files with all statements about calls, the three demands first.
pub const STATEMENTS: [&str; 15] = [
    DEMANDS,
    "crates/demands/proofs/Requests/Paper01.antt",
    "crates/demands/proofs/Requests/Paper02.antt",
    "crates/demands/proofs/Requests/Paper03.antt",
    "crates/demands/proofs/Requests/Paper05.antt",
    "crates/demands/proofs/Requests/Paper06.antt",
    "crates/demands/proofs/Requests/Paper07.antt",
    "crates/demands/proofs/Requests/Paper08.antt",
    "crates/demands/proofs/Requests/Paper09.antt",
    "crates/demands/proofs/Requests/Paper10.antt",
    "crates/demands/proofs/Requests/Paper12.antt",
    "crates/demands/proofs/Requests/Paper13.antt",
    "crates/demands/proofs/Requests/Paper14.antt",
    "crates/gathered/proofs/Paper04.antt",
    "crates/stored/proofs/Paper11.antt",
];

/// The folder of the repository.
pub fn repository() -> PathBuf {
    Path::new(env!("CARGO_MANIFEST_DIR")).join("../..")
}

/// The definitions that statements reach, file by file, and how many lines they have.
pub struct Reached {
    pub names: BTreeMap<String, BTreeSet<String>>,
    pub lines: usize,
}

/// Finds the definitions that the statements of some files reach. A computed definition is reached, but the names in it are not followed.
pub fn reach(sources: &mut Sources, statements: &[&str], computed: &BTreeSet<Place>) -> Reached {
    let mut waiting: Vec<Place> = Vec::new();
    for file in statements {
        waiting.extend(sources.statement_names(file));
    }
    let mut seen: BTreeSet<Place> = BTreeSet::new();
    while let Some(place) = waiting.pop() {
        if !seen.insert(place.clone()) || computed.contains(&place) {
            continue;
        }
        waiting.extend(sources.names_in(&place));
    }
    let believed: Vec<&Place> = seen.iter().filter(|p| !computed.contains(p)).collect();
    let lines = believed
        .iter()
        .flat_map(|p| sources.lines(p).into_iter().map(|l| (p.file.clone(), l)))
        .collect::<BTreeSet<_>>()
        .len();
    let mut names: BTreeMap<String, BTreeSet<String>> = BTreeMap::new();
    for place in &seen {
        names
            .entry(place.file.clone())
            .or_default()
            .insert(place.name.clone());
    }
    Reached { names, lines }
}
