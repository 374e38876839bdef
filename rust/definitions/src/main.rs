//! Prints every definition that the statements about the calls reach, file by file, and how many lines these definitions have.
//! `definitions` does this for all statements, and `definitions demands` for the three demands alone.

use definitions::{DEMANDS, List, Place, STATEMENTS, Sources, reach, repository};
use std::collections::BTreeSet;

fn main() {
    let root = repository();
    let text = std::fs::read_to_string(root.join("docs/PROOFS.md")).unwrap_or_default();
    let list = List::read(&text);
    let computed: BTreeSet<Place> = list
        .computed
        .iter()
        .map(|t| Place {
            file: t.file.clone(),
            name: t.name.clone(),
        })
        .collect();
    let alone = std::env::args().nth(1).is_some_and(|a| a == "demands");
    let statements: &[&str] = if alone { &[DEMANDS] } else { &STATEMENTS };
    let reached = reach(&mut Sources::new(root), statements, &computed);
    for (file, names) in &reached.names {
        let names: Vec<String> = names
            .iter()
            .map(|n| {
                let place = Place {
                    file: file.clone(),
                    name: n.clone(),
                };
                let mark = if computed.contains(&place) {
                    " (computed)"
                } else {
                    ""
                };
                format!("`{n}`{mark}")
            })
            .collect();
        println!("- `{file}`: {}", names.join(", "));
    }
    println!("{} lines to be believed", reached.lines);
}
