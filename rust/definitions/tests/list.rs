//! The list of definitions in `docs/PROOFS.md` is what the statements reach.

use definitions::{DEMANDS, List, Place, STATEMENTS, Sources, reach, repository};
use std::collections::{BTreeMap, BTreeSet};

fn list() -> List {
    let path = repository().join("docs/PROOFS.md");
    List::read(&std::fs::read_to_string(path).expect("docs/PROOFS.md is read"))
}

fn computed(list: &List) -> BTreeSet<Place> {
    list.computed
        .iter()
        .map(|t| Place {
            file: t.file.clone(),
            name: t.name.clone(),
        })
        .collect()
}

#[test]
fn the_list_is_what_the_statements_reach() {
    let list = list();
    let stops = computed(&list);
    let reached = reach(&mut Sources::new(repository()), &STATEMENTS, &stops);
    let mut believed: BTreeMap<String, BTreeSet<String>> = reached.names;
    for place in &stops {
        let names = believed
            .get_mut(&place.file)
            .unwrap_or_else(|| panic!("no statement reaches {}", place.file));
        assert!(
            names.remove(&place.name),
            "no statement reaches {}",
            place.name
        );
    }
    believed.retain(|_, names| !names.is_empty());
    for (file, names) in &believed {
        assert_eq!(list.believe.get(file), Some(names), "{file}");
    }
    assert_eq!(
        list.believe.keys().collect::<Vec<_>>(),
        believed.keys().collect::<Vec<_>>()
    );
}

#[test]
fn a_theorem_tells_each_computed_definition() {
    let list = list();
    let mut sources = Sources::new(repository());
    assert!(!list.computed.is_empty());
    for told in &list.computed {
        assert!(
            sources.has_theorem(&told.theorem_file, &told.theorem),
            "{} has no theorem {}",
            told.theorem_file,
            told.theorem
        );
    }
}

#[test]
fn the_three_demands_reach_at_most_900_lines() {
    let list = list();
    let reached = reach(
        &mut Sources::new(repository()),
        &[DEMANDS],
        &computed(&list),
    );
    assert!(reached.lines > 300, "{} lines are too few", reached.lines);
    assert!(reached.lines <= 900, "{} lines are too many", reached.lines);
}

#[test]
fn every_file_of_statements_is_gone_through() {
    let mut known: Vec<String> = STATEMENTS.iter().map(|s| s.to_string()).collect();
    for folder in ["crates/demands/proofs/Requests"] {
        for entry in std::fs::read_dir(repository().join(folder)).expect("the folder is read") {
            let name = entry.expect("an entry is read").file_name();
            let path = format!("{folder}/{}", name.to_string_lossy());
            let at = known.iter().position(|k| *k == path);
            known.remove(at.unwrap_or_else(|| panic!("{path} is not gone through")));
        }
    }
    assert_eq!(
        known,
        [
            DEMANDS,
            "crates/gathered/proofs/Paper04.antt",
            "crates/stored/proofs/Paper11.antt"
        ]
    );
}
