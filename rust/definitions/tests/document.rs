//! What `docs/PROOFS.md` names exists: theorems, fields of records, edits, files; and it names every theorem about the calls.

use definitions::{Document, STATEMENTS, Sources, in_repository, repository};
use std::collections::BTreeSet;
use std::fs;

fn document() -> Document {
    let path = repository().join("docs/PROOFS.md");
    Document::read(&fs::read_to_string(path).expect("docs/PROOFS.md is read"))
}

#[test]
fn every_theorem_stands_in_its_file() {
    let mut sources = Sources::new(repository());
    for cited in &document().theorems {
        assert!(!cited.file.is_empty(), "no file for {}", cited.name);
        assert!(
            sources.has_theorem(&cited.file, &cited.name),
            "{} has no theorem {}",
            cited.file,
            cited.name
        );
    }
}

#[test]
fn no_theorem_about_the_calls_is_left_out() {
    let named: BTreeSet<(String, String)> = document()
        .theorems
        .into_iter()
        .map(|cited| (cited.file, cited.name))
        .collect();
    let mut sources = Sources::new(repository());
    for file in STATEMENTS {
        for theorem in sources.theorems(file) {
            assert!(
                named.contains(&(file.to_string(), theorem.clone())),
                "{theorem} of {file} is not named"
            );
        }
    }
}

/// The texts of the definitions of all crates.
fn definitions() -> Vec<String> {
    let crates = fs::read_dir(repository().join("crates")).expect("the folder is read");
    let mut texts = Vec::new();
    for krate in crates {
        let folder = krate.expect("an entry is read").path().join("specs");
        for file in fs::read_dir(folder).into_iter().flatten() {
            let path = file.expect("an entry is read").path();
            texts.extend(fs::read_to_string(path));
        }
    }
    texts
}

#[test]
fn every_field_is_one_of_its_record() {
    let texts = definitions();
    for (record, field) in &document().fields {
        let head = format!("pub record {record} ");
        let own = format!("pub {field} :");
        let found = texts.iter().any(|text| {
            let mut lines = text
                .lines()
                .skip_while(|line| !line.trim_start().starts_with(&head))
                .skip(1);
            lines
                .by_ref()
                .take_while(|line| line.starts_with(' '))
                .any(|line| line.trim_start().starts_with(&own))
        });
        assert!(found, "no record {record} has a field {field}");
    }
}

#[test]
fn every_edit_is_there() {
    let edits = document().edits;
    assert!(!edits.is_empty());
    for (krate, name) in &edits {
        let path = format!("crates/{krate}/must-fail/{name}.edit");
        assert!(repository().join(&path).is_file(), "no {path}");
    }
}

#[test]
fn every_link_leads_to_what_it_names() {
    for (text, target) in &document().links {
        let Some(place) = in_repository(target) else {
            continue;
        };
        let path = repository().join(place);
        assert!(path.exists(), "no {place}");
        let name = text.trim_matches('`').split(' ').next().unwrap_or("");
        let is_name = text.starts_with('`') && !name.contains(['/', '.']);
        if !is_name || !path.is_file() {
            continue;
        }
        let content = fs::read_to_string(&path).expect("a file is read");
        let mut words = content.split(|c: char| c.is_whitespace() || "(){}[]<>,;:=".contains(c));
        assert!(words.any(|word| word == name), "{place} has no {name}");
    }
}
