//! The list in `docs/PROOFS.md`. Its part `### Believe` has an entry for each file with the names of its definitions. Its part `### Computed` has an
//! entry for each program with the theorem that states its result.

use crate::document::quoted;
use std::collections::{BTreeMap, BTreeSet};

/// A computed definition, and the theorem that states its result, each by file and name.
#[derive(Clone, Debug, PartialEq, Eq)]
pub struct Told {
    pub file: String,
    pub name: String,
    pub theorem_file: String,
    pub theorem: String,
}

#[derive(Default)]
pub struct List {
    pub believe: BTreeMap<String, BTreeSet<String>>,
    pub computed: Vec<Told>,
}

impl List {
    /// Reads the list. An entry begins with `- ` and continues in indented lines.
    pub fn read(text: &str) -> List {
        let mut list = List::default();
        let mut part = "";
        let mut entries: Vec<(&str, String)> = Vec::new();
        for line in text.lines() {
            if line.starts_with('#') {
                part = match line {
                    "### Believe" => "believe",
                    "### Computed" => "computed",
                    _ => "",
                };
            } else if line.starts_with("- ") && !part.is_empty() {
                entries.push((part, line.to_string()));
            } else if line.starts_with("  ")
                && !part.is_empty()
                && let Some((_, entry)) = entries.last_mut()
            {
                entry.push(' ');
                entry.push_str(line.trim());
            }
        }
        for (part, entry) in entries {
            let names = quoted(&entry);
            if part == "believe" {
                let (file, rest) = names.split_first().expect("an entry names a file");
                let known = list.believe.entry(file.clone()).or_default();
                known.extend(rest.iter().cloned());
            } else {
                let [name, file, theorem, theorem_file] = names.as_slice() else {
                    panic!(
                        "an entry names a definition, its file, a theorem and its file: {entry}"
                    );
                };
                list.computed.push(Told {
                    file: file.clone(),
                    name: name.clone(),
                    theorem_file: theorem_file.clone(),
                    theorem: theorem.clone(),
                });
            }
        }
        list
    }
}
