//! What `docs/PROOFS.md` refers to: its links, and in its tables the theorems and the must-fail edits.

/// A theorem that a table of the document names, and the file that the theorem stands in.
#[derive(Clone, Debug, PartialEq, Eq, PartialOrd, Ord)]
pub struct Cited {
    pub file: String,
    pub name: String,
}

/// The document's links, theorems, fields and edits.
#[derive(Default)]
pub struct Document {
    /// Each link: its text, and where it leads from the document's folder.
    pub links: Vec<(String, String)>,
    /// The theorems of the columns `theorem`.
    pub theorems: Vec<Cited>,
    /// The fields in the columns `theorem`. Each is the name of a record and the name of the field.
    pub fields: Vec<(String, String)>,
    /// The edits in the columns `edit`. Each is a crate and the name of the edit.
    pub edits: Vec<(String, String)>,
}

/// The texts between backquotes.
pub fn quoted(text: &str) -> Vec<String> {
    text.split('`')
        .skip(1)
        .step_by(2)
        .map(str::to_string)
        .collect()
}

/// The links of a text, and the text without them.
fn links_of(text: &str) -> (Vec<(String, String)>, String) {
    let mut links = Vec::new();
    let mut rest = String::new();
    let mut left = text;
    while let Some(open) = left.find('[') {
        let found = left[open..].find("](").and_then(|middle| {
            let target = &left[open + middle + 2..];
            let close = target.find(')')?;
            let name = &left[open + 1..open + middle];
            let whole = open + middle + 2 + close + 1;
            (!name.contains('[')).then(|| (name.to_string(), target[..close].to_string(), whole))
        });
        let Some((name, target, whole)) = found else {
            rest.push_str(&left[..=open]);
            left = &left[open + 1..];
            continue;
        };
        rest.push_str(&left[..open]);
        links.push((name, target));
        left = &left[whole..];
    }
    rest.push_str(left);
    (links, rest)
}

/// The place in the repository where a link of the document leads.
pub fn in_repository(target: &str) -> Option<&str> {
    target.strip_prefix("../")
}

impl Document {
    /// Reads the document. A line with `Theorems: ` names the file of the theorems below it that have no link.
    pub fn read(text: &str) -> Document {
        let mut document = Document::default();
        let mut file = String::new();
        let mut heads: Vec<String> = Vec::new();
        for line in text.lines() {
            document.links.extend(links_of(line).0);
            if line.starts_with('#') {
                file.clear();
            }
            if let Some((_, after)) = line.split_once("Theorems: ")
                && let Some((_, target)) = links_of(after).0.first()
            {
                file = in_repository(target).unwrap_or_default().to_string();
            }
            if !line.starts_with('|') {
                heads.clear();
                continue;
            }
            let cells: Vec<&str> = line.trim_matches('|').split('|').map(str::trim).collect();
            if heads.is_empty() {
                heads = cells.iter().map(|c| c.to_string()).collect();
                continue;
            }
            for (head, cell) in heads.iter().zip(&cells) {
                if head.starts_with("theorem") {
                    document.cite(&file, cell);
                } else if head.contains("edit") {
                    document.edits.extend(quoted(cell).into_iter().map(|edit| {
                        let (krate, name) = edit.split_once('/').unwrap_or((&edit, ""));
                        (krate.to_string(), name.to_string())
                    }));
                }
            }
        }
        document
    }

    /// Adds the theorems and fields that a cell names. A link to a definition or to code is no theorem.
    fn cite(&mut self, file: &str, cell: &str) {
        let (links, rest) = links_of(cell);
        for (name, target) in links {
            if let Some(place) = in_repository(&target).filter(|p| p.contains("/proofs/")) {
                self.theorems.push(Cited {
                    file: place.to_string(),
                    name: name.trim_matches('`').to_string(),
                });
            }
        }
        for name in quoted(&rest) {
            match name.split_once('.') {
                Some((record, field)) => self.fields.push((record.to_string(), field.to_string())),
                None => self.theorems.push(Cited {
                    file: file.to_string(),
                    name,
                }),
            }
        }
    }
}
