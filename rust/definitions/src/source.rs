//! Reads the files: which definitions a file has, where each definition stands, and which names its text has.

use std::collections::{BTreeMap, BTreeSet};
use std::fs;
use std::path::PathBuf;

/// A definition: the file that it stands in, and its name.
#[derive(Clone, Debug, PartialEq, Eq, PartialOrd, Ord)]
pub struct Place {
    pub file: String,
    pub name: String,
}

/// The kind of a declaration.
#[derive(Clone, Copy, Debug, PartialEq, Eq)]
pub enum Kind {
    /// An abbreviation, a function, a record or a data type.
    Definition,
    /// A public theorem. Only its type counts as its text.
    Theorem,
    /// Anything else, such as a private lemma.
    Other,
}

struct Declaration {
    kind: Kind,
    /// The words of its text and of the modules around it.
    words: Vec<String>,
    /// The numbers of the lines of its text.
    lines: Vec<usize>,
}

#[derive(Default)]
struct File {
    declarations: BTreeMap<String, Declaration>,
    /// The constructors of data types, each with its type.
    constructors: BTreeMap<String, String>,
    /// Imported names, each with the module and the name there.
    imports: BTreeMap<String, (String, String)>,
    /// Modules that are imported under a name of their own.
    modules: BTreeMap<String, String>,
}

/// The files of a repository, each read once.
pub struct Sources {
    root: PathBuf,
    files: BTreeMap<String, File>,
}

impl Sources {
    pub fn new(root: PathBuf) -> Self {
        Sources {
            root,
            files: BTreeMap::new(),
        }
    }

    fn file(&mut self, path: &str) -> &File {
        if !self.files.contains_key(path) {
            let text = fs::read_to_string(self.root.join(path))
                .unwrap_or_else(|e| panic!("{path} is not read: {e}"));
            let file = if path.ends_with(".rt") {
                read_code(&text)
            } else {
                read_text(&text)
            };
            self.files.insert(path.to_string(), file);
        }
        &self.files[path]
    }

    /// Whether a file has a public theorem of this name.
    pub fn has_theorem(&mut self, file: &str, name: &str) -> bool {
        self.file(file)
            .declarations
            .get(name)
            .is_some_and(|d| d.kind == Kind::Theorem)
    }

    /// The names of a file's public theorems.
    pub fn theorems(&mut self, file: &str) -> Vec<String> {
        self.file(file)
            .declarations
            .iter()
            .filter(|(_, d)| d.kind == Kind::Theorem)
            .map(|(name, _)| name.clone())
            .collect()
    }

    /// The definitions that the statements of a file name.
    pub fn statement_names(&mut self, file: &str) -> Vec<Place> {
        let words: Vec<String> = self
            .file(file)
            .declarations
            .values()
            .filter(|d| d.kind == Kind::Theorem)
            .flat_map(|d| d.words.clone())
            .collect();
        assert!(!words.is_empty(), "{file} has no statement");
        self.resolve_all(file, &words)
    }

    /// The definitions that a definition names.
    pub fn names_in(&mut self, place: &Place) -> Vec<Place> {
        let words = self.file(&place.file).declarations[&place.name]
            .words
            .clone();
        self.resolve_all(&place.file, &words)
            .into_iter()
            .filter(|p| p != place)
            .collect()
    }

    /// The numbers of the lines that a definition has.
    pub fn lines(&mut self, place: &Place) -> Vec<usize> {
        self.file(&place.file).declarations[&place.name]
            .lines
            .clone()
    }

    /// The definition that a file's name stands for, if it is one of this repository.
    pub fn find(&mut self, file: &str, name: &str) -> Option<Place> {
        self.resolve(file, name)
    }

    fn resolve_all(&mut self, file: &str, words: &[String]) -> Vec<Place> {
        words
            .iter()
            .collect::<BTreeSet<_>>()
            .into_iter()
            .filter_map(|w| self.resolve(file, w))
            .collect()
    }

    fn resolve(&mut self, file: &str, word: &str) -> Option<Place> {
        let here = self.file(file);
        // What stands behind a dot is a name of a module, or else a field of what stands before it.
        if let Some((head, rest)) = word.split_once('.') {
            let name = rest.split('.').next().unwrap_or(rest);
            return match here.modules.get(head).cloned() {
                Some(module) => self.resolve_in(&module, name),
                None => self.resolve(file, head),
            };
        }
        if let Some(owner) = here.constructors.get(word) {
            return Some(Place {
                file: file.to_string(),
                name: owner.clone(),
            });
        }
        if here
            .declarations
            .get(word)
            .is_some_and(|d| d.kind == Kind::Definition)
        {
            return Some(Place {
                file: file.to_string(),
                name: word.to_string(),
            });
        }
        let (module, name) = here.imports.get(word)?.clone();
        self.resolve_in(&module, &name)
    }

    fn resolve_in(&mut self, module: &str, name: &str) -> Option<Place> {
        let rest = module.strip_prefix("Rattle.")?;
        let (krate, path) = rest.split_once('.')?;
        // A library of the toolchain has no folder here.
        if !self.root.join("crates").join(krate).is_dir() {
            return None;
        }
        if let Some(declared) = path.strip_prefix("specs.declared.") {
            return self.declared(krate, declared, name);
        }
        let (folder, path) = path.split_once('.')?;
        let file = format!("crates/{krate}/{folder}/{}.antt", path.replace('.', "/"));
        self.resolve(&file, name)
    }

    /// An enum or a struct of the code. The path names its modules, then the type itself, or its variants.
    fn declared(&mut self, krate: &str, path: &str, _name: &str) -> Option<Place> {
        let segments: Vec<&str> = path.split('.').filter(|s| *s != "TheVariants").collect();
        let (name, modules) = segments.split_last()?;
        let file = if modules.is_empty() {
            format!("crates/{krate}/src/lib.rt")
        } else {
            format!("crates/{krate}/src/{}.rt", modules.join("/"))
        };
        assert!(
            self.file(&file).declarations.contains_key(*name),
            "{file} has no {name}"
        );
        Some(Place {
            file,
            name: name.to_string(),
        })
    }
}

fn indent(line: &str) -> usize {
    line.len() - line.trim_start().len()
}

/// The words of a line without its comment. The name of a field, which stands behind a dot, is no word.
fn words(line: &str) -> Vec<String> {
    let line = line.split("--").next().unwrap_or("");
    line.split(|c: char| c.is_whitespace() || "(){}[],;:=".contains(c))
        .map(|w| w.trim_end_matches('.'))
        .filter(|w| !w.is_empty() && !w.starts_with('.'))
        .map(str::to_string)
        .collect()
}

/// A line without its comment.
fn bare(line: &str) -> &str {
    let trimmed = line.trim();
    if trimmed.starts_with("--") {
        ""
    } else {
        trimmed
    }
}

/// The name that a line declares, and whether it is a record or a data type.
fn declares(line: &str) -> Option<(String, bool, Kind)> {
    let mut rest = line.trim();
    let mut public = false;
    let mut defines = false;
    loop {
        if let Some(r) = rest.strip_prefix("pub ") {
            public = true;
            rest = r;
        } else if let Some(r) = rest
            .strip_prefix("abbrev ")
            .or_else(|| rest.strip_prefix("pattern "))
            .or_else(|| rest.strip_prefix("unfoldable "))
        {
            defines = true;
            rest = r;
        } else {
            break;
        }
    }
    if rest.starts_with("use ") || rest.starts_with("mod ") {
        return None;
    }
    for word in ["record ", "data "] {
        if let Some(r) = rest.strip_prefix(word)
            && !r.starts_with('{')
        {
            let name = r.split_whitespace().next()?;
            return Some((name.to_string(), true, Kind::Definition));
        }
    }
    let (name, after) = rest.split_once(' ')?;
    if !after.trim_start().starts_with(':') {
        return None;
    }
    let kind = match (defines, public) {
        (true, _) => Kind::Definition,
        (false, true) => Kind::Theorem,
        (false, false) => Kind::Other,
    };
    Some((name.to_string(), false, kind))
}

/// Reads a file of definitions or theorems.
fn read_text(text: &str) -> File {
    let lines: Vec<&str> = text.lines().collect();
    let mut file = File::default();
    // The modules around a line: the indent of each, and its lines.
    let mut modules: Vec<(usize, Vec<usize>)> = Vec::new();
    let mut i = 0;
    while i < lines.len() {
        let line = bare(lines[i]);
        if line.is_empty() {
            i += 1;
            continue;
        }
        if line.starts_with("use ") || line.contains("pub use ") {
            let mut whole = line.to_string();
            while whole.contains(".{") && !whole.contains('}') {
                i += 1;
                whole.push(' ');
                whole.push_str(bare(lines[i]));
            }
            import(&mut file, &whole);
            i += 1;
            continue;
        }
        let depth = indent(lines[i]);
        modules.retain(|(d, _)| *d < depth);
        if line.starts_with("module ") {
            let mut header = vec![i];
            while !bare(lines[i]).ends_with("where") {
                i += 1;
                header.push(i);
            }
            modules.push((depth, header));
            i += 1;
            continue;
        }
        let Some((name, is_type, kind)) = declares(lines[i]) else {
            i += 1;
            continue;
        };
        let mut own = vec![i];
        i += 1;
        // A declaration has the lines with a larger indent. A definition also has the lines that begin with its name.
        while i < lines.len() {
            let text = bare(lines[i]);
            let goes_on = text.is_empty()
                || indent(lines[i]) > depth
                || (!is_type
                    && kind == Kind::Definition
                    && indent(lines[i]) == depth
                    && text.split_whitespace().next() == Some(name.as_str()));
            if !goes_on {
                break;
            }
            if !text.is_empty() {
                own.push(i);
            }
            i += 1;
        }
        if is_type && declared_data(lines[own[0]]) {
            for &l in &own[1..] {
                if let Some((constructor, after)) = bare(lines[l]).split_once(' ')
                    && after.trim_start().starts_with(':')
                {
                    file.constructors
                        .insert(constructor.to_string(), name.clone());
                }
            }
        }
        let around = modules.iter().flat_map(|(_, l)| l.iter().copied());
        let all: Vec<usize> = around.chain(own).collect();
        let words = all.iter().flat_map(|&l| words(lines[l])).collect();
        file.declarations.insert(
            name,
            Declaration {
                kind,
                words,
                lines: all,
            },
        );
    }
    file
}

fn declared_data(line: &str) -> bool {
    let line = line.trim();
    line.starts_with("data ") || line.starts_with("pub data ")
}

fn import(file: &mut File, line: &str) {
    let Some((_, rest)) = line.split_once("use ") else {
        return;
    };
    if let Some((module, names)) = rest.split_once(".{") {
        for name in names.trim_end_matches('}').split(',') {
            let name = name.trim();
            if name.is_empty() {
                continue;
            }
            let (there, here) = name.split_once(" as ").unwrap_or((name, name));
            file.imports.insert(
                here.trim().to_string(),
                (module.to_string(), there.trim().to_string()),
            );
        }
    } else if let Some((module, alias)) = rest.split_once(" as ") {
        file.modules
            .insert(alias.trim().to_string(), module.trim().to_string());
    }
}

/// Reads the enums and structs of a file of code. Their fields are of types that the statements reach by other ways too.
fn read_code(text: &str) -> File {
    let lines: Vec<&str> = text.lines().collect();
    let mut file = File::default();
    let mut i = 0;
    while i < lines.len() {
        let line = lines[i].strip_prefix("pub ").unwrap_or(lines[i]);
        let named = line
            .strip_prefix("enum ")
            .or_else(|| line.strip_prefix("struct "));
        if let Some(rest) = named {
            let name: String = rest
                .chars()
                .take_while(|c| c.is_alphanumeric() || *c == '_')
                .collect();
            let start = i;
            while !lines[i].starts_with('}') {
                i += 1;
            }
            let own: Vec<usize> = (start..=i)
                .filter(|&l| !lines[l].trim_start().starts_with("//"))
                .collect();
            let words = own
                .iter()
                .flat_map(|&l| words(lines[l]))
                .collect::<Vec<_>>();
            file.declarations.insert(
                name,
                Declaration {
                    kind: Kind::Definition,
                    words,
                    lines: own,
                },
            );
        } else if let Some(path) = lines[i].strip_prefix("use ") {
            code_import(&mut file, path.trim_end_matches(';'));
        }
        i += 1;
    }
    file
}

/// `use record::GraphFault;` as an import of the type that the specifications call declared.
fn code_import(file: &mut File, path: &str) {
    let segments: Vec<&str> = path.split("::").collect();
    if let [krate, modules @ .., name] = segments.as_slice()
        && *krate != "crate"
        && !name.is_empty()
    {
        let inner: String = modules.iter().map(|m| format!("{m}.")).collect();
        file.imports.insert(
            name.to_string(),
            (
                format!("Rattle·{krate}.specs.declared.{inner}{name}"),
                name.to_string(),
            ),
        );
    }
}
