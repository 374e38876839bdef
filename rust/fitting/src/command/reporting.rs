//! `report`: writes one page of HTML about many programs and how they differ.

use super::operations::explained_graphs;
use super::sameness::Meanings;
use super::{Part, Told, put};
use crate::command::arguments::Arguments;
use crate::draw::{self, Over};
use crate::engine::{self, Operation};
use crate::explain;
use crate::failure::Failure;
use crate::graph::Graph;
use crate::input::{self, Input};
use crate::progress::Progress;
use crate::report::{Beyond, Part as Drawn, Program, Report};
use crate::table::Table;
use crate::why::{self, General};
use crate::{notation, picture};
use record_engine::{Order, Reason};
use std::collections::BTreeMap;
use std::io::ErrorKind;

pub fn report(
    table: &Table,
    arguments: &Arguments,
    progress: &mut Progress,
) -> Result<Told, Failure> {
    let over = &arguments.operands[0];
    let files = input::files(over, &arguments.operands[1..])?;
    arguments.spare(files.iter().map(String::as_str))?;
    let mut meanings = Meanings::default();
    let mut programs = Vec::new();
    for (done, file) in files.iter().enumerate() {
        progress.tell(done, files.len(), "files read");
        let input = Input::read(table, file)?;
        let written = input.written(table)?;
        let graph = Graph::of_written(&written);
        let name = input.name.clone();
        let group = meanings.add(input, written);
        programs.push((name, group, graph));
    }
    let orders = meanings.orders(table, progress)?;
    let groups: Vec<usize> = programs.iter().map(|(_, group, _)| *group).collect();
    let order = |one: usize, other: usize| {
        let pair = (groups[one], groups[other]);
        orders.get(&pair).copied().unwrap_or(Order::Same)
    };
    let names = programs.iter().map(|(name, ..)| &name[..]);
    let folder = folder(names).to_string();
    let mut pictures = Pictures::default();
    let common = common(table, &meanings);
    let mut firsts = BTreeMap::new();
    let mut told = Vec::new();
    for (place, (name, group, graph)) in programs.into_iter().enumerate() {
        progress.tell(place, groups.len(), "programs drawn");
        let first = *firsts.entry(group).or_insert(place);
        let beyond = match first == place {
            true => Some(beyond(table, &common, &graph, &mut pictures)?),
            false => None,
        };
        told.push(Program {
            name: name[folder.len()..].to_string(),
            nodes: graph.nodes.len(),
            links: graph.link_count(),
            text: notation::write(table, &graph),
            first,
            beyond,
        });
    }
    let common = match common {
        Err(failure) => Drawn {
            refused: Some(failure.message().to_string()),
            ..Drawn::default()
        },
        Ok(record) => {
            let graph = Graph::of_written(&record);
            Drawn {
                refused: None,
                text: notation::write(table, &graph),
                picture: pictures.draw(&draw::dot(table, &graph))?,
            }
        }
    };
    let page = Report {
        table,
        file: input::name(over),
        folder: &folder,
        programs: told,
        order: &order,
        common,
        without_pictures: pictures.missing.clone(),
    }
    .page();
    let told = put(arguments.output().unwrap_or("-"), page.into_bytes())?;
    let note = pictures.missing.map(Part::Noted);
    Ok(Box::new(told.chain(note)))
}

/// The folder that all files are in, with its last slash.
fn folder<'a>(mut names: impl Iterator<Item = &'a str>) -> &'a str {
    let of = |name: &'a str| &name[..name.rfind('/').map_or(0, |slash| slash + 1)];
    let Some(first) = names.next() else {
        return "";
    };
    names.fold(of(first), |mut folder, name| {
        while !name.starts_with(folder) {
            folder = of(folder.trim_end_matches('/'));
        }
        folder
    })
}

/// What all programs have in common, as a record.
fn common(table: &Table, meanings: &Meanings) -> Result<Vec<u8>, Failure> {
    let inputs: Vec<&Input> = meanings.groups.iter().map(|group| &group[0]).collect();
    let mut common = inputs[0].written(table)?;
    for count in 2..=inputs.len() {
        let operation = Operation::Generalize;
        let next = &inputs[count - 1].record;
        common = engine::operate(operation, table, &common, next).map_err(|refusal| {
            explain::refused(refusal, Some(operation), table, &inputs[..count])
        })?;
    }
    Ok(common)
}

/// What a program says beyond the common part. If there is no common part, it is the whole program.
fn beyond(
    table: &Table,
    common: &Result<Vec<u8>, Failure>,
    graph: &Graph,
    pictures: &mut Pictures,
) -> Result<Beyond, Failure> {
    let Ok(common) = common else {
        let part = Drawn {
            picture: pictures.draw(&draw::dot(table, graph))?,
            ..Drawn::default()
        };
        let lines = Vec::new();
        return Ok(Beyond { part, lines });
    };
    let (kept, refused, text) = match explained_graphs(table, None, common, &graph.encode()) {
        Ok(explained) => {
            let difference = Graph::of_written(&explained.difference);
            (explained.kept, None, notation::write(table, &difference))
        }
        // There is no most general difference, so all that differs is told.
        Err(refusal) => {
            let kept = why::differing(table, &Graph::of_written(common), graph);
            let refused = format!("There is no most general difference: {refusal}.");
            (kept, Some(refused), String::new())
        }
    };
    let over = Over {
        kept: &kept,
        general: "what all have in common",
        kept_only: false,
        legend: false,
    };
    let mut lines = why::lines(table, graph, &kept, General::CommonWithAll);
    // A link that is kept for what lies below it says nothing itself.
    lines.retain(|line| line.reason != Reason::Wanted || line.said.is_some());
    lines.sort_by(|one, two| one.path.cmp(&two.path));
    let picture = match lines.is_empty() {
        true => None,
        false => pictures.draw(&draw::dot_over(table, graph, over))?,
    };
    let lines = lines.into_iter().map(|line| (table.path(&line.path), line));
    Ok(Beyond {
        lines: lines.collect(),
        part: Drawn {
            refused,
            text,
            picture,
        },
    })
}

/// Pictures by `dot`, if it is installed.
#[derive(Default)]
struct Pictures {
    /// Why there are none.
    missing: Option<String>,
}

impl Pictures {
    fn draw(&mut self, dot: &str) -> Result<Option<String>, Failure> {
        if self.missing.is_some() {
            return Ok(None);
        }
        match picture::rendered(dot, "svg") {
            Ok(svg) => Ok(Some(String::from_utf8_lossy(&svg).into_owned())),
            Err(error) if error.kind() == ErrorKind::NotFound => {
                let what = "Pictures are left out: they are drawn by `dot` of Graphviz, which is \
                            not installed.";
                self.missing = Some(what.to_string());
                Ok(None)
            }
            Err(error) => Err(Failure::usage(format!("cannot draw: {error}"))),
        }
    }
}

#[cfg(test)]
mod tests {
    use super::folder;

    #[test]
    fn the_folder_of_all_files() {
        assert_eq!(folder(["a/b/c", "a/b/d"].into_iter()), "a/b/");
        assert_eq!(folder(["a/b/c", "a/bc/d", "a/b"].into_iter()), "a/");
        assert_eq!(folder(["a/b", "c/d"].into_iter()), "");
        assert_eq!(folder(["/a//b", "/c"].into_iter()), "/");
        assert_eq!(folder(["a/b", "standard input"].into_iter()), "");
        assert_eq!(folder(["a/b"].into_iter()), "a/");
        assert_eq!(folder([].into_iter()), "");
    }
}
