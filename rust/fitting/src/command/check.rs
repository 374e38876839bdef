//! `check`: tells whether the engine accepts a table and files over it.

use super::{Part, Told, counted};
use crate::command::arguments::Arguments;
use crate::failure::Failure;
use crate::graph::Graph;
use crate::input::{self, Input};
use crate::json::{self, Json};
use crate::table::Table;
use crate::{engine, explain};

/// Prints one line for each file and a summary, or all as JSON. The cause of a refusal goes to
/// standard error.
pub fn check(table: &Table, arguments: &Arguments) -> Told {
    let (quiet, as_json) = (arguments.has("--quiet"), arguments.has("--json"));
    let over = input::name(&arguments.operands[0]);
    let files = &arguments.operands[1..];
    let mut parts = Vec::new();
    let mut told = Vec::new();
    let mut accepted = 0;
    for file in files {
        let checked = checked(table, file);
        accepted += usize::from(checked.is_ok());
        let name = input::name(file);
        if as_json {
            told.push(json_of(name, &checked));
        } else if !quiet {
            let line = format!("{name}: {}\n", line_of(&checked));
            parts.push(Part::Printed(line.into_bytes()));
        }
        parts.extend(checked.err().map(Part::Failed));
    }
    let refused = files.len() - accepted;
    if as_json {
        let answer = Json::object([
            ("table", json::table(table, over)),
            ("files", Json::List(told)),
            ("accepted", accepted.into()),
            ("refused", refused.into()),
        ]);
        parts.push(Part::Printed(answer.lines()));
    } else if !quiet {
        let (n, fingerprint) = (table.n, table.fingerprint());
        let count = counted(files.len(), "file");
        let summary = match files.is_empty() {
            true => format!("{over}: accepted, a table of {n} types, fingerprint {fingerprint}\n"),
            false => format!(
                "{count} over {over} ({fingerprint}): {accepted} accepted, {refused} refused\n"
            ),
        };
        parts.push(Part::Printed(summary.into_bytes()));
    }
    Box::new(parts.into_iter())
}

/// The line about a file.
fn line_of(checked: &Result<Checked, Failure>) -> String {
    match checked {
        Ok(Checked { form, nodes, links }) => {
            let form = match form {
                Form::Text => "text",
                Form::Written => "a written record",
                Form::Other => "a record in another than the written form",
            };
            let (nodes, links) = (counted(*nodes, "node"), counted(*links, "link"));
            format!("accepted, {form}, {nodes} and {links}")
        }
        Err(Failure::Refused { number, .. }) => format!("refused {number}"),
        Err(Failure::Malformed(_)) => "refused, malformed".to_string(),
        Err(Failure::Usage(_)) => "refused, not read".to_string(),
    }
}

/// What the line about a file tells, as JSON.
fn json_of(file: &str, checked: &Result<Checked, Failure>) -> Json {
    match checked {
        Ok(Checked { form, nodes, links }) => {
            let form = match form {
                Form::Text => "text",
                Form::Written => "written",
                Form::Other => "other",
            };
            Json::object([
                ("file", file.into()),
                ("accepted", true.into()),
                ("form", form.into()),
                ("nodes", (*nodes).into()),
                ("links", (*links).into()),
            ])
        }
        Err(failure) => {
            let number = match failure {
                Failure::Refused { number, .. } => Some(usize::from(*number)),
                _ => None,
            };
            Json::object([
                ("file", file.into()),
                ("accepted", false.into()),
                ("refusal", number.into()),
                ("words", failure.message().into()),
            ])
        }
    }
}

/// In which form a record was handed in.
#[derive(Clone, Copy)]
enum Form {
    Text,
    Written,
    Other,
}

/// What is told of a file that is accepted.
struct Checked {
    form: Form,
    nodes: usize,
    links: usize,
}

fn checked(table: &Table, file: &str) -> Result<Checked, Failure> {
    let input = Input::read(table, file)?;
    let written = engine::rewrite_obeying(table, &input.record)
        .map_err(|refusal| explain::refused(refusal, None, table, &[&input]))?;
    let form = match &input.text {
        Some(_) => Form::Text,
        None if written == input.record => Form::Written,
        None => Form::Other,
    };
    let graph = Graph::of_written(&written);
    Ok(Checked {
        form,
        nodes: graph.nodes.len(),
        links: graph.link_count(),
    })
}
