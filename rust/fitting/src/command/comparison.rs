//! `compare`: tells what two records both say, what only one of them says, and where they contradict
//! each other. The common part, the differences from it, and whether there is a combination are
//! answers of the engine.

use super::operations::{explained_graphs, order_of, order_word};
use super::{Told, put};
use crate::command::arguments::Arguments;
use crate::engine::{self, Operation};
use crate::explain::{self, Contradiction, Kind, listed};
use crate::failure::Failure;
use crate::graph::Graph;
use crate::input::{self, Input};
use crate::json::{self, Json};
use crate::notation;
use crate::table::Table;
use crate::why::{self, General, Line};
use record_engine::{Order, Reason, Refusal};

pub fn compare(table: &Table, arguments: &Arguments) -> Result<Told, Failure> {
    let inputs = [1, 2].map(|place| Input::read(table, &arguments.operands[place]));
    let [first, second] = inputs;
    let inputs = [first?, second?];
    let comparison = Comparison::new(table, &inputs)?;
    let told = match arguments.has("--json") {
        true => comparison.json(input::name(&arguments.operands[0])).lines(),
        false => comparison.text().into_bytes(),
    };
    put(arguments.output().unwrap_or("-"), told)
}

/// The result of a comparison of two records.
struct Comparison<'a> {
    table: &'a Table,
    inputs: &'a [Input; 2],
    order: Order,
    /// What both say.
    both: Graph,
    /// What only the first and only the second says.
    only: [Vec<Line>; 2],
    contradictions: Vec<Contradiction>,
}

impl<'a> Comparison<'a> {
    fn new(table: &'a Table, inputs: &'a [Input; 2]) -> Result<Comparison<'a>, Failure> {
        let [first, second] = inputs;
        let order = order_of(table, first, second)?;
        let operate = |operation| {
            let result = engine::operate(operation, table, &first.record, &second.record);
            let refused =
                |refusal| explain::refused(refusal, Some(operation), table, &[first, second]);
            result.map_err(|refusal| (refusal, refused(refusal)))
        };
        let both = operate(Operation::Generalize).map_err(|(_, failure)| failure)?;
        let contradictions = match operate(Operation::Unify) {
            Err((Refusal::Cycle | Refusal::Clash, _)) => {
                let mut found = explain::contradictions(table, &[first, second]);
                found.sort_by(|one, two| one.path.cmp(&two.path));
                found
            }
            _ => Vec::new(),
        };
        let only = |own: &Input, other: &Input| -> Result<Vec<Line>, Failure> {
            let specific = own.graph(table)?;
            let kept = match explained_graphs(table, None, &both, &own.record) {
                Ok(explained) => explained.kept,
                // There is no most general difference, so all that differs is told.
                Err(_) => why::differing(table, &Graph::of_written(&both), &specific),
            };
            let mut lines = why::lines(table, &specific, &kept, General::CommonWith(&other.shown));
            // A link that is kept for what lies below it says nothing itself.
            lines.retain(|line| line.reason != Reason::Wanted || line.said.is_some());
            lines.sort_by(|one, two| one.path.cmp(&two.path));
            Ok(lines)
        };
        Ok(Comparison {
            table,
            inputs,
            order,
            only: [only(first, second)?, only(second, first)?],
            both: Graph::of_written(&both),
            contradictions,
        })
    }

    fn text(&self) -> String {
        let mut text = format!("{}\nboth say\n", order_word(self.order));
        for line in notation::write(self.table, &self.both).lines() {
            text += &format!("  {line}\n");
        }
        for (input, lines) in self.inputs.iter().zip(&self.only) {
            text += &format!("only {} says\n", input.name);
            text += &match lines.is_empty() {
                true => "  nothing\n".to_string(),
                false => why::text(self.table, lines, "  "),
            };
        }
        match self.contradictions.is_empty() {
            true => text + "they do not contradict each other\n",
            false => text + "they contradict each other\n" + &self.contradicting(),
        }
    }

    /// The contradictions, one a line.
    fn contradicting(&self) -> String {
        let paths = self.contradictions.iter().map(|c| self.table.path(&c.path));
        let paths: Vec<String> = paths.collect();
        let widths = paths.iter().map(|path| path.chars().count());
        let width = widths.max().unwrap_or(0);
        let line = |(path, contradiction): (&String, &Contradiction)| {
            let words = self.contradiction(contradiction);
            format!("  {path:width$}  {words}\n")
        };
        paths.iter().zip(&self.contradictions).map(line).collect()
    }

    fn contradiction(&self, contradiction: &Contradiction) -> String {
        let nothing = contradiction.kind.nothing(self.table);
        if contradiction.kind == Kind::Loop {
            let paths: Vec<String> = contradiction.said.iter().map(|s| s.label.clone()).collect();
            return format!("{} are one node: {nothing}", listed(&paths));
        }
        let said = contradiction.said.iter().map(|said| {
            let name = &self.inputs[said.side].shown;
            match said.path == contradiction.path {
                true => format!("{} of {name}", said.label),
                false => format!(
                    "{} of {name} at {}",
                    said.label,
                    self.table.path(&said.path)
                ),
            }
        });
        let said = listed(&said.collect::<Vec<_>>());
        // What one alone says comes together by what the other joins.
        let mut sides = contradiction.said.iter().map(|said| said.side);
        let joined = match sides.next() {
            Some(side) if sides.all(|other| other == side) => {
                format!(", joined by {}", self.inputs[1 - side].shown)
            }
            _ => String::new(),
        };
        format!("{said}{joined}: {nothing}")
    }

    fn json(&self, file: &str) -> Json {
        let contradiction = |contradiction: &Contradiction| {
            let said = contradiction.said.iter().map(|said| {
                let file = match contradiction.kind {
                    Kind::Loop => Json::Null,
                    _ => self.inputs[said.side].name.as_str().into(),
                };
                Json::object([
                    ("file", file),
                    ("path", json::path(self.table, &said.path)),
                    ("says", said.label.as_str().into()),
                ])
            });
            Json::object([
                ("path", json::path(self.table, &contradiction.path)),
                ("kind", contradiction.kind.word().into()),
                ("said", Json::list(said)),
                ("words", self.contradiction(contradiction).into()),
            ])
        };
        let only = self.inputs.iter().zip(&self.only).map(|(input, lines)| {
            Json::object([
                ("file", input.name.as_str().into()),
                ("says", why::json(self.table, lines)),
            ])
        });
        let both = notation::write_line(self.table, &self.both);
        Json::object([
            ("table", json::table(self.table, file)),
            ("files", Json::list(self.inputs.iter().map(|i| &i.name[..]))),
            ("order", order_word(self.order).into()),
            ("both", both.trim_end().into()),
            ("only", Json::list(only)),
            (
                "contradictions",
                Json::list(self.contradictions.iter().map(contradiction)),
            ),
        ])
    }
}
