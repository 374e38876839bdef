//! `order`, `common`, `combine` and `difference`: the engine's answers about two records, or about
//! more records in turn.

use super::{Part, Told, give, printed, put};
use crate::command::arguments::Arguments;
use crate::engine::{self, Operation};
use crate::failure::Failure;
use crate::graph::Graph;
use crate::input::{self, Input};
use crate::json::{self, Json};
use crate::overlay::{Named, image};
use crate::table::Table;
use crate::why::{self, General, Kept};
use crate::{explain, notation, output, reading};
use record_engine::{Order, Refusal};
use std::iter;

pub fn order(table: &Table, arguments: &Arguments) -> Result<Told, Failure> {
    let first = Input::read(table, &arguments.operands[1])?;
    let second = Input::read(table, &arguments.operands[2])?;
    let order = order_of(table, &first, &second)?;
    let (one, two) = (first.graph(table)?, second.graph(table)?);
    let (inputs, graphs) = ([&first, &second], [&one, &two]);
    let named = |side: usize| Named {
        graph: graphs[side],
        name: &inputs[side].shown,
    };
    // The pairs for which a message tells why the one is not below the other.
    let not_below: &[(usize, usize)] = match order {
        Order::Same => &[],
        Order::Under => &[(1, 0)],
        Order::Above => &[(0, 1)],
        Order::Neither => &[(0, 1), (1, 0)],
    };
    let because = not_below.iter().filter_map(|&(lower, upper)| {
        let why = image(table, named(upper), named(lower)).err()?;
        Some((inputs[lower], inputs[upper], why))
    });
    let told = match arguments.has("--json") {
        true => {
            let because = because.map(|(lower, upper, why)| {
                Json::object([
                    ("lower", lower.name.as_str().into()),
                    ("upper", upper.name.as_str().into()),
                    ("words", why.into()),
                ])
            });
            let file = input::name(&arguments.operands[0]);
            Json::object([
                ("table", json::table(table, file)),
                ("files", Json::list([&first.name[..], &second.name])),
                ("order", order_word(order).into()),
                ("because", Json::list(because)),
            ])
            .lines()
        }
        false => {
            let because = because.map(|(lower, upper, why)| {
                format!("  {} is not below {}: {why}\n", lower.shown, upper.shown)
            });
            let because: String = because.collect();
            format!("{}\n{because}", order_word(order)).into_bytes()
        }
    };
    // An order is no record, so a file gets the same words as standard output.
    put(arguments.output().unwrap_or("-"), told)
}

/// The order of two records, seen from the first.
pub fn order_of(table: &Table, first: &Input, second: &Input) -> Result<Order, Failure> {
    engine::order(table, &first.record, &second.record)
        .map_err(|refusal| explain::refused(refusal, None, table, &[first, second]))
}

/// The word for an order.
pub fn order_word(order: Order) -> &'static str {
    match order {
        Order::Same => "same",
        Order::Under => "under",
        Order::Above => "above",
        Order::Neither => "neither",
    }
}

pub fn common(table: &Table, arguments: &Arguments) -> Result<Told, Failure> {
    operate(Operation::Generalize, table, arguments)
}

pub fn combine(table: &Table, arguments: &Arguments) -> Result<Told, Failure> {
    operate(Operation::Unify, table, arguments)
}

/// Goes from one record to the next: the operation takes the result so far and the next record.
fn operate(operation: Operation, table: &Table, arguments: &Arguments) -> Result<Told, Failure> {
    let files = arguments.operands[1..].iter();
    let inputs = files.map(|file| Input::read(table, file));
    let inputs = inputs.collect::<Result<Vec<_>, _>>()?;
    // A difference need not obey the table's list, and is combined without it.
    let call = match arguments.has("--plain") {
        true => engine::operate,
        false => engine::operate_obeying,
    };
    let mut result = inputs[0].record.clone();
    for count in 2..=inputs.len() {
        let next = &inputs[count - 1].record;
        result = call(operation, table, &result, next).map_err(|refusal| {
            let inputs: Vec<&Input> = inputs[..count].iter().collect();
            explain::refused(refusal, Some(operation), table, &inputs)
        })?;
    }
    give(table, arguments, result)
}

pub fn difference(table: &Table, arguments: &Arguments) -> Result<Told, Failure> {
    let (why, json) = (arguments.has("--why"), arguments.has("--json"));
    if why && arguments.output() == Some("-") {
        return Err(arguments.misused("`--why` and `-o -` both write to standard output"));
    }
    if json && !why {
        return Err(arguments.misused("`--json` is about reasons: it needs `--why`"));
    }
    let first = Input::read(table, &arguments.operands[1])?;
    let second = Input::read(table, &arguments.operands[2])?;
    let by = reading_order(table, arguments)?;
    if !why && by.is_none() {
        let operation = Operation::Difference;
        let result = engine::operate(operation, table, &first.record, &second.record);
        let result = result.map_err(|refusal| {
            explain::refused(refusal, Some(operation), table, &[&first, &second])
        })?;
        return give(table, arguments, result);
    }
    let explained = explained(table, by.as_deref(), &first, &second)?;
    if !why {
        return give(table, arguments, explained.difference);
    }
    let Explained { specific, kept, .. } = &explained;
    let lines = why::lines(table, specific, kept, General::Named(&first.shown));
    if json {
        let file = input::name(&arguments.operands[0]);
        let written = Graph::of_written(&explained.difference);
        let answer = Json::object([
            ("table", json::table(table, file)),
            ("files", Json::list([&first.name[..], &second.name])),
            (
                "difference",
                notation::write_line(table, &written).trim_end().into(),
            ),
            ("kept", why::json(table, &lines)),
        ]);
        if let Some(file) = arguments.output() {
            output::write(file, &explained.difference)?;
        }
        return Ok(printed(answer.lines()));
    }
    let told = give(table, arguments, explained.difference)?;
    let why = why::text(table, &lines, "# ").into_bytes();
    Ok(Box::new(told.chain(iter::once(Part::Printed(why)))))
}

/// The reading order that `--by` asks for, if the option is given.
pub fn reading_order(table: &Table, arguments: &Arguments) -> Result<Option<Vec<u8>>, Failure> {
    let list = arguments.value("--by").map(|by| reading::order(table, by));
    list.transpose()
        .map_err(|fault| arguments.misused(&format!("`--by`: {fault}")))
}

/// A difference, and what it keeps of the specific graph, with the reasons.
pub struct Explained {
    pub difference: Vec<u8>,
    pub specific: Graph,
    pub kept: Kept,
}

pub fn explained(
    table: &Table,
    by: Option<&[u8]>,
    general: &Input,
    specific: &Input,
) -> Result<Explained, Failure> {
    explained_graphs(table, by, &general.record, &specific.record).map_err(|refusal| {
        let operation = Some(Operation::Difference);
        explain::refused(refusal, operation, table, &[general, specific])
    })
}

/// The same of records as bytes.
pub fn explained_graphs(
    table: &Table,
    by: Option<&[u8]>,
    general: &[u8],
    specific: &[u8],
) -> Result<Explained, Refusal> {
    let (difference, reasons) = engine::explain(table, by, general, specific)?;
    let [general, specific] = [
        engine::rewrite(table, general)?,
        engine::rewrite(table, specific)?,
    ]
    .map(|record| Graph::of_written(&record));
    let written = Graph::of_written(&difference);
    let kept = why::kept(table, &general, &specific, &written, &reasons);
    Ok(Explained {
        difference,
        specific,
        kept,
    })
}
