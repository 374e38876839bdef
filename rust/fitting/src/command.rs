//! The commands. A command reads files, makes calls of the engine, and tells the result.

mod arguments;
mod check;
mod comparison;
mod drawing;
mod operations;
mod patient;
mod planning;
mod reporting;
mod sameness;
mod table;

use crate::engine;
use crate::failure::Failure;
use crate::graph::Graph;
use crate::input::{self, Input};
use crate::progress::Progress;
use crate::table::Table;
use crate::{help, notation, output};
use arguments::Arguments;
use std::io::{ErrorKind, Write};
use std::iter;

/// What a command tells, in order.
type Told = Box<dyn Iterator<Item = Part>>;

/// A part of what a command tells.
enum Part {
    /// A part on standard output.
    Printed(Vec<u8>),
    /// A failure, on standard error. It also decides the exit status.
    Failed(Failure),
    /// A note on standard error, which is no failure.
    Noted(String),
    /// What the command looked for was found: the exit status is 1.
    Found,
}

/// The number of lines that a listing writes at a time.
const LINES_AT_ONCE: usize = 1_000;

/// Runs the tool. Writes what a command tells, and gives the exit status: 0 for success, 1 for a
/// refusal or if programs are found to be the same, 2 for wrong use.
pub fn run(arguments: &[String], out: &mut dyn Write, err: &mut dyn Write) -> u8 {
    let mut status = 0;
    let parts = told(arguments, &mut Progress::new(err));
    for part in parts.unwrap_or_else(failed) {
        let failure = match part {
            Part::Printed(bytes) => match out.write_all(&bytes).and_then(|()| out.flush()) {
                // The reader closed the pipe: it has read enough.
                Err(error) if error.kind() == ErrorKind::BrokenPipe => return status,
                Err(error) => Failure::usage(format!("cannot write: {error}")),
                Ok(()) => continue,
            },
            Part::Noted(note) => {
                let _ = writeln!(err, "fitting: {note}");
                continue;
            }
            Part::Found => {
                status = status.max(1);
                continue;
            }
            Part::Failed(failure) => failure,
        };
        status = status.max(failure.status());
        // If standard error is closed, only the exit status tells of the failure.
        let _ = writeln!(err, "{}", failure.message());
    }
    status
}

fn told(arguments: &[String], progress: &mut Progress) -> Result<Told, Failure> {
    let Some((name, arguments)) = arguments.split_first() else {
        let advice = "`fitting --help` tells the commands";
        return Err(Failure::usage(format!("no command is given\n  {advice}")));
    };
    let wants_help = |argument: &String| argument == "--help" || argument == "-h";
    if name == "help" || wants_help(name) {
        let subject = arguments.first().map_or("", |subject| subject);
        return help::about(subject).map(text);
    }
    if name == "--version" || name == "-V" {
        return Ok(text(format!("fitting {}\n", env!("CARGO_PKG_VERSION"))));
    }
    let command = help::command(name)?;
    if arguments.iter().any(wants_help) {
        return help::about(name).map(text);
    }
    let arguments = Arguments::read(command, arguments)?;
    match command.name {
        "versions" => return patient::versions(&arguments),
        "unpack" => return patient::unpack(&arguments),
        "put" => return patient::put(&arguments),
        "drop" => return patient::drop(&arguments),
        _ => {}
    }
    let table = input::table(&arguments.operands[0])?;
    match command.name {
        "check" => Ok(check::check(&table, &arguments)),
        "show" => show(&table, &arguments),
        "make" => make(&table, &arguments),
        "draw" => drawing::draw(&table, &arguments),
        "order" => operations::order(&table, &arguments),
        "compare" => comparison::compare(&table, &arguments),
        "same" => sameness::same(&table, &arguments, progress),
        "common" => operations::common(&table, &arguments),
        "combine" => operations::combine(&table, &arguments),
        "difference" => operations::difference(&table, &arguments),
        "report" => reporting::report(&table, &arguments, progress),
        "list" => list(table, &arguments),
        "import" => planning::import(&table, &arguments),
        "export" => planning::export(&table, &arguments),
        "pack" => patient::pack(table, &arguments),
        "table" => table::table(&table, &arguments),
        _ => unreachable!("the help has no further commands"),
    }
}

/// A text on standard output and nothing else.
fn text(text: String) -> Told {
    printed(text.into_bytes())
}

/// Bytes on standard output and nothing else.
fn printed(bytes: Vec<u8>) -> Told {
    Box::new(iter::once(Part::Printed(bytes)))
}

/// A failure and nothing else.
fn failed(failure: Failure) -> Told {
    Box::new(iter::once(Part::Failed(failure)))
}

/// Writes a result to a file, or to standard output.
fn put(file: &str, result: Vec<u8>) -> Result<Told, Failure> {
    if file == "-" {
        return Ok(printed(result));
    }
    output::write(file, &result)?;
    Ok(Box::new(iter::empty()))
}

/// Writes a record to the file that `-o` names, or tells it as text.
fn give(table: &Table, arguments: &Arguments, record: Vec<u8>) -> Result<Told, Failure> {
    match arguments.output() {
        Some(file) => put(file, record),
        None => Ok(text(notation::write(table, &Graph::of_written(&record)))),
    }
}

fn show(table: &Table, arguments: &Arguments) -> Result<Told, Failure> {
    let graph = Input::read(table, &arguments.operands[1])?.graph(table)?;
    let (record, fingerprint) = (notation::write(table, &graph), table.fingerprint());
    Ok(text(format!("{record}# table {fingerprint}\n")))
}

fn make(table: &Table, arguments: &Arguments) -> Result<Told, Failure> {
    let Some(file) = arguments.output() else {
        return Err(arguments.misused("`make` needs `-o FILE`"));
    };
    let input = Input::read(table, &arguments.operands[1])?;
    put(file, input.written(table)?)
}

/// Every small graph, in order.
fn list(table: Table, arguments: &Arguments) -> Result<Told, Failure> {
    let Some(features) = arguments.value("--features") else {
        return Err(arguments.misused("`list` needs `--features F`, which is 1 or 2"));
    };
    let Ok(features) = features.parse() else {
        return Err(arguments.misused(&format!("`--features`: `{features}` is no number")));
    };
    let mut upcoming = engine::next(&table, features, &[]).map_err(|refusal| {
        let advice = "give `--features 1` or `--features 2`";
        Failure::refused(refusal, format!("{refusal}\n  {advice}"))
    })?;
    let mut record = move || {
        let record = upcoming.take()?;
        upcoming = engine::next(&table, features, &record).expect("a listed record goes on");
        Some(notation::write_line(&table, &Graph::of_written(&record)))
    };
    let lines = iter::from_fn(move || {
        let lines: String = iter::from_fn(&mut record).take(LINES_AT_ONCE).collect();
        (!lines.is_empty()).then(|| Part::Printed(lines.into_bytes()))
    });
    Ok(Box::new(lines))
}

/// A number of things.
fn counted(number: usize, noun: &str) -> String {
    match number {
        1 => format!("1 {noun}"),
        _ => format!("{number} {noun}s"),
    }
}
