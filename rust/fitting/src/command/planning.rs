//! `import` and `export`: planning tables as CSV.

use super::{Told, give, put};
use crate::command::arguments::Arguments;
use crate::failure::Failure;
use crate::input::{self, Input};
use crate::table::Table;
use crate::{engine, explain, planning};

/// `import`: the record of a planning table.
pub fn import(table: &Table, arguments: &Arguments) -> Result<Told, Failure> {
    let files = arguments.operands[1..].iter().map(|file| input::csv(file));
    let files = files.collect::<Result<Vec<_>, _>>()?;
    let planning = planning::read(table, files).map_err(Failure::Malformed)?;
    let record = engine::import(table, &planning.rows, &planning.nodes)
        .map_err(|refusal| explain::planning_refused(refusal, table, &planning))?;
    give(table, arguments, record)
}

/// `export`: the planning table of a record. If all goes to one file, the nodes stand before the
/// links.
pub fn export(table: &Table, arguments: &Arguments) -> Result<Told, Failure> {
    let [nodes, links] = ["--nodes", "--links"].map(|option| arguments.value(option));
    if nodes.is_some() && links.is_some() && arguments.output().is_some() {
        return Err(arguments.misused("`--nodes` and `--links` leave nothing for `-o`"));
    }
    let rest = arguments.output().unwrap_or("-");
    let [nodes_file, links_file] = [nodes, links].map(|file| file.unwrap_or(rest));
    let input = Input::read(table, &arguments.operands[1])?;
    let (rows, nodes) = engine::export(table, &input.record)
        .map_err(|refusal| explain::refused(refusal, None, table, &[&input]))?;
    let (nodes, links) = (
        planning::nodes(table, &nodes),
        planning::links(table, &rows),
    );
    if nodes_file == links_file {
        return put(nodes_file, format!("{nodes}\n{links}").into_bytes());
    }
    let told = put(nodes_file, nodes.into_bytes())?;
    Ok(Box::new(told.chain(put(links_file, links.into_bytes())?)))
}
