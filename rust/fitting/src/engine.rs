//! The calls of the engine over a table, each with an output that is long enough for any record.
//! Every result that the tool tells comes from here.

use crate::planning::NodeBytes;
use crate::table::Table;
use record_engine::{LONGEST_LISTED, LONGEST_RECORD, MOST_LINKS, MOST_NODES};
use record_engine::{Order, Reason, Refusal, Row, Store};
use record_engine::{difference_explained, difference_explained_by};

/// An operation on two records that gives a third.
#[derive(Clone, Copy, Debug, PartialEq, Eq)]
pub enum Operation {
    /// The common part: what both records say.
    Generalize,
    /// The combination: what the records say together.
    Unify,
    /// The difference: what the second record says beyond the first.
    Difference,
}

/// Whether the engine accepts a table.
pub fn accept(table: &Table) -> Result<(), Refusal> {
    record_engine::check_table(table.n, &table.bytes)
}

/// The written form of a record.
pub fn rewrite(table: &Table, record: &[u8]) -> Result<Vec<u8>, Refusal> {
    written(|output| record_engine::rewrite(table.n, &table.bytes, record, output))
}

/// The written form of a record that obeys the table's list, if it has one.
pub fn rewrite_obeying(table: &Table, record: &[u8]) -> Result<Vec<u8>, Refusal> {
    match &table.list {
        None => rewrite(table, record),
        Some(list) => written(|output| {
            record_engine::rewrite_appropriate(table.n, &table.bytes, list, record, output)
        }),
    }
}

/// Which of two records is the broader, seen from the first.
pub fn order(table: &Table, first: &[u8], second: &[u8]) -> Result<Order, Refusal> {
    record_engine::order(table.n, &table.bytes, first, second)
}

/// The record that an operation gives.
pub fn operate(
    operation: Operation,
    table: &Table,
    first: &[u8],
    second: &[u8],
) -> Result<Vec<u8>, Refusal> {
    let call = match operation {
        Operation::Generalize => record_engine::generalize,
        Operation::Unify => record_engine::unify,
        Operation::Difference => record_engine::difference,
    };
    written(|output| call(table.n, &table.bytes, first, second, output))
}

/// The common part or the combination of two records. If the table has a list of types for
/// features, the records have to obey it.
pub fn operate_obeying(
    operation: Operation,
    table: &Table,
    first: &[u8],
    second: &[u8],
) -> Result<Vec<u8>, Refusal> {
    let call = match operation {
        Operation::Generalize => record_engine::generalize_appropriate,
        Operation::Unify => record_engine::unify_appropriate,
        // A difference need not obey a list.
        Operation::Difference => return operate(operation, table, first, second),
    };
    match &table.list {
        None => operate(operation, table, first, second),
        Some(list) => written(|output| call(table.n, &table.bytes, list, first, second, output)),
    }
}

/// The difference of two records, by a reading order if one is given, and the reason for each of
/// its links, in the order of the links in the record.
pub fn explain(
    table: &Table,
    by: Option<&[u8]>,
    general: &[u8],
    specific: &[u8],
) -> Result<(Vec<u8>, Vec<Reason>), Refusal> {
    let mut reasons = [0; MOST_LINKS];
    let (n, bytes, reasons_lent) = (table.n, &table.bytes, &mut reasons);
    let difference = written(|output| match by {
        None => difference_explained(n, bytes, general, specific, output, reasons_lent),
        Some(list) => {
            difference_explained_by(n, bytes, list, general, specific, output, reasons_lent)
        }
    })?;
    // The bytes behind the last reason are still 0, and 0 is no reason.
    let reasons = reasons
        .into_iter()
        .map_while(|byte| Reason::try_from(byte).ok());
    Ok((difference, reasons.collect()))
}

/// The listed record that follows a record. After no bytes it is the first; at the end it is none.
pub fn next(table: &Table, features: usize, record: &[u8]) -> Result<Option<Vec<u8>>, Refusal> {
    let mut output = [0; LONGEST_LISTED];
    let length = record_engine::next(table.n, &table.bytes, features, record, &mut output)?;
    Ok(length.map(|length| output[..length].to_vec()))
}

/// The record of a planning table.
pub fn import(table: &Table, rows: &[Row], nodes: &[NodeBytes]) -> Result<Vec<u8>, Refusal> {
    let nodes = nodes.concat();
    written(|output| record_engine::import(table.n, &table.bytes, rows, &nodes, output))
}

/// The planning table of a record: its rows and its nodes.
pub fn export(table: &Table, record: &[u8]) -> Result<(Vec<Row>, Vec<NodeBytes>), Refusal> {
    let mut rows = vec![Row::default(); MOST_LINKS];
    let mut nodes = vec![[0; 3]; MOST_NODES];
    let lent = nodes.as_flattened_mut();
    let counts = record_engine::export(table.n, &table.bytes, record, &mut rows, lent)?;
    rows.truncate(counts.rows);
    nodes.truncate(counts.nodes);
    Ok((rows, nodes))
}

/// Puts a program into a store under a version.
pub fn put_version(
    table: &Table,
    store: &mut Store,
    version: usize,
    record: &[u8],
) -> Result<usize, Refusal> {
    store.put(&accepted(table)?, version, record)
}

/// Removes a version.
pub fn drop_version(table: &Table, store: &mut Store, version: usize) -> Result<usize, Refusal> {
    store.drop(&accepted(table)?, version)
}

/// The written record of a version.
pub fn read_version(table: &Table, store: &Store, version: usize) -> Result<Vec<u8>, Refusal> {
    store.read(&accepted(table)?, version)
}

/// The table as the store takes it.
fn accepted(table: &Table) -> Result<record_engine::Table, Refusal> {
    record_engine::Table::from_bytes(&table.bytes)
}

/// The record that a call writes.
fn written(call: impl FnOnce(&mut [u8]) -> Result<usize, Refusal>) -> Result<Vec<u8>, Refusal> {
    let mut output = vec![0; LONGEST_RECORD];
    let length = call(&mut output)?;
    output.truncate(length);
    Ok(output)
}
