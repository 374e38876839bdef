//! The calls on bytes: rewriting, order, common part, combination, difference, and the
//! difference with its reasons (Paper 13). Rewriting, common part and combination also come
//! with a list of types for features (Paper 9), and the differences also with a reading order
//! (Paper 10). Further calls are a step through all small graphs (Paper 14), import and export
//! of planning tables (Paper 2), and the check of a table.
//!
//! Checks run in the papers' order: the table (1, 2, 3); the list (17, 19); the first graph
//! and then the second (4 to 7, with 14 and 15 after 4 for rows, and 18 with a list of types);
//! then 12, 13, 9, 10, 11, 23, 24, 8 and 22. An output changes only if a call returns a length
//! or counts, and then only in its first places.

use crate::appropriateness::Appropriateness;
use crate::canonical::canonical;
use crate::difference::{self, Explained};
use crate::generalize;
use crate::graph::Graph;
use crate::link_order::LinkOrder;
use crate::listing::Listing;
use crate::order;
use crate::record::{self, GraphFault, LONGEST_RECORD};
use crate::reply::{Refusal, Reply, Side};
use crate::rows::{self, PlanningTable, Row};
use crate::table::Table;
use crate::unify;

/// A call that takes a table and two graphs and writes a record.
pub type Call = fn(usize, &[u8], &[u8], &[u8], &mut [u8]) -> Reply;

/// A call that takes a table, a list and two graphs and writes a record.
pub type CallWithList = fn(usize, &[u8], &[u8], &[u8], &[u8], &mut [u8]) -> Reply;

/// Makes a call with an output as long as the longest record, and gives the record that
/// the call writes.
pub fn written(
    call: Call,
    n: usize,
    table: &[u8],
    first: &[u8],
    second: &[u8],
) -> Result<Vec<u8>, Refusal> {
    written_by(|output| call(n, table, first, second, output))
}

/// Makes any call that writes a record into its output, and gives the record.
pub fn written_by(call: impl FnOnce(&mut [u8]) -> Reply) -> Result<Vec<u8>, Refusal> {
    let mut output = vec![0; LONGEST_RECORD];
    match call(&mut output) {
        Reply::Length(length) => {
            output.truncate(length);
            Ok(output)
        }
        Reply::Refused(refusal) => Err(refusal),
        _ => unreachable!("a call that writes gives a length"),
    }
}

/// Whether a table is accepted. The length is 0, since nothing is written; or the table is
/// refused by 1 to 3.
pub fn check_table(n: usize, table: &[u8]) -> Reply {
    reply(accept_table(n, table).map(|_| Reply::Length(0)))
}

/// Rewrites one record in canonical (written) form.
pub fn rewrite(n: usize, table: &[u8], graph: &[u8], output: &mut [u8]) -> Reply {
    let result = accept_table(n, table)
        .and_then(|table| accept_graph(&table, graph, Side::First))
        .and_then(|graph| deliver(&graph, output));
    reply(result)
}

/// Rewrites one record of a graph that obeys a list.
pub fn rewrite_appropriate(
    n: usize,
    table: &[u8],
    list: &[u8],
    graph: &[u8],
    output: &mut [u8],
) -> Reply {
    let result = accept_list(n, table, list)
        .and_then(|(table, list)| accept_obeying(&table, &list, graph, Side::First))
        .and_then(|graph| deliver(&graph, output));
    reply(result)
}

/// Which of two graphs is the broader, seen from the first.
pub fn order(n: usize, table: &[u8], first: &[u8], second: &[u8]) -> Reply {
    let result = accept(n, table, first, second)
        .map(|(table, first, second)| Reply::Order(order::order(&table, &first, &second)));
    reply(result)
}

/// The common part (generalization) of two graphs.
pub fn generalize(n: usize, table: &[u8], first: &[u8], second: &[u8], output: &mut [u8]) -> Reply {
    deliver_generalization(accept(n, table, first, second), output)
}

/// The common part of two graphs that obey a list.
pub fn generalize_appropriate(
    n: usize,
    table: &[u8],
    list: &[u8],
    first: &[u8],
    second: &[u8],
    output: &mut [u8],
) -> Reply {
    deliver_generalization(accept_both_obeying(n, table, list, first, second), output)
}

/// The combination (unification) of two graphs.
pub fn unify(n: usize, table: &[u8], first: &[u8], second: &[u8], output: &mut [u8]) -> Reply {
    deliver_unification(accept(n, table, first, second), output)
}

/// The combination of two graphs that obey a list.
pub fn unify_appropriate(
    n: usize,
    table: &[u8],
    list: &[u8],
    first: &[u8],
    second: &[u8],
    output: &mut [u8],
) -> Reply {
    deliver_unification(accept_both_obeying(n, table, list, first, second), output)
}

/// The difference: g first, s second, for s below g.
pub fn difference(n: usize, table: &[u8], g: &[u8], s: &[u8], output: &mut [u8]) -> Reply {
    let result = accept(n, table, g, s)
        .and_then(|(table, g, s)| difference::difference(&table, &g, &s))
        .and_then(|difference| deliver(&difference, output));
    reply(result)
}

/// The difference, and in a second output one byte for each of its links, in record
/// order: why it is kept.
pub fn difference_explained(
    n: usize,
    table: &[u8],
    g: &[u8],
    s: &[u8],
    output: &mut [u8],
    reasons: &mut [u8],
) -> Reply {
    let result = accept(n, table, g, s)
        .and_then(|(table, g, s)| difference::difference_explained(&table, &g, &s))
        .and_then(|explained| deliver_explained(&explained, output, reasons));
    reply(result)
}

/// The difference that keeps the least links by a reading order.
pub fn difference_by(
    n: usize,
    table: &[u8],
    list: &[u8],
    g: &[u8],
    s: &[u8],
    output: &mut [u8],
) -> Reply {
    let result =
        explained_by(n, table, list, g, s).and_then(|explained| deliver(&explained.graph, output));
    reply(result)
}

/// The difference that keeps the least links by a reading order, with its reasons.
pub fn difference_explained_by(
    n: usize,
    table: &[u8],
    list: &[u8],
    g: &[u8],
    s: &[u8],
    output: &mut [u8],
    reasons: &mut [u8],
) -> Reply {
    let result = explained_by(n, table, list, g, s)
        .and_then(|explained| deliver_explained(&explained, output, reasons));
    reply(result)
}

/// "A call with no record, that is one of no bytes, gives the first, with a listed record
/// the next or the end, the output then unchanged."
pub fn next(n: usize, table: &[u8], features: usize, record: &[u8], output: &mut [u8]) -> Reply {
    let result = following(n, table, features, record).and_then(|next| match next {
        None => Ok(Reply::End),
        Some(next) => deliver_record(next, output),
    });
    reply(result)
}

/// "Import writes the written record of that graph."
pub fn import(n: usize, table: &[u8], rows: &[Row], nodes: &[u8], output: &mut [u8]) -> Reply {
    let result = accept_table(n, table)
        .and_then(|table| rows::read(&table, rows, nodes))
        .and_then(|graph| deliver(&graph, output));
    reply(result)
}

/// "Export fills such rows sorted by parent and then feature and returns the counts of nodes
/// and rows. Export numbers the nodes as the written record does and does not touch rows and
/// types past those it fills."
pub fn export(n: usize, table: &[u8], graph: &[u8], rows: &mut [Row], nodes: &mut [u8]) -> Reply {
    let result = accept_table(n, table)
        .and_then(|table| accept_graph(&table, graph, Side::First))
        .and_then(|graph| deliver_rows(&graph, rows, nodes));
    reply(result)
}

/// The listed record after another, or after none. "F outside 1 and 2 is 23, and a record
/// that is read but not listed is 24, both after the table and the record's own 4 to 7."
fn following(
    n: usize,
    table: &[u8],
    features: usize,
    record: &[u8],
) -> Result<Option<&'static [u8]>, Refusal> {
    let table = accept_table(n, table)?;
    if !record.is_empty() {
        accept_graph(&table, record, Side::First)?;
    }
    let listing = Listing::of(&table, features).ok_or(Refusal::FeatureCount)?;
    if !record.is_empty() && !listing.has(record) {
        return Err(Refusal::NotListed);
    }
    Ok(listing.after(record))
}

/// The difference by a list. "A list that is anything else is 19, after the table."
fn explained_by(
    n: usize,
    table: &[u8],
    list: &[u8],
    g: &[u8],
    s: &[u8],
) -> Result<Explained, Refusal> {
    let table = accept_table(n, table)?;
    let order = LinkOrder::by_list(list).ok_or(Refusal::ReadingOrder)?;
    let (g, s) = accept_graphs(&table, g, s)?;
    difference::difference_by(&order, &table, &g, &s)
}

/// A table and two graphs, or why one of them is refused.
type Accepted = Result<(Table, Graph, Graph), Refusal>;

/// The table and both graphs, where none of 1 to 7 applies.
fn accept(n: usize, table: &[u8], first: &[u8], second: &[u8]) -> Accepted {
    let table = accept_table(n, table)?;
    let (first, second) = accept_graphs(&table, first, second)?;
    Ok((table, first, second))
}

/// The same where neither 17 nor 18 applies either.
fn accept_both_obeying(
    n: usize,
    table: &[u8],
    list: &[u8],
    first: &[u8],
    second: &[u8],
) -> Accepted {
    let (table, list) = accept_list(n, table, list)?;
    let first = accept_obeying(&table, &list, first, Side::First)?;
    let second = accept_obeying(&table, &list, second, Side::Second)?;
    Ok((table, first, second))
}

pub(crate) fn accept_table(n: usize, bytes: &[u8]) -> Result<Table, Refusal> {
    Table::accept(n, bytes).map_err(Refusal::Table)
}

fn accept_graphs(table: &Table, first: &[u8], second: &[u8]) -> Result<(Graph, Graph), Refusal> {
    let first = accept_graph(table, first, Side::First)?;
    let second = accept_graph(table, second, Side::Second)?;
    Ok((first, second))
}

pub(crate) fn accept_graph(table: &Table, bytes: &[u8], side: Side) -> Result<Graph, Refusal> {
    record::read(table, bytes).map_err(|fault| Refusal::Graph(fault, side))
}

/// "A list entry of n or more, or a list not of 64 bytes, is 17, after the table."
fn accept_list(n: usize, table: &[u8], list: &[u8]) -> Result<(Table, Appropriateness), Refusal> {
    let table = accept_table(n, table)?;
    let list = Appropriateness::accept(&table, list).ok_or(Refusal::TypeList)?;
    Ok((table, list))
}

/// "A graph with a link that the list forbids is 18, straight after that graph's 7,
/// and tells which graph."
fn accept_obeying(
    table: &Table,
    list: &Appropriateness,
    bytes: &[u8],
    side: Side,
) -> Result<Graph, Refusal> {
    let graph = accept_graph(table, bytes, side)?;
    match list.is_obeyed(table, &graph) {
        true => Ok(graph),
        false => Err(Refusal::Graph(GraphFault::Inappropriate, side)),
    }
}

fn deliver_generalization(accepted: Accepted, output: &mut [u8]) -> Reply {
    let result = accepted
        .map(|(table, first, second)| generalize::generalize(&table, &first, &second))
        .and_then(|common| deliver(&common, output));
    reply(result)
}

fn deliver_unification(accepted: Accepted, output: &mut [u8]) -> Reply {
    let result = accepted
        .and_then(|(table, first, second)| unify::unify(&table, &first, &second))
        .and_then(|combined| deliver(&combined, output));
    reply(result)
}

/// Writes a result in canonical form: 11 if it is too large for a record, 8 if
/// the output is too short, else its bytes and its length.
pub(crate) fn deliver(graph: &Graph, output: &mut [u8]) -> Result<Reply, Refusal> {
    let record = fitting_record(graph, output)?;
    put(&record, output);
    Ok(Reply::Length(record.len()))
}

/// Writes a record: 8 if the output is too short, else its bytes and its length.
fn deliver_record(record: &[u8], output: &mut [u8]) -> Result<Reply, Refusal> {
    if record.len() > output.len() {
        return Err(Refusal::NoRoom);
    }
    put(record, output);
    Ok(Reply::Length(record.len()))
}

/// Writes a difference and its reasons: 11 and 8 as without reasons, then 22 if
/// there are more reasons than bytes for them.
fn deliver_explained(
    explained: &Explained,
    output: &mut [u8],
    reasons: &mut [u8],
) -> Result<Reply, Refusal> {
    let record = fitting_record(&explained.graph, output)?;
    let bytes: Vec<u8> = explained.reasons.iter().map(|&why| why.byte()).collect();
    if bytes.len() > reasons.len() {
        return Err(Refusal::NoReasonRoom);
    }
    put(&record, output);
    put(&bytes, reasons);
    Ok(Reply::Length(record.len()))
}

/// Fills rows and node bytes with a graph in canonical form. "Too few rows or types lent to
/// export is 8, both unchanged."
fn deliver_rows(graph: &Graph, rows: &mut [Row], nodes: &mut [u8]) -> Result<Reply, Refusal> {
    let filled = PlanningTable::of(&canonical(graph));
    if filled.rows.len() > rows.len() || filled.nodes.len() > nodes.len() {
        return Err(Refusal::NoRoom);
    }
    put(&filled.rows, rows);
    put(&filled.nodes, nodes);
    Ok(Reply::Counts {
        nodes: graph.nodes.len(),
        rows: graph.link_count(),
    })
}

/// The record of a result, where it is not too large for one and the output has
/// room for it.
fn fitting_record(graph: &Graph, output: &[u8]) -> Result<Vec<u8>, Refusal> {
    if !record::can_hold(graph) {
        return Err(Refusal::TooLarge);
    }
    let record = record::write(&canonical(graph));
    if record.len() > output.len() {
        return Err(Refusal::NoRoom);
    }
    Ok(record)
}

/// Puts bytes or rows in the first places of an output that has room for them.
fn put<T: Copy>(filled: &[T], output: &mut [T]) {
    output[..filled.len()].copy_from_slice(filled);
}

pub(crate) fn reply(result: Result<Reply, Refusal>) -> Reply {
    result.unwrap_or_else(Reply::Refused)
}
