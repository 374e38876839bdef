//! The calls on a table and one or two records.

use crate::Refusal;
use crate::bounds::{Bounds, Side};
use crate::graph::Graph;
use crate::lists::{BY_NUMBER, Ranks, TypeList, is_obeyed, reading_order, type_list};
use crate::order::{Order, node_map};
use crate::table::Table;
use crate::write::{renumber, write, write_marked};

/// Whether a table is accepted.
pub fn check_table(n: usize, table: &[u8]) -> Result<(), Refusal> {
    Table::open(n, table).map(|_| ())
}

/// Fills the output's first 512 bytes with the table of the house types.
pub fn house_table(output: &mut [u8]) -> Result<usize, Refusal> {
    let output = output.get_mut(..512).ok_or(Refusal::of(8))?;
    // A word with one bit for each grade up to `grade`, `bits` places apart.
    let up_to =
        |grade: u64, bits: u64| (0..=grade).fold(0, |word, low| word | 1u64 << (bits * low));
    for (house_type, row) in (0..).zip(output.chunks_exact_mut(8)) {
        let (first, second, third) = (house_type >> 4, house_type >> 2 & 3, house_type & 3);
        let word = up_to(first, 16) * up_to(second, 4) * up_to(third, 1);
        row.copy_from_slice(&word.to_le_bytes());
    }
    Ok(512)
}

/// The written record of a record.
pub fn rewrite(n: usize, table: &[u8], record: &[u8], output: &mut [u8]) -> Result<usize, Refusal> {
    let table = Table::open(n, table)?;
    rewrite_obeying(&table, None, record, output)
}

/// The same call with a list of types for features.
pub fn rewrite_appropriate(
    n: usize,
    table: &[u8],
    list: &[u8],
    record: &[u8],
    output: &mut [u8],
) -> Result<usize, Refusal> {
    let table = Table::open(n, table)?;
    rewrite_obeying(&table, Some(type_list(n, list)?), record, output)
}

/// Which of two records is the broader, seen from the first.
pub fn order(n: usize, table: &[u8], first: &[u8], second: &[u8]) -> Result<Order, Refusal> {
    let table = Table::open(n, table)?;
    let (mut a, mut b) = (Graph::empty(), Graph::empty());
    read_both(&table, None, [first, second], [&mut a, &mut b])?;
    Ok(crate::order::order(&table, &a, &b))
}

/// The common part.
pub fn generalize(
    n: usize,
    table: &[u8],
    first: &[u8],
    second: &[u8],
    output: &mut [u8],
) -> Result<usize, Refusal> {
    let (table, joins) = Bounds::open(n, table, Side::Joins)?;
    generalize_obeying(&table, &joins, None, [first, second], output)
}

/// The same call with a list of types for features.
pub fn generalize_appropriate(
    n: usize,
    table: &[u8],
    list: &[u8],
    first: &[u8],
    second: &[u8],
    output: &mut [u8],
) -> Result<usize, Refusal> {
    let (table, joins) = Bounds::open(n, table, Side::Joins)?;
    let list = type_list(n, list)?;
    generalize_obeying(&table, &joins, Some(list), [first, second], output)
}

/// The combination.
pub fn unify(
    n: usize,
    table: &[u8],
    first: &[u8],
    second: &[u8],
    output: &mut [u8],
) -> Result<usize, Refusal> {
    let (table, meets) = Bounds::open(n, table, Side::Meets)?;
    unify_obeying(&table, &meets, None, [first, second], output)
}

/// The same call with a list of types for features.
pub fn unify_appropriate(
    n: usize,
    table: &[u8],
    list: &[u8],
    first: &[u8],
    second: &[u8],
    output: &mut [u8],
) -> Result<usize, Refusal> {
    let (table, meets) = Bounds::open(n, table, Side::Meets)?;
    let list = type_list(n, list)?;
    unify_obeying(&table, &meets, Some(list), [first, second], output)
}

/// The difference of g, the first record, and s, the second.
pub fn difference(
    n: usize,
    table: &[u8],
    g: &[u8],
    s: &[u8],
    output: &mut [u8],
) -> Result<usize, Refusal> {
    let table = Table::open(n, table)?;
    difference_with(&table, BY_NUMBER, [g, s], output, None)
}

/// The difference, and in a second output the reason for each of its links.
pub fn difference_explained(
    n: usize,
    table: &[u8],
    g: &[u8],
    s: &[u8],
    output: &mut [u8],
    reasons: &mut [u8],
) -> Result<usize, Refusal> {
    let table = Table::open(n, table)?;
    difference_with(&table, BY_NUMBER, [g, s], output, Some(reasons))
}

/// The difference that keeps the least links by a reading order.
pub fn difference_by(
    n: usize,
    table: &[u8],
    list: &[u8],
    g: &[u8],
    s: &[u8],
    output: &mut [u8],
) -> Result<usize, Refusal> {
    let table = Table::open(n, table)?;
    difference_with(&table, &reading_order(list)?, [g, s], output, None)
}

/// The difference that keeps the least links by a reading order, with its reasons.
pub fn difference_explained_by(
    n: usize,
    table: &[u8],
    list: &[u8],
    g: &[u8],
    s: &[u8],
    output: &mut [u8],
    reasons: &mut [u8],
) -> Result<usize, Refusal> {
    let table = Table::open(n, table)?;
    difference_with(&table, &reading_order(list)?, [g, s], output, Some(reasons))
}

fn rewrite_obeying(
    table: &Table,
    list: Option<&TypeList>,
    record: &[u8],
    output: &mut [u8],
) -> Result<usize, Refusal> {
    let mut graph = Graph::empty();
    read(table, list, record, &mut graph).map_err(Refusal::of)?;
    write(&graph, output)
}

fn generalize_obeying(
    table: &Table,
    joins: &Bounds,
    list: Option<&TypeList>,
    records: [&[u8]; 2],
    output: &mut [u8],
) -> Result<usize, Refusal> {
    let (mut a, mut b, mut common) = (Graph::empty(), Graph::empty(), Graph::empty());
    read_both(table, list, records, [&mut a, &mut b])?;
    crate::generalize::generalize(joins, &a, &b, &mut common)?;
    write(&common, output)
}

fn unify_obeying(
    table: &Table,
    meets: &Bounds,
    list: Option<&TypeList>,
    records: [&[u8]; 2],
    output: &mut [u8],
) -> Result<usize, Refusal> {
    let (mut a, mut b) = (Graph::empty(), Graph::empty());
    read_both(table, list, records, [&mut a, &mut b])?;
    crate::unify::unify(meets, &a, &b, output)
}

fn difference_with(
    table: &Table,
    ranks: &Ranks,
    records: [&[u8]; 2],
    output: &mut [u8],
    reasons: Option<&mut [u8]>,
) -> Result<usize, Refusal> {
    let (mut general, mut specific) = (Graph::empty(), Graph::empty());
    read_both(table, None, records, [&mut general, &mut specific])?;
    let mut written = Graph::empty();
    renumber(&specific, &mut written);
    let Some(map) = node_map(table, &written, &general) else {
        return Err(Refusal::of(12));
    };
    let mut rest = Graph::empty();
    let Some(reasons) = reasons else {
        crate::difference::difference(table, ranks, &general, &written, &map, &mut rest, None)?;
        return write(&rest, output);
    };
    let mut whys = [0; 2048];
    let held = Some(&mut whys);
    crate::difference::difference(table, ranks, &general, &written, &map, &mut rest, held)?;
    write_marked(&rest, &whys, output, reasons)
}

/// Reads the graph of a record, or gives 4 to 7, or 18 if there is a list.
fn read(
    table: &Table,
    list: Option<&TypeList>,
    record: &[u8],
    graph: &mut Graph,
) -> Result<(), u8> {
    graph.read(table.n, record)?;
    match list {
        Some(list) if !is_obeyed(table, list, graph) => Err(18),
        _ => Ok(()),
    }
}

/// Reads the graphs of two records, the first before the second.
pub fn read_both(
    table: &Table,
    list: Option<&TypeList>,
    [first, second]: [&[u8]; 2],
    [a, b]: [&mut Graph; 2],
) -> Result<(), Refusal> {
    read(table, list, first, a).map_err(Refusal::of)?;
    read(table, list, second, b).map_err(Refusal::of_second)
}
