//! The rows of all calls except those on stores.

use crate::inputs::{Input, LARGER, LONE, NO_GRAPH, SIZES, SMALLER, Size, Types, tables};
use crate::rows::{Row, Work, works};
use crate::stores;
use record_engine::GATHERING_LENGTH;
use reference::random::{self, Xorshift};
use reference::rows::PlanningTable;
use std::sync::Arc;

/// The rows of the five operations over all tables and sizes, those of the operations with ranges
/// over two tables and sizes, and those of the other calls over two tables and sizes.
pub fn rows(tables: &[Types]) -> Vec<Row> {
    let mut rows = Vec::new();
    for types in tables {
        for size in SIZES {
            let input = Arc::new(Input::new(types, size));
            push(&mut rows, types.name, size, operations(&input));
            if types.is_for_all_calls() && (size == SMALLER || size == LARGER) {
                let ranged = Arc::new(input.with_ranges(types, size));
                let labels = format!("{}, ranges", types.name);
                push(&mut rows, &labels, size, operations(&ranged));
                let beside = Arc::new(Beside::new(types, &input));
                push(&mut rows, types.name, size, others(&beside));
            }
        }
        push(&mut rows, types.name, NO_GRAPH, of_table(types));
    }
    push(&mut rows, "64 house", NO_GRAPH, vec![house_table()]);
    rows
}

/// The rows for the stack: the operations on chains of 1, 8 and 255 nodes, which take the most
/// stack, the other calls on the longest chain, and the calls on stores.
pub fn stack_rows() -> Vec<Row> {
    let tables = tables();
    let house = &tables[2];
    let mut rows = Vec::new();
    for size in [LONE, SIZES[0], LARGER] {
        let chain = Arc::new(Input::chain(house, size));
        let path = Arc::new(Input::longest_path(house, size));
        let mut named = operations(&chain);
        // The largest of these is refused when only the writing is left to do.
        let combinations = works!(
            path,
            |x, lent| record_engine::unify(x.n, &x.table, &x.general, &x.other, &mut lent.output)
                .or(Ok::<_, ()>(0)),
            peer::unify(x.n, &x.table, &x.general, &x.other, &mut lent.output).or(Ok::<_, ()>(0))
        );
        named[3].1 = combinations;
        push(&mut rows, house.name, size, named);
    }
    rows.sort_by_key(|row| OPERATIONS.iter().position(|&call| call == row.call));
    let beside = Arc::new(Beside::new(house, &Input::chain(house, LARGER)));
    push(&mut rows, house.name, LARGER, others(&beside));
    rows.extend(stores::rows(&tables[2..3]));
    rows.retain(|row| row.size != SMALLER);
    rows
}

type Named = (&'static str, [Work; 2]);

fn push(rows: &mut Vec<Row>, types: &str, size: Size, named: Vec<Named>) {
    rows.extend(named.into_iter().map(|(call, works)| Row {
        call,
        types: types.to_string(),
        size,
        works,
    }));
}

/// The names of the five operations.
pub const OPERATIONS: [&str; 5] = [
    "rewrite",
    "order",
    "common part",
    "combination",
    "difference",
];

pub fn operations(input: &Arc<Input>) -> Vec<Named> {
    let works = [
        works!(input, |x, lent| rewrite(
            x.n,
            &x.table,
            &x.specific,
            &mut lent.output
        )),
        works!(input, |x, _lent| order(
            x.n,
            &x.table,
            &x.specific,
            &x.general
        )),
        works!(input, |x, lent| generalize(
            x.n,
            &x.table,
            &x.general,
            &x.other,
            &mut lent.output
        )),
        works!(input, |x, lent| unify(
            x.n,
            &x.table,
            &x.general,
            &x.other,
            &mut lent.output
        )),
        works!(input, |x, lent| difference(
            x.n,
            &x.table,
            &x.general,
            &x.specific,
            &mut lent.output
        )),
    ];
    OPERATIONS.into_iter().zip(works).collect()
}

/// The check of a table, and steps through a listing. Their cost does not depend on the size of
/// graphs.
fn of_table(types: &Types) -> Vec<Named> {
    let n = types.bytes.n;
    let table = Arc::new(types.bytes.bytes.clone());
    let mut named = vec![(
        "check of a table",
        works!(table, |x, _lent| check_table(n, x)),
    )];
    if types.is_for_all_calls() {
        // Three nodes of type 1: the features 0 and 1 of the root lead to the other two.
        let mut fork = vec![3, 1, 3, 0, 0, 0, 0, 0, 0, 0, 1, 2];
        fork.extend([1, 0, 0, 0, 0, 0, 0, 0, 0].repeat(2));
        let input = Arc::new((types.bytes.bytes.clone(), fork));
        named.push((
            "first of a listing",
            works!(input, |x, lent| next(n, &x.0, 2, &[], &mut lent.output)),
        ));
        named.push((
            "next of a listing",
            works!(input, |x, lent| next(n, &x.0, 2, &x.1, &mut lent.output)),
        ));
    }
    named
}

fn house_table() -> Named {
    let nothing = Arc::new(());
    (
        "table of the house types",
        works!(nothing, |_x, lent| house_table(&mut lent.output)),
    )
}

/// An input, and what the other calls take in addition.
pub struct Beside {
    n: usize,
    table: Vec<u8>,
    specific: Vec<u8>,
    general: Vec<u8>,
    other: Vec<u8>,
    /// A list of types for features that all three graphs obey.
    types: Vec<u8>,
    /// A reading order.
    reading: Vec<u8>,
    /// The specific graph as rows in any order, and the bytes of its nodes.
    engine_rows: Vec<record_engine::Row>,
    peer_rows: Vec<peer::Row>,
    nodes: Vec<u8>,
    /// A gathering to which the other graph was added.
    gathered: Vec<u8>,
}

impl Beside {
    pub fn new(types: &Types, input: &Input) -> Beside {
        let random = &mut Xorshift::new(1);
        let graphs = input.graphs(types);
        let planned = random::planning_table(random, &graphs[0]);
        let PlanningTable { rows, nodes } = planned;
        let rows = rows.iter().map(|row| (row.parent, row.feature, row.target));
        let mut gathered = vec![0; GATHERING_LENGTH];
        let begun = record_engine::gathering_begin(input.n, &input.table, &mut gathered);
        begun.expect("a gathering");
        record_engine::gathering_add(&mut gathered, &input.other).expect("an addition");
        let mut reading: Vec<u8> = (0..64).collect();
        random.shuffle(&mut reading);
        Beside {
            n: input.n,
            table: input.table.clone(),
            specific: input.specific.clone(),
            general: input.general.clone(),
            other: input.other.clone(),
            types: random::obeyed_list(random, &types.accepted, &graphs.each_ref()),
            reading,
            engine_rows: rows
                .clone()
                .map(|(parent, feature, target)| record_engine::Row {
                    parent,
                    feature,
                    target,
                })
                .collect(),
            peer_rows: rows
                .map(|(parent, feature, target)| peer::Row {
                    parent,
                    feature,
                    target,
                })
                .collect(),
            nodes,
            gathered,
        }
    }
}

/// A whole gathering: its begin, three additions and its finish.
macro_rules! gather {
    ($library:ident, $x:ident, $lent:ident) => {{
        let state = &mut $lent.state[..GATHERING_LENGTH];
        let begun = $library::gathering_begin($x.n, &$x.table, state);
        begun
            .and_then(|_| $library::gathering_add(state, &$x.general))
            .and_then(|_| $library::gathering_add(state, &$x.other))
            .and_then(|_| $library::gathering_add(state, &$x.specific))
            .and_then(|_| $library::gathering_finish(state, &mut $lent.output))
    }};
}

/// An addition to a copy of a gathering.
macro_rules! add {
    ($library:ident, $x:ident, $lent:ident) => {{
        let state = &mut $lent.state[..GATHERING_LENGTH];
        state.copy_from_slice(&$x.gathered);
        $library::gathering_add(state, &$x.general)
    }};
}

pub fn others(input: &Arc<Beside>) -> Vec<Named> {
    vec![
        (
            "rewrite with a list",
            works!(input, |x, lent| rewrite_appropriate(
                x.n,
                &x.table,
                &x.types,
                &x.specific,
                &mut lent.output
            )),
        ),
        (
            "common part with a list",
            works!(input, |x, lent| generalize_appropriate(
                x.n,
                &x.table,
                &x.types,
                &x.general,
                &x.other,
                &mut lent.output
            )),
        ),
        (
            "combination with a list",
            works!(input, |x, lent| unify_appropriate(
                x.n,
                &x.table,
                &x.types,
                &x.general,
                &x.other,
                &mut lent.output
            )),
        ),
        (
            "difference with reasons",
            works!(input, |x, lent| difference_explained(
                x.n,
                &x.table,
                &x.general,
                &x.specific,
                &mut lent.output,
                &mut lent.beside
            )),
        ),
        (
            "difference by a reading order",
            works!(input, |x, lent| difference_by(
                x.n,
                &x.table,
                &x.reading,
                &x.general,
                &x.specific,
                &mut lent.output
            )),
        ),
        (
            "difference by a reading order with reasons",
            works!(input, |x, lent| difference_explained_by(
                x.n,
                &x.table,
                &x.reading,
                &x.general,
                &x.specific,
                &mut lent.output,
                &mut lent.beside
            )),
        ),
        (
            "import",
            works!(
                input,
                |x, lent| record_engine::import(
                    x.n,
                    &x.table,
                    &x.engine_rows,
                    &x.nodes,
                    &mut lent.output
                ),
                peer::import(x.n, &x.table, &x.peer_rows, &x.nodes, &mut lent.output)
            ),
        ),
        (
            "export",
            works!(
                input,
                |x, lent| record_engine::export(
                    x.n,
                    &x.table,
                    &x.specific,
                    &mut lent.engine_rows,
                    &mut lent.beside
                ),
                peer::export(
                    x.n,
                    &x.table,
                    &x.specific,
                    &mut lent.peer_rows,
                    &mut lent.beside
                )
            ),
        ),
        (
            "gathering of three",
            works!(
                input,
                |x, lent| gather!(record_engine, x, lent),
                gather!(peer, x, lent)
            ),
        ),
        (
            "addition to a gathering",
            works!(
                input,
                |x, lent| add!(record_engine, x, lent),
                add!(peer, x, lent)
            ),
        ),
        (
            "order beside a gathering",
            works!(input, |x, _lent| gathering_order(&x.gathered, &x.specific)),
        ),
        (
            "finish of a gathering",
            works!(input, |x, lent| gathering_finish(
                &x.gathered,
                &mut lent.output
            )),
        ),
    ]
}
