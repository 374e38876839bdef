//! The rows of the calls on stores. The stores have 4 and 16 versions, over two tables and in two
//! sizes. The programs have much in common: each is one template with a few types and ranges
//! lowered.

use crate::inputs::{LARGER, SMALLER, Size, Types};
use crate::rows::{Row, works};
use record_engine::{LONGEST_RECORD, Refusal, STORE_LENGTH};
use reference::graph::Graph;
use reference::random::{self, Shape, Xorshift};
use reference::record;
use reference::table::CONTRADICTION;
use std::sync::Arc;

/// Puts the last version into a store of the others.
macro_rules! put {
    ($library:ident, $x:ident, $lent:ident) => {{
        $lent.state[..$x.without_last.len()].copy_from_slice(&$x.without_last);
        $library::store_put($x.n, &$x.table, &mut $lent.state, $x.last, &$x.program)
    }};
}

/// Drops the first version from a store of all.
macro_rules! drop_first {
    ($library:ident, $x:ident, $lent:ident) => {{
        $lent.state[..$x.all.len()].copy_from_slice(&$x.all);
        $library::store_drop($x.n, &$x.table, &mut $lent.state, 0)
    }};
}

/// The input of the rows of one store.
struct Input {
    n: usize,
    table: Vec<u8>,
    /// The number of the last version, and its program.
    last: usize,
    program: Vec<u8>,
    /// The used bytes of a store of all versions, and of one without the last.
    all: Vec<u8>,
    without_last: Vec<u8>,
    /// The store of all versions, in a buffer of full length.
    store: Vec<u8>,
}

pub fn rows(tables: &[Types]) -> Vec<Row> {
    let mut rows = Vec::new();
    for types in tables.iter().filter(|types| types.is_for_all_calls()) {
        for size in [SMALLER, LARGER] {
            for (versions, names) in [(4, OF_4), (16, OF_16)] {
                let input = Arc::new(Input::new(types, size, versions));
                // A call that changes a store begins with a copy of the used bytes.
                let works = [
                    works!(
                        input,
                        |x, lent| put!(record_engine, x, lent),
                        put!(peer, x, lent)
                    ),
                    works!(input, |x, lent| store_read(
                        x.n,
                        &x.table,
                        &x.store,
                        x.last,
                        &mut lent.output
                    )),
                    works!(
                        input,
                        |x, lent| drop_first!(record_engine, x, lent),
                        drop_first!(peer, x, lent)
                    ),
                ];
                rows.extend(names.into_iter().zip(works).map(|(call, works)| Row {
                    call,
                    types: types.name.to_string(),
                    size,
                    works,
                }));
            }
        }
    }
    rows
}

const OF_4: [&str; 3] = [
    "store: put of the 4th version",
    "store: read, 4 versions",
    "store: drop, 4 versions",
];
const OF_16: [&str; 3] = [
    "store: put of the 16th version",
    "store: read, 16 versions",
    "store: drop, 16 versions",
];

impl Input {
    fn new(types: &Types, size: Size, versions: usize) -> Input {
        let programs = programs(types, size.nodes, versions);
        let (n, table) = (types.bytes.n, types.bytes.bytes.clone());
        let all = stored(n, &table, &programs);
        let mut store = all.clone();
        store.resize(STORE_LENGTH, 0);
        Input {
            last: versions - 1,
            program: programs[versions - 1].clone(),
            without_last: stored(n, &table, &programs[..versions - 1]),
            store,
            all,
            n,
            table,
        }
    }
}

/// The programs of a store. Each is a template with some two links a node. In each program, about
/// one node in 16 has a lower type or a range.
fn programs(types: &Types, nodes: usize, versions: usize) -> Vec<Vec<u8>> {
    let random = &mut Xorshift::new(nodes as u64);
    let shape = Shape {
        nodes,
        extra_links: nodes,
        features: (0..24).collect(),
        spread: nodes / 4,
        tops: 2,
        ranges: 0,
    };
    let template = random::graph(random, types.bytes.n, &shape);
    let mut program = || {
        let mut program: Graph = template.clone();
        for _ in 0..1 + nodes / 16 {
            let label = &mut program.nodes[random.pick(nodes)].label;
            let other = random.pick(types.bytes.n) as u8;
            match types.accepted.meet(label.node_type, other) {
                CONTRADICTION => label.range = random::range(random),
                lower => label.node_type = lower,
            }
        }
        record::write(&program)
    };
    (0..versions).map(|_| program()).collect()
}

/// The used bytes of a store of given programs, from version 0 on. The plain calls make the common
/// part of all programs and the difference of each program from it.
fn stored(n: usize, table: &[u8], programs: &[Vec<u8>]) -> Vec<u8> {
    let written = |call: &dyn Fn(&mut [u8]) -> Result<usize, Refusal>| {
        let mut output = vec![0; LONGEST_RECORD];
        let length = call(&mut output).expect("a record");
        output.truncate(length);
        output
    };
    let mut common = written(&|out| record_engine::rewrite(n, table, &programs[0], out));
    for program in &programs[1..] {
        common = written(&|out| record_engine::generalize(n, table, &common, program, out));
    }
    let differences = programs
        .iter()
        .map(|program| written(&|out| record_engine::difference(n, table, &common, program, out)));
    let map = (1u32 << programs.len()) - 1;
    let mut store = (map as u16).to_le_bytes().to_vec();
    for part in [common.clone()].into_iter().chain(differences) {
        store.extend((part.len() as u16).to_le_bytes());
        store.extend(part);
    }
    store
}
