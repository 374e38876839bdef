//! Random planning tables, with rows in any order and nodes in any numbering. They are valid,
//! or damaged in each way that Papers 2 and 7 refuse.

use super::Xorshift;
use super::graphs::{Ranges, Shape, graph, label};
use crate::graph::{FEATURES, Graph};
use crate::record::{HAS_RANGE, MOST_LINKS, MOST_NODES};
use crate::rows::{NODE_BYTES, PlanningTable, Row};
use crate::table::CONTRADICTION;

/// The table of a graph in its own numbering, the rows in any order.
pub fn planning_table(random: &mut Xorshift, graph: &Graph) -> PlanningTable {
    let mut table = PlanningTable::of(graph);
    random.shuffle(&mut table.rows);
    table
}

/// A planning table that is accepted over any table of n types.
pub fn valid_planning_table(random: &mut Xorshift, n: usize, ranges: Ranges) -> PlanningTable {
    let shape = Shape::any(random).ranged(random, ranges);
    let graph = graph(random, n, &shape);
    planning_table(random, &graph)
}

/// A planning table that is probably, but not surely, refused. It has one fault or several.
pub fn damaged_planning_table(random: &mut Xorshift, n: usize, ranges: Ranges) -> PlanningTable {
    let shape = match random.chance(1, 8) {
        true => Shape::any(random),
        false => Shape::small(random, 6, 3),
    };
    let shape = shape.ranged(random, ranges);
    let graph = graph(random, n, &shape);
    let mut table = planning_table(random, &graph);
    for _ in 0..random.between(1, 3) {
        match random.pick(4) {
            0 | 1 => damage_row(random, &mut table, &shape),
            2 => damage_node(random, n, &mut table),
            _ => damage_count(random, n, &mut table, &shape),
        }
    }
    random.shuffle(&mut table.rows);
    table
}

/// A row changed, put in or taken out, so that 14, 15, 6 or 7 may be due.
fn damage_row(random: &mut Xorshift, table: &mut PlanningTable, shape: &Shape) {
    let count = table.nodes.len() / NODE_BYTES;
    let row = match table.rows.is_empty() {
        true => any_row(random, count, shape),
        false => table.rows.swap_remove(random.pick(table.rows.len())),
    };
    let least = count.min(255);
    let far = random.between(least, 255);
    let outside = *random.choose(&[least, far]) as u8;
    let above = random.between(FEATURES, 255) as u8;
    match random.pick(8) {
        0 => table.rows.push(Row {
            feature: *random.choose(&[FEATURES as u8, above, row.feature | 1 << 7]),
            ..row
        }),
        1 => table.rows.push(Row {
            parent: outside,
            ..row
        }),
        2 => table.rows.push(Row {
            target: outside,
            ..row
        }),
        // The same row twice.
        3 => table.rows.extend([row, row]),
        // Another row with this parent and feature.
        4 => {
            let target = random.pick(count.max(1)) as u8;
            table.rows.extend([row, Row { target, ..row }]);
        }
        // Any rows at all: a node may reach itself, and one may be left unreached.
        5 => table.rows.extend([row, any_row(random, count, shape)]),
        6 => table.rows.push(any_row(random, count, shape)),
        // The row is gone.
        _ => {}
    }
}

/// A row between nodes of the count, with a feature of the shape.
fn any_row(random: &mut Xorshift, count: usize, shape: &Shape) -> Row {
    Row {
        parent: random.pick(count.max(1)) as u8,
        feature: *random.choose(&shape.features),
        target: random.pick(count.max(1)) as u8,
    }
}

/// A node's bytes changed, so that 5 may be due.
fn damage_node(random: &mut Xorshift, n: usize, table: &mut PlanningTable) {
    let count = table.nodes.len() / NODE_BYTES;
    if count == 0 {
        return;
    }
    let bytes = &mut table.nodes[NODE_BYTES * random.pick(count)..][..NODE_BYTES];
    match random.pick(5) {
        0 => bytes[0] = CONTRADICTION,
        1 => {
            let above = random.between(n, 255);
            bytes[0] = *random.choose(&[n, above]) as u8;
        }
        // A type that would stand without bit 7.
        2 => bytes[0] |= HAS_RANGE,
        // A lowest level above the highest, by one level or by more.
        3 => {
            let highest = random.pick(255);
            let lowest = *random.choose(&[highest + 1, 255]);
            bytes[1..].copy_from_slice(&[lowest as u8, highest as u8]);
        }
        _ => bytes.fill_with(|| random.byte()),
    }
}

/// More or fewer nodes, bytes or rows, so that 4 or 7 may be due.
fn damage_count(random: &mut Xorshift, n: usize, table: &mut PlanningTable, shape: &Shape) {
    let count = table.nodes.len() / NODE_BYTES;
    match random.pick(10) {
        0 => table.nodes.truncate(random.pick(table.nodes.len() + 1)),
        1 => table.nodes.push(random.byte()),
        2 => table.nodes.extend([random.byte(), random.byte()]),
        3 => table.nodes.clear(),
        4 if random.chance(1, 4) => {
            let nodes = *random.choose(&[MOST_NODES, MOST_NODES + 1, 2 * MOST_NODES]);
            table.nodes.resize(NODE_BYTES * nodes, 1);
        }
        5 if random.chance(1, 4) => {
            let most = *random.choose(&[MOST_LINKS, MOST_LINKS + 1, 2 * MOST_LINKS]);
            let any = any_row(random, count, shape);
            table.rows.resize(most, any);
        }
        6 if random.chance(1, 4) => {
            let rows = (0..random.pick(9)).map(|_| Row {
                parent: random.byte(),
                feature: random.byte(),
                target: random.byte(),
            });
            table.rows = rows.collect();
        }
        // The last node is gone, and its rows stay.
        7 => table
            .nodes
            .truncate(table.nodes.len().saturating_sub(NODE_BYTES)),
        // A node that nothing reaches, which may have a link to itself.
        _ if count < MOST_NODES && table.nodes.len() == NODE_BYTES * count => {
            let label = label(random, n, shape);
            let range = label.range;
            table
                .nodes
                .extend([label.node_type, range.lowest, range.highest]);
            if random.chance(1, 2) {
                let any = random.pick(count + 1);
                let target = *random.choose(&[count, any]) as u8;
                let feature = *random.choose(&shape.features);
                table.rows.push(Row {
                    parent: count as u8,
                    feature,
                    target,
                });
            }
        }
        _ => {}
    }
}
