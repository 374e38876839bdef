//! The types `Table` and `Options`, which accept a table once. Their methods, by the proved engine,
//! give what the calls of the reference give, refusals included.

use record_engine::{Reason, Refusal, Row, Table};
use reference::calls::{self, written_by};
use reference::random::{self, Ranges, Shape, TableBytes, Xorshift};
use reference::record::{LONGEST_RECORD, MOST_LINKS, MOST_NODES};
use reference::reply::{self, Reply};
use reference::rows;
use reference::table::MOST_TYPES;
use reference::{gathering, table};
use std::collections::BTreeMap;

/// How many inputs are compared in each test.
const INPUTS: usize = 4000;

/// How often each reply came, by its number; 0 stands for a result.
#[derive(Default)]
struct Replies(BTreeMap<u8, usize>);

impl Replies {
    /// Compares what both engines give.
    fn check<T: PartialEq + std::fmt::Debug>(
        &mut self,
        engine: Result<T, Refusal>,
        reference: Result<T, reply::Refusal>,
    ) {
        let engine = engine.map_err(|refusal| (refusal.number(), refusal.side().map(|s| s as u8)));
        let refused = |refusal: reply::Refusal| (refusal.number(), refusal.side().map(|s| s as u8));
        assert_eq!(engine, reference.map_err(refused));
        let number = engine.err().map_or(0, |(number, _)| number);
        *self.0.entry(number).or_default() += 1;
    }

    /// With the stored seeds, each of these replies came, and no other.
    fn assert_all(&self, numbers: &[u8]) {
        let found: Vec<u8> = self.0.keys().copied().collect();
        assert!(found == numbers || !random::is_stored(), "{:?}", self.0);
    }
}

/// The number of types that a table's bytes have, which `Table::from_bytes` goes by.
fn rows_of(table: &TableBytes) -> usize {
    table.bytes.len() / 8
}

#[test]
fn tables_from_bytes_are_accepted_as_by_the_reference() {
    let mut replies = Replies::default();
    let random = &mut Xorshift::stored(401);
    for _ in 0..INPUTS {
        let table = match random.chance(1, 4) {
            true => random::valid_table(random),
            false => random::damaged_table(random),
        };
        let made = Table::from_bytes(&table.bytes).map(|made| (made.n(), made.as_bytes().to_vec()));
        let accepted = table::Table::accept(rows_of(&table), &table.bytes);
        let accepted = accepted.map(|accepted| (accepted.n(), table.bytes.clone()));
        replies.check(made, accepted.map_err(reply::Refusal::Table));
    }
    replies.assert_all(&[0, 1, 2, 3]);
}

/// Whether the first type of a pair is reached from the second by some of the pairs, each
/// from its second type to its first.
fn is_reached(pairs: &[(u8, u8)], below: u8, above: u8) -> bool {
    let mut reached = vec![above];
    let mut place = 0;
    while place < reached.len() {
        for &(lower, higher) in pairs {
            if higher == reached[place] && !reached.contains(&lower) {
                reached.push(lower);
            }
        }
        place += 1;
    }
    reached.contains(&below)
}

#[test]
fn tables_from_pairs_are_their_closure() {
    let mut replies = Replies::default();
    let random = &mut Xorshift::stored(402);
    for _ in 0..INPUTS {
        let n = match random.pick(20) {
            0 => *random.choose(&[0, 1, 65, 300]),
            1 => random.between(9, MOST_TYPES),
            _ => random.between(2, 8),
        };
        let count = random.pick(2 * n.clamp(1, MOST_TYPES));
        // Mostly from lower numbers to higher ones, so that no type gets below itself.
        let most = (n.clamp(2, MOST_TYPES) - 1 + usize::from(random.chance(1, 30))) as u8;
        let climbs = random.chance(7, 8);
        let pairs: Vec<(u8, u8)> = (0..count)
            .map(|_| {
                let [a, b] = [0, 0].map(|_| random.between(0, usize::from(most)) as u8);
                if climbs { (a.min(b), a.max(b)) } else { (a, b) }
            })
            .collect();
        let expected = match pairs.iter().all(|&(a, b)| usize::from(a.max(b)) < n) {
            false if (2..=MOST_TYPES).contains(&n) => Err(table::TableFault::Order),
            _ => {
                let known = if n <= MOST_TYPES { n } else { 0 };
                let closed = TableBytes::of_relation(known, |j, i| {
                    j == 0 || i + 1 == n || is_reached(&pairs, j as u8, i as u8)
                });
                table::Table::accept(n, &closed.bytes).map(|_| closed.bytes)
            }
        };
        let made = Table::from_order(n, &pairs).map(|made| made.as_bytes().to_vec());
        replies.check(made, expected.map_err(reply::Refusal::Table));
    }
    replies.assert_all(&[0, 1, 2, 3]);
}

#[test]
fn calls_over_a_table_with_a_list_of_types() {
    let mut plain = Replies::default();
    let mut listed = Replies::default();
    let random = &mut Xorshift::stored(403);
    for _ in 0..INPUTS {
        let input = random::input_with_list(random, Ranges::Present);
        let (n, table, list) = (rows_of(&input.table), &input.table.bytes, &input.list);
        let [first, second] = &input.records;
        let made = Table::from_bytes(table);
        let made = || made.as_ref().map_err(|&refusal| refusal);
        plain.check(
            made().and_then(|table| table.rewrite(first)),
            written_by(|output| calls::rewrite(n, table, first, output)),
        );
        plain.check(
            made().and_then(|table| table.generalize(first, second)),
            calls::written(calls::generalize, n, table, first, second),
        );
        plain.check(
            made().and_then(|table| table.unify(first, second)),
            calls::written(calls::unify, n, table, first, second),
        );
        let options = || made().and_then(|table| table.options().appropriateness(list));
        listed.check(
            options().and_then(|options| options.rewrite(first)),
            written_by(|output| calls::rewrite_appropriate(n, table, list, first, output)),
        );
        listed.check(
            options().and_then(|options| options.generalize(first, second)),
            written_by(|output| {
                calls::generalize_appropriate(n, table, list, first, second, output)
            }),
        );
        listed.check(
            options().and_then(|options| options.unify(first, second)),
            written_by(|output| calls::unify_appropriate(n, table, list, first, second, output)),
        );
    }
    plain.assert_all(&[0, 1, 2, 3, 4, 5, 6, 7, 9, 10, 11]);
    listed.assert_all(&[0, 1, 2, 3, 4, 5, 6, 7, 9, 10, 11, 17, 18]);
}

#[test]
fn differences_over_a_table_with_a_reading_order() {
    let mut plain = Replies::default();
    let mut ordered = Replies::default();
    let random = &mut Xorshift::stored(404);
    for _ in 0..INPUTS {
        let input = random::input_with_reading_order(random, Ranges::Present);
        let (n, table, list) = (rows_of(&input.table), &input.table.bytes, &input.list);
        let [general, specific] = &input.records;
        let made = Table::from_bytes(table);
        let made = || made.as_ref().map_err(|&refusal| refusal);
        let order = made().and_then(|table| table.order(general, specific));
        let expected = match calls::order(n, table, general, specific) {
            Reply::Order(order) => Ok(order as usize),
            Reply::Refused(refusal) => Err(refusal),
            other => panic!("{other:?} is no order"),
        };
        plain.check(order.map(|order| order as usize), expected);
        plain.check(
            made().and_then(|table| table.difference(general, specific)),
            calls::written(calls::difference, n, table, general, specific),
        );
        let options = || made().and_then(|table| table.options().reading_order(list));
        ordered.check(
            options().and_then(|options| options.difference(general, specific)),
            written_by(|output| calls::difference_by(n, table, list, general, specific, output)),
        );
        let by_list = |output: &mut [u8], reasons: &mut [u8]| {
            calls::difference_explained_by(n, table, list, general, specific, output, reasons)
        };
        ordered.check(
            options().and_then(|options| options.explained(general, specific)),
            explained_by(by_list),
        );
        let by_number = |output: &mut [u8], reasons: &mut [u8]| {
            calls::difference_explained(n, table, general, specific, output, reasons)
        };
        plain.check(
            made().and_then(|table| table.explained(general, specific)),
            explained_by(by_number),
        );
    }
    plain.assert_all(&[0, 1, 2, 3, 4, 5, 6, 7, 12, 13]);
    ordered.assert_all(&[0, 1, 2, 3, 4, 5, 6, 7, 12, 13, 19]);
}

/// The record and the reasons that a call of the reference writes.
fn explained_by(
    call: impl FnOnce(&mut [u8], &mut [u8]) -> Reply,
) -> Result<(Vec<u8>, Vec<Reason>), reply::Refusal> {
    let mut reasons = [0; MOST_LINKS];
    let record = written_by(|output| call(output, &mut reasons))?;
    let reasons = reasons.into_iter().take_while(|&byte| byte != 0);
    let reasons = reasons.map(|byte| Reason::try_from(byte).expect("a reason"));
    Ok((record, reasons.collect()))
}

#[test]
fn planning_tables_over_a_table() {
    let mut imported = Replies::default();
    let mut exported = Replies::default();
    let random = &mut Xorshift::stored(405);
    for _ in 0..INPUTS {
        let table = random::valid_table(random);
        let (n, bytes) = (table.n, &table.bytes);
        let made = Table::from_bytes(bytes).expect("an accepted table");
        let planning = match random.chance(1, 2) {
            true => random::valid_planning_table(random, n, Ranges::Present),
            false => random::damaged_planning_table(random, n, Ranges::Present),
        };
        let own = |row: &rows::Row| Row {
            parent: row.parent,
            feature: row.feature,
            target: row.target,
        };
        let rows: Vec<Row> = planning.rows.iter().map(own).collect();
        imported.check(
            made.import(&rows, &planning.nodes),
            written_by(|output| calls::import(n, bytes, &planning.rows, &planning.nodes, output)),
        );
        let record = match random.chance(1, 2) {
            true => random::valid_record(random, n, Ranges::Present),
            false => random::damaged_record(random, n, Ranges::Present),
        };
        let blank = rows::Row {
            parent: 0,
            feature: 0,
            target: 0,
        };
        let mut filled = vec![blank; MOST_LINKS];
        let mut nodes = [0; 3 * MOST_NODES];
        let expected = match calls::export(n, bytes, &record, &mut filled, &mut nodes) {
            Reply::Counts { nodes: count, rows } => {
                let rows: Vec<Row> = filled[..rows].iter().map(own).collect();
                Ok((rows, nodes[..3 * count].to_vec()))
            }
            Reply::Refused(refusal) => Err(refusal),
            other => panic!("{other:?} is no count"),
        };
        exported.check(made.export(&record), expected);
    }
    imported.assert_all(&[0, 4, 5, 6, 7, 14, 15]);
    exported.assert_all(&[0, 4, 5, 6, 7]);
}

#[test]
fn the_common_part_of_many_records() {
    let mut replies = Replies::default();
    let random = &mut Xorshift::stored(406);
    for _ in 0..INPUTS / 2 {
        let table = random::valid_table(random);
        let made = Table::from_bytes(&table.bytes).expect("an accepted table");
        let shape = Shape::small(random, 9, 4);
        let first = random::graph(random, table.n, &shape);
        let draw = |random: &mut Xorshift| match random.pick(12) {
            0 => random::damaged_record(random, table.n, Ranges::Present),
            1 => random::valid_record(random, table.n, Ranges::Present),
            2 => {
                let shape = Shape::large(random);
                let large = random::graph(random, table.n, &shape);
                random::record_of(random, &large, Ranges::Absent)
            }
            _ => {
                let above = random::graph_above(random, &table.accepted(), &first);
                random::record_of(random, &above, Ranges::Present)
            }
        };
        let count = random.pick(5);
        let records: Vec<Vec<u8>> = (0..count).map(|_| draw(random)).collect();
        replies.check(made.generalize_all(&records), folded(&table, &records));
    }
    replies.assert_all(&[0, 4, 5, 6, 7, 11, 16]);
}

/// The common part by the reference's calls on a gathering, up to the first refusal.
fn folded(table: &TableBytes, records: &[Vec<u8>]) -> Result<Vec<u8>, reply::Refusal> {
    let mut held = [0; gathering::LONGEST_GATHERING];
    let refused = |reply: Reply| match reply {
        Reply::Refused(refusal) => Err(refusal),
        _ => Ok(()),
    };
    refused(gathering::begin(table.n, &table.bytes, &mut held))?;
    for record in records {
        refused(gathering::add(&mut held, record))?;
    }
    let mut output = [0; LONGEST_RECORD];
    match gathering::finish(&held, &mut output) {
        Reply::Length(length) => Ok(output[..length].to_vec()),
        reply => Err(refused(reply).expect_err("a length or a refusal")),
    }
}
