//! The house types. The tests compare the table that the engine gives with the table made from the
//! grades. They also check the engine's meets over the table, and the stored text of `house_types`.

use record_engine::{HOUSE_TABLE_LENGTH, HOUSE_TYPES, LONGEST_RECORD, Refusal, house_table};
use reference::graph::Graph;
use reference::house;
use reference::record;

/// What `house_types` prints.
const STORED: &str = include_str!("../../../crates/house_types/stdout");

/// The bytes of the table, by the engine.
fn table() -> [u8; HOUSE_TABLE_LENGTH] {
    let mut table = [0; HOUSE_TABLE_LENGTH];
    assert_eq!(house_table(&mut table), Ok(HOUSE_TABLE_LENGTH));
    table
}

/// The record of a lone node.
fn lone(node_type: usize) -> Vec<u8> {
    record::write(&Graph::lone(node_type as u8))
}

#[test]
fn the_table_is_the_order_by_grades() {
    let expected = house::table();
    assert_eq!(
        (expected.n, &expected.bytes[..]),
        (HOUSE_TYPES, &table()[..])
    );
    let accepted = expected.accepted();
    assert!(accepted.admits_differences());
    for a in 0..HOUSE_TYPES {
        for b in 0..HOUSE_TYPES {
            let meet = accepted.meet(a as u8, b as u8);
            assert_eq!(usize::from(meet), house::lesser(a, b), "{a} and {b}");
        }
    }
}

#[test]
fn outputs_that_are_short_exact_and_long() {
    for room in [0, 1, 511, 512, 513, 700] {
        let before: Vec<u8> = (0..room).map(|place| (167 * place + 5) as u8).collect();
        let mut output = before.clone();
        let reply = house_table(&mut output);
        if room < HOUSE_TABLE_LENGTH {
            assert_eq!(reply, Err(Refusal::NoRoom), "an output of {room} bytes");
            assert_eq!(output, before);
        } else {
            assert_eq!(reply, Ok(HOUSE_TABLE_LENGTH), "an output of {room} bytes");
            assert_eq!(output[..HOUSE_TABLE_LENGTH], table());
            assert_eq!(output[HOUSE_TABLE_LENGTH..], before[HOUSE_TABLE_LENGTH..]);
        }
    }
}

#[test]
fn the_engine_meets_by_grades() {
    let table = table();
    let mut output = [0; LONGEST_RECORD];
    for a in 1..HOUSE_TYPES {
        for b in 1..HOUSE_TYPES {
            let reply = record_engine::unify(HOUSE_TYPES, &table, &lone(a), &lone(b), &mut output);
            match house::lesser(a, b) {
                0 => assert_eq!(reply, Err(Refusal::Clash), "{a} and {b}"),
                meet => assert_eq!(output[..reply.expect("a meet")], lone(meet), "{a} and {b}"),
            }
        }
    }
}

#[test]
fn differences_are_admitted_and_restore() {
    let table = table();
    let (mut part, mut whole) = ([0; LONGEST_RECORD], [0; LONGEST_RECORD]);
    for general in 1..HOUSE_TYPES {
        for specific in (1..=general).filter(|&s| house::is_below(s, general)) {
            let (g, s) = (lone(general), lone(specific));
            let length = record_engine::difference(HOUSE_TYPES, &table, &g, &s, &mut part)
                .expect("a difference");
            let restored =
                record_engine::unify(HOUSE_TYPES, &table, &g, &part[..length], &mut whole)
                    .expect("a combination");
            assert_eq!(whole[..restored], s, "{general} and {specific}");
        }
    }
}

#[test]
fn the_stored_text_is_the_meets_by_grades() {
    let expected: String = (0..HOUSE_TYPES)
        .map(|a| {
            let row: Vec<String> = (0..HOUSE_TYPES)
                .map(|b| house::lesser(a, b).to_string())
                .collect();
            row.join(" ") + "\n"
        })
        .collect();
    assert_eq!(STORED, expected);
}
