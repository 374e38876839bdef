//! The check of a table by the proved engine and by the reference, on every relation on up to four
//! types and on random tables, most of them damaged. The other calls accept and refuse the same
//! tables.

use record_engine::{LONGEST_RECORD, Refusal, check_table, rewrite};
use reference::calls;
use reference::random::{self, TableBytes, Xorshift};
use reference::reply::Reply;

/// Compares what both engines give for a table, and gives its number; 0 where the table is
/// accepted.
fn checked(table: &TableBytes) -> u8 {
    let engine = check_table(table.n, &table.bytes);
    let number = engine.map_or_else(Refusal::number, |()| 0);
    let reply = calls::check_table(table.n, &table.bytes);
    let expected = match reply {
        Reply::Length(0) => 0,
        reply => reply.number().expect("0 or a refusal"),
    };
    assert_eq!(number, expected, "{table:?}");
    number
}

/// The same; and a call over the table, of a lone top, is refused by 1 to 3 or not at all.
fn checked_beside_a_call(table: &TableBytes) -> u8 {
    let number = checked(table);
    let top = [1, table.n.wrapping_sub(1) as u8, 0, 0, 0, 0, 0, 0, 0, 0];
    let rewritten = rewrite(table.n, &table.bytes, &top, &mut [0; LONGEST_RECORD]);
    assert_eq!(rewritten.map_or_else(Refusal::number, |_| 0), number);
    number
}

/// From the stored seed, each of the numbers 0 to 3 came at least so often.
fn assert_each(counts: [usize; 4], least: [usize; 4]) {
    let enough = (0..4).all(|number| counts[number] >= least[number]);
    assert!(enough || !random::is_stored(), "{counts:?}");
}

#[test]
fn every_relation_on_few_types() {
    let mut counts = [0; 4];
    for n in 0..=4 {
        for bits in 0_u32..1 << (n * n) {
            let table = TableBytes::of_relation(n, |j, i| bits >> (n * i + j) & 1 == 1);
            counts[usize::from(checked(&table))] += 1;
        }
    }
    // n = 0 and n = 1 are no tables. Accepted are, between the least and the greatest type,
    // nothing, one type, and two that are beside each other or one below the other; 3 takes
    // more types.
    assert_eq!(counts, [1 + 1 + 3, 1 + 2, 16 + 512 + 65_536 - 5, 0]);
}

#[test]
fn random_tables() {
    let mut counts = [0; 4];
    let random = &mut Xorshift::stored(411);
    for _ in 0..20_000 {
        let table = match random.chance(1, 4) {
            true => random::valid_table(random),
            false => random::damaged_table(random),
        };
        counts[usize::from(checked_beside_a_call(&table))] += 1;
    }
    assert_each(counts, [1000, 1000, 1000, 300]);
}

#[test]
fn large_tables() {
    let mut counts = [0; 4];
    let random = &mut Xorshift::stored(412);
    for _ in 0..200 {
        let mut table = random::large_rival_table(random);
        counts[usize::from(checked_beside_a_call(&table))] += 1;
        // One bit more or less.
        let place = random.pick(table.bytes.len());
        table.bytes[place] ^= 1 << random.pick(8);
        counts[usize::from(checked_beside_a_call(&table))] += 1;
    }
    assert_each(counts, [200, 0, 100, 1]);
}
