//! Types as sets (document 02, Paper 12). The tests make the calls over distributive tables, for
//! which the engine holds types as sets, and over other tables, for which it looks up meets and
//! joins. The numbers of the types follow the order, go against it, or do neither.

use comparison::{Call, Comparison, DIFFERENCE, GENERALIZE, ORDER, REWRITE, UNIFY, compare};
use reference::house;
use reference::random::{self, Numbering, Ranges, Shape, TableBytes, Xorshift};
use reference::table::{MOST_TYPES, Table};

/// For every three types the meet spreads over the join.
fn is_distributive(table: &Table) -> bool {
    table.types().all(|a| {
        table.types().all(|b| {
            table.types().all(|c| {
                table.meet(a, table.join(b, c)) == table.join(table.meet(a, b), table.meet(a, c))
            })
        })
    })
}

/// A distributive table, often of many types.
fn distributive(random: &mut Xorshift) -> TableBytes {
    match random.pick(6) {
        0 => random::boolean(random.between(1, 6)),
        1 => house::table(),
        2 => random::chain(random.between(2, MOST_TYPES)),
        _ => random::distributive(random),
    }
}

/// A table that is not distributive.
fn other(random: &mut Xorshift) -> TableBytes {
    loop {
        let table = match random.pick(4) {
            0 => random::pentagon(),
            1 => random::middles(random.between(3, 20)),
            2 => random::large_rival_table(random),
            _ => random::closure_system(random),
        };
        if !is_distributive(&table.accepted()) {
            return table;
        }
    }
}

/// So many pairs of records over tables of one kind, by a call on as many records as it
/// takes; each numbering comes as often as the others.
fn compare_over(
    call: Call,
    seed: u64,
    count: usize,
    kind: fn(&mut Xorshift) -> TableBytes,
) -> Comparison {
    compare(call, seed, count, |compared, random| {
        let table = kind(random);
        for numbering in Numbering::ALL {
            let table = random::numbered(random, &table, numbering);
            for _ in 0..4 {
                let shape = match random.chance(1, 8) {
                    true => Shape::any(random),
                    false => Shape::small(random, 12, 4),
                };
                let shape = shape.ranged(random, Ranges::Present);
                let [first, second] =
                    random::pair_of_records(random, &table, &shape, Ranges::Present);
                compared.check(&table, &[&first, &second]);
            }
        }
    })
}

#[test]
fn the_kinds_are_what_they_are_called() {
    let random = &mut Xorshift::stored(221);
    for numbering in Numbering::ALL {
        for _ in 0..20 {
            let table = distributive(random);
            let table = random::numbered(random, &table, numbering).accepted();
            assert!(is_distributive(&table));
            assert!(table.admits_differences());
            let table = other(random);
            let table = random::numbered(random, &table, numbering).accepted();
            assert!(!is_distributive(&table));
            assert!(!table.admits_differences());
        }
    }
}

#[test]
fn common_parts_over_distributive_tables() {
    let compared = compare_over(GENERALIZE, 223, 6_000, distributive);
    compared.assert_replies(&[0, 4, 5, 6, 7, 8, 11], 5);
}

#[test]
fn common_parts_over_other_tables() {
    let compared = compare_over(GENERALIZE, 225, 3_000, other);
    compared.assert_replies(&[0, 4, 5, 6, 7, 8, 11], 3);
}

#[test]
fn combinations_over_distributive_tables() {
    let compared = compare_over(UNIFY, 227, 6_000, distributive);
    compared.assert_replies(&[0, 4, 5, 6, 7, 8, 9, 10, 11], 3);
}

#[test]
fn combinations_over_other_tables() {
    let compared = compare_over(UNIFY, 229, 3_000, other);
    compared.assert_replies(&[0, 4, 5, 6, 7, 8, 9, 10, 11], 1);
}

#[test]
fn differences_over_distributive_tables() {
    let compared = compare_over(DIFFERENCE, 231, 6_000, distributive);
    compared.assert_replies(&[0, 4, 5, 6, 7, 8, 12], 20);
}

#[test]
fn differences_over_other_tables() {
    let compared = compare_over(DIFFERENCE, 233, 3_000, other);
    compared.assert_replies(&[0, 4, 5, 6, 7, 8, 12, 13], 5);
}

/// The calls that look up no bound: their tables are tested by the pairs that one type covers.
#[test]
fn orders_and_rewritings_over_both_kinds() {
    for (seed, kind) in [
        (235, distributive as fn(&mut Xorshift) -> TableBytes),
        (237, other),
    ] {
        let compared = compare_over(ORDER, seed, 1_500, kind);
        compared.assert_replies(&[4, 5, 6, 7], 5);
        let compared = compare_over(REWRITE, seed + 4, 4_000, kind);
        compared.assert_replies(&[0, 4, 5, 6, 7, 8], 1);
    }
}

/// Every order of up to seven types with a least and a greatest one, numbered along its
/// order: accepted or refused by 3 as the reference does.
#[test]
fn every_small_order() {
    let mut compared = Comparison::new(REWRITE, 241);
    for n in 2..=7 {
        let middle = n - 2;
        let pairs: Vec<(usize, usize)> = (1..=middle)
            .flat_map(|i| (1..i).map(move |j| (j, i)))
            .collect();
        for chosen in 0..1_u64 << pairs.len() {
            let table = TableBytes::of_relation(n, |j, i| {
                j == i
                    || j == 0
                    || i == n - 1
                    || pairs
                        .iter()
                        .zip(0..)
                        .any(|(&pair, place)| pair == (j, i) && chosen >> place & 1 == 1)
            });
            let lone = [1, n as u8 - 1, 0, 0, 0, 0, 0, 0, 0, 0];
            compared.check(&table, &[&lone]);
        }
    }
    compared.assert_replies(&[0, 2, 3, 8], 1);
}
