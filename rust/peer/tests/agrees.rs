//! The peer answers as the engine and the reference do, so that the benchmark measures the same
//! work. These tests make the calls that take a table and records, on random and damaged input,
//! over distributive tables, which hold types as sets, and over others.

mod told;

use comparison::{Call, NEXT, Told, number};
use comparison::{DIFFERENCE, GENERALIZE, ORDER, REWRITE, UNIFY};
use comparison::{DIFFERENCE_BY, DIFFERENCE_EXPLAINED, DIFFERENCE_EXPLAINED_BY};
use comparison::{GENERALIZE_APPROPRIATE, REWRITE_APPROPRIATE, UNIFY_APPROPRIATE};
use record_engine::{Listing, check_table, house_table};
use reference::calls;
use reference::house;
use reference::random::{self, Numbering, Ranges, Shape, TableBytes, Xorshift};
use reference::table::MOST_TYPES;
use told::told;

/// A call of the peer, in the form of the calls of the engine and the reference.
type Peer = fn(&TableBytes, &[&[u8]], &mut [&mut [u8]]) -> Told;

/// Makes a [`Peer`] from the name of a call, what the call takes after the table, and its outputs.
macro_rules! peer {
    ($name:ident($($input:ident),*; $($output:ident),*), $tell:expr) => {
        |table, inputs, outputs| {
            let ([$($input,)* ..], [$($output),*]) = (inputs, outputs) else {
                panic!("other inputs or outputs than {} takes", stringify!($name));
            };
            told(peer::$name(table.n, &table.bytes, $($input,)* $($output),*), $tell)
        }
    };
}

/// The calls on one or two records.
const CALLS: [(Call, Peer); 6] = [
    (REWRITE, peer!(rewrite(record; output), Told::Length)),
    (
        ORDER,
        peer!(order(first, second;), |order| Told::Order(order as usize)),
    ),
    (
        GENERALIZE,
        peer!(generalize(first, second; output), Told::Length),
    ),
    (UNIFY, peer!(unify(first, second; output), Told::Length)),
    (
        DIFFERENCE,
        peer!(difference(first, second; output), Told::Length),
    ),
    (
        DIFFERENCE_EXPLAINED,
        peer!(difference_explained(first, second; output, reasons), Told::Length),
    ),
];

/// The calls with a list of types for features before the records.
const WITH_TYPES: [(Call, Peer); 3] = [
    (
        REWRITE_APPROPRIATE,
        peer!(rewrite_appropriate(list, record; output), Told::Length),
    ),
    (
        GENERALIZE_APPROPRIATE,
        peer!(generalize_appropriate(list, first, second; output), Told::Length),
    ),
    (
        UNIFY_APPROPRIATE,
        peer!(unify_appropriate(list, first, second; output), Told::Length),
    ),
];

/// The calls with a reading order before the records.
const BY_ORDER: [(Call, Peer); 2] = [
    (
        DIFFERENCE_BY,
        peer!(difference_by(list, first, second; output), Told::Length),
    ),
    (
        DIFFERENCE_EXPLAINED_BY,
        peer!(difference_explained_by(list, first, second; output, reasons), Told::Length),
    ),
];

/// A step through a listing.
const STEP: (Call, Peer) = (NEXT, |table, inputs, outputs| {
    let ([features, record], [output]) = (inputs, outputs) else {
        panic!("next takes a number, a record and an output");
    };
    let features = usize::from_le_bytes((*features).try_into().expect("a number"));
    let result = peer::next(table.n, &table.bytes, features, record, output);
    told(result, |length| length.map_or(Told::End, Told::Length))
});

/// How often each refusal came. Place 0 counts the replies that are no refusal.
#[derive(Default)]
struct Counts([usize; 25]);

impl Counts {
    /// Makes one call by all three, with outputs that are long enough or too short. The replies
    /// and the bytes of the outputs have to be the same.
    fn check(
        &mut self,
        random: &mut Xorshift,
        (call, peer): (Call, Peer),
        table: &TableBytes,
        inputs: &[&[u8]],
    ) {
        let before: Vec<Vec<u8>> = call
            .outputs
            .iter()
            .map(|output| {
                let small = random.pick(100);
                let room = *random.choose(&[output.longest, output.longest, small]);
                vec![random.byte(); room]
            })
            .collect();
        let run = |work: &dyn Fn(&mut [&mut [u8]]) -> Told| {
            let mut outputs = before.clone();
            let mut lent: Vec<&mut [u8]> = outputs.iter_mut().map(Vec::as_mut_slice).collect();
            (work(&mut lent), outputs)
        };
        let by_peer = run(&|lent| peer(table, inputs, lent));
        let by_engine = run(&|lent| (call.engine)(table, inputs, lent));
        let by_reference = run(&|lent| (call.reference)(table, inputs, lent).into());
        assert!(by_peer == by_engine, "{:?} {table:?} {inputs:?}", by_peer.0);
        assert!(
            by_peer == by_reference,
            "{:?} {table:?} {inputs:?}",
            by_peer.0
        );
        let number = match by_peer.0 {
            Told::Refused(number, _) => number,
            _ => 0,
        };
        self.0[usize::from(number)] += 1;
    }

    /// With the stored seeds, each of these replies came at least this often.
    fn assert_each(&self, numbers: &[usize], least: usize) {
        let enough = numbers.iter().all(|&number| self.0[number] >= least);
        assert!(enough || !random::is_stored(), "{:?}", self.0);
    }
}

fn shape(random: &mut Xorshift, ranges: Ranges) -> Shape {
    let shape = match random.chance(1, 8) {
        true => Shape::any(random),
        false => Shape::small(random, 9, 4),
    };
    shape.ranged(random, ranges)
}

#[test]
fn on_two_records() {
    let random = &mut Xorshift::stored(41);
    let mut counts = Counts::default();
    for round in 0..2_000 {
        let ranges = [Ranges::Absent, Ranges::Present][round % 2];
        let table = match random.pick(6) {
            0 => random::damaged_table(random),
            1 => random::rival_table(random),
            _ => random::valid_table(random),
        };
        for _ in 0..6 {
            let shape = shape(random, ranges);
            let [first, second] = random::pair_of_records(random, &table, &shape, ranges);
            for call in CALLS {
                counts.check(random, call, &table, &[&first, &second]);
            }
        }
    }
    counts.assert_each(&[0, 1, 2, 3, 4, 5, 6, 7, 8, 9, 10, 11, 12], 5);
}

/// Pairs whose difference often has a node without a wanted type.
#[test]
fn on_records_over_rivals() {
    let random = &mut Xorshift::stored(42);
    let mut counts = Counts::default();
    for round in 0..300 {
        let ranges = [Ranges::Absent, Ranges::Present][round % 2];
        let table = random::rival_table(random);
        for _ in 0..6 {
            let shape = shape(random, ranges);
            let (first, second) = random::low_pair(random, &table.accepted(), &shape);
            let [first, second] =
                [first, second].map(|graph| random::record_of(random, &graph, ranges));
            for call in CALLS {
                counts.check(random, call, &table, &[&first, &second]);
            }
        }
    }
    counts.assert_each(&[0, 8, 13], 5);
}

/// A table of many types, distributive or not.
fn large_table(random: &mut Xorshift) -> TableBytes {
    match random.pick(7) {
        0 => random::boolean(random.between(1, 6)),
        1 => house::table(),
        2 => random::chain(random.between(2, MOST_TYPES)),
        3 => random::distributive(random),
        4 => random::middles(random.between(3, 62)),
        5 => random::large_rival_table(random),
        _ => random::closure_system(random),
    }
}

/// Tables whose numbers follow the order, go against it, or follow neither direction.
#[test]
fn over_tables_of_many_types() {
    let random = &mut Xorshift::stored(43);
    let mut counts = Counts::default();
    for _ in 0..150 {
        let table = large_table(random);
        for numbering in Numbering::ALL {
            let table = random::numbered(random, &table, numbering);
            for _ in 0..4 {
                let shape = shape(random, Ranges::Present);
                let [first, second] =
                    random::pair_of_records(random, &table, &shape, Ranges::Present);
                for call in CALLS {
                    counts.check(random, call, &table, &[&first, &second]);
                }
            }
        }
    }
    counts.assert_each(&[0, 8, 10, 12], 20);
}

/// Every order of up to six types with a least and a greatest type, whose numbers follow the
/// order, is accepted or refused by 3.
#[test]
fn over_every_small_order() {
    let random = &mut Xorshift::stored(44);
    let mut counts = Counts::default();
    for n in 2..=6 {
        let pairs: Vec<(usize, usize)> = (2..n - 1)
            .flat_map(|i| (1..i).map(move |j| (j, i)))
            .collect();
        for chosen in 0..1_u64 << pairs.len() {
            let table = TableBytes::of_relation(n, |j, i| {
                let place = pairs.iter().position(|&pair| pair == (j, i));
                let is_chosen = place.is_some_and(|place| chosen >> place & 1 == 1);
                j == i || j == 0 || i == n - 1 || is_chosen
            });
            let lone = [1, n as u8 - 1, 0, 0, 0, 0, 0, 0, 0, 0];
            for call in CALLS {
                counts.check(random, call, &table, &[&lone, &lone]);
            }
        }
    }
    counts.assert_each(&[0, 2, 3], 5);
}

#[test]
fn beside_a_list_of_types() {
    let random = &mut Xorshift::stored(45);
    let mut counts = Counts::default();
    for round in 0..6_000 {
        let ranges = [Ranges::Absent, Ranges::Present][round % 2];
        let input = random::input_with_list(random, ranges);
        let [first, second] = &input.records;
        for call in WITH_TYPES {
            counts.check(random, call, &input.table, &[&input.list, first, second]);
        }
    }
    counts.assert_each(&[0, 1, 2, 3, 4, 5, 6, 7, 8, 9, 10, 17, 18], 3);
}

#[test]
fn by_a_reading_order() {
    let random = &mut Xorshift::stored(46);
    let mut counts = Counts::default();
    for round in 0..6_000 {
        let ranges = [Ranges::Absent, Ranges::Present][round % 2];
        let input = random::input_with_reading_order(random, ranges);
        let [first, second] = &input.records;
        for call in BY_ORDER {
            counts.check(random, call, &input.table, &[&input.list, first, second]);
        }
    }
    counts.assert_each(&[0, 1, 2, 3, 4, 5, 6, 7, 8, 12, 13, 19, 22], 3);
}

/// Whole listings over few types. Also records that are accepted but not listed, records that are
/// refused, and records with another number of features.
#[test]
fn through_a_listing() {
    let random = &mut Xorshift::stored(47);
    let mut counts = Counts::default();
    let tables = [
        random::chain(2),
        random::diamond(),
        random::pentagon(),
        random::chain(5),
    ];
    for table in &tables {
        for features in [1, 2] {
            counts.check(random, STEP, table, &[&number(features), &[]]);
            let listing = Listing::new(table.n, &table.bytes, features).expect("1 or 2");
            for record in listing {
                let features = *random.choose(&[1, 2, 2, 2, 0, 3]);
                counts.check(random, STEP, table, &[&number(features), &record]);
            }
        }
        for _ in 0..2_000 {
            let features = *random.choose(&[1, 2, 2, 2, 0, 3]);
            let ranges = *random.choose(&[Ranges::Absent, Ranges::Absent, Ranges::Present]);
            let record = match random.chance(1, 3) {
                true => random::damaged_record(random, table.n, ranges),
                false => {
                    let shape = Shape::small(random, 4, 3).ranged(random, ranges);
                    let graph = random::graph(random, table.n, &shape);
                    random::record_of(random, &graph, ranges)
                }
            };
            counts.check(random, STEP, table, &[&number(features), &record]);
        }
    }
    counts.assert_each(&[0, 4, 5, 6, 7, 8, 23, 24], 20);
}

/// Steps through the listing over 64 types, compared with those of the engine.
#[test]
fn through_a_long_listing() {
    let table = random::boolean(6);
    let (n, bytes) = (table.n, &table.bytes);
    let random = &mut Xorshift::stored(48);
    for _ in 0..500 {
        let shape = Shape::small(random, 3, 2);
        let graph = random::graph(random, n, &shape);
        let mut given = random::record_of(random, &graph, Ranges::Absent);
        for _ in 0..20 {
            let (mut output, mut engine) = ([7; 32], [7; 32]);
            let result = peer::next(n, bytes, 2, &given, &mut output);
            let reply = told(result, |length| length.map_or(Told::End, Told::Length));
            let by_engine = record_engine::next(n, bytes, 2, &given, &mut engine);
            assert_eq!(reply, by_engine.into(), "{given:?}");
            assert_eq!(output, engine, "{given:?}");
            let Told::Length(length) = reply else { break };
            given = output[..length].to_vec();
        }
    }
}

#[test]
fn of_a_table_alone() {
    let random = &mut Xorshift::stored(49);
    let mut counts = [0; 4];
    for _ in 0..5_000 {
        let table = match random.chance(1, 4) {
            true => random::valid_table(random),
            false => random::damaged_table(random),
        };
        let (n, bytes) = (table.n, &table.bytes);
        let reply = told(peer::check_table(n, bytes), |()| Told::Length(0));
        let by_engine = check_table(n, bytes).map(|()| 0);
        assert_eq!(reply, by_engine.into(), "{table:?}");
        assert_eq!(reply, calls::check_table(n, bytes).into(), "{table:?}");
        if let Told::Refused(number, _) = reply {
            counts[usize::from(number)] += 1;
        }
    }
    let enough = counts[1..].iter().all(|&count| count >= 20);
    assert!(enough || !random::is_stored(), "{counts:?}");
}

#[test]
fn of_the_house_types() {
    for room in [0, 511, 512, 600] {
        let (mut output, mut engine) = (vec![7; room], vec![7; room]);
        let reply = told(peer::house_table(&mut output), Told::Length);
        assert_eq!(reply, house_table(&mut engine).into());
        assert_eq!(output, engine);
    }
}
