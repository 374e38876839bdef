//! The peer keeps a store as the engine and the reference do. Random calls give the same replies
//! and the same bytes, in buffers that hold a store and in damaged buffers.

mod told;

use comparison::Told;
use reference::random::{self, Ranges, Shape, StoreCall, TableBytes, Template, Xorshift};
use reference::record;
use reference::store::{self, EMPTY, LONGEST_STORE};
use told::told;

/// Makes one call by all three. The replies, and the bytes of the store and the output, have to be
/// the same. Gives the number of the refusal, or 0 for a length.
fn check(table: &TableBytes, stored: &mut Vec<u8>, call: &StoreCall) -> usize {
    let (n, bytes) = (table.n, &table.bytes[..]);
    let room = match call {
        StoreCall::Read(_, room) => *room,
        _ => 0,
    };
    let run = |work: &dyn Fn(&mut [u8], &mut [u8]) -> Told| {
        let (mut store, mut output) = (stored.clone(), vec![7; room]);
        (work(&mut store, &mut output), store, output)
    };
    let by_peer = run(&|store, output| {
        let result = match call {
            StoreCall::Put(version, record) => peer::store_put(n, bytes, store, *version, record),
            StoreCall::Read(version, _) => peer::store_read(n, bytes, store, *version, output),
            StoreCall::Drop(version) => peer::store_drop(n, bytes, store, *version),
        };
        told(result, Told::Length)
    });
    let by_engine = run(&|store, output| {
        let result = match call {
            StoreCall::Put(version, record) => {
                record_engine::store_put(n, bytes, store, *version, record)
            }
            StoreCall::Read(version, _) => {
                record_engine::store_read(n, bytes, store, *version, output)
            }
            StoreCall::Drop(version) => record_engine::store_drop(n, bytes, store, *version),
        };
        result.into()
    });
    let by_reference = run(&|store, output| {
        let reply = match call {
            StoreCall::Put(version, record) => store::put(n, bytes, store, *version, record),
            StoreCall::Read(version, _) => store::read(n, bytes, store, *version, output),
            StoreCall::Drop(version) => store::drop(n, bytes, store, *version),
        };
        reply.into()
    });
    let reply = by_peer.0;
    assert!(
        by_peer == by_engine,
        "{reply:?} {call:?} {table:?} {stored:?}"
    );
    assert!(
        by_peer == by_reference,
        "{reply:?} {call:?} {table:?} {stored:?}"
    );
    *stored = by_peer.1;
    match reply {
        Told::Refused(number, _) => usize::from(number),
        _ => 0,
    }
}

#[test]
fn the_peer_keeps_a_store_as_the_reference() {
    let random = &mut Xorshift::stored(165);
    let mut counts = [0; 25];
    for round in 0..600 {
        let ranges = [Ranges::Absent, Ranges::Present][round % 2];
        let table = match random.chance(1, 3) {
            true => random::rival_table(random),
            false => random::valid_table(random),
        };
        let shape = Shape::small(random, 7, 3).ranged(random, ranges);
        let template = Template::new(random, &table, shape, ranges);
        let damaged_table = random::damaged_table(random);
        let length = random::store_length(random);
        let mut stored: Vec<u8> = (0..length).map(|_| random.byte()).collect();
        stored[..2].copy_from_slice(&EMPTY);
        for _ in 0..12 {
            let call = template.call(random);
            counts[check(&table, &mut stored, &call)] += 1;
            let mut damaged = random::damaged_store(random, &table, &stored);
            counts[check(&table, &mut damaged, &template.call(random))] += 1;
        }
        counts[check(&damaged_table, &mut stored, &template.call(random))] += 1;
    }
    for number in [0, 1, 2, 3, 4, 5, 6, 7, 8, 13, 20, 21] {
        let enough = counts[number] >= 5 || !random::is_stored();
        assert!(enough, "{number}: {counts:?}");
    }
}

/// Some common parts on the way are too large, and one of them makes a drop refused.
#[test]
fn large_common_parts() {
    let table = random::diamond();
    let [one, two] = random::strides(40, 3).map(|graph| record::write(&graph));
    let lone = vec![1, 3, 0, 0, 0, 0, 0, 0, 0, 0];
    let mut stored = vec![0; LONGEST_STORE];
    let calls = [
        (StoreCall::Put(5, one.clone()), 0),
        (StoreCall::Put(3, two.clone()), 11),
        (StoreCall::Put(0, lone), 0),
        (StoreCall::Put(3, two), 0),
        (StoreCall::Drop(0), 11),
        (StoreCall::Drop(3), 0),
        (StoreCall::Drop(0), 0),
    ];
    for (call, number) in calls {
        assert_eq!(check(&table, &mut stored, &call), number, "{call:?}");
    }
    assert!(stored.starts_with(&[1 << 5, 0]));
}
