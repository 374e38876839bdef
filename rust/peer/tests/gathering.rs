//! The peer keeps a gathering as the engine and the reference do. Random calls in turn give the
//! same replies and the same bytes, also in bytes that hold no gathering.

mod told;

use comparison::Told;
use record_engine::{GATHERING_LENGTH, LONGEST_RECORD};
use reference::gathering;
use reference::random::{self, Ranges, Shape, TableBytes, Xorshift};
use told::told;

/// A call on a gathering, with an output.
type Work<'a> = &'a dyn Fn(&mut [u8], &mut [u8]) -> Told;

/// How often each refusal came. Place 0 counts the replies that are no refusal.
#[derive(Default)]
struct Gatherings {
    counts: [usize; 25],
}

impl Gatherings {
    /// Makes one call by each of the three on the same bytes and output. The replies, and the bytes
    /// after the call, have to be the same.
    fn check(&mut self, state: &mut Vec<u8>, room: usize, [peer, engine, reference]: [Work; 3]) {
        let run = |work: Work| {
            let (mut state, mut output) = (state.clone(), vec![7; room]);
            (work(&mut state, &mut output), state, output)
        };
        let by_peer = run(peer);
        assert!(by_peer == run(engine), "{:?} {state:?}", by_peer.0);
        assert!(by_peer == run(reference), "{:?} {state:?}", by_peer.0);
        *state = by_peer.1;
        let number = match by_peer.0 {
            Told::Refused(number, _) => number,
            _ => 0,
        };
        self.counts[usize::from(number)] += 1;
    }

    fn begin(&mut self, state: &mut Vec<u8>, table: &TableBytes) {
        let (n, bytes) = (table.n, &table.bytes[..]);
        self.check(
            state,
            0,
            [
                &|state, _| told(peer::gathering_begin(n, bytes, state), Told::Length),
                &|state, _| record_engine::gathering_begin(n, bytes, state).into(),
                &|state, _| gathering::begin(n, bytes, state).into(),
            ],
        );
    }

    fn add(&mut self, state: &mut Vec<u8>, record: &[u8]) {
        self.check(
            state,
            0,
            [
                &|state, _| told(peer::gathering_add(state, record), Told::Length),
                &|state, _| record_engine::gathering_add(state, record).into(),
                &|state, _| gathering::add(state, record).into(),
            ],
        );
    }

    fn order(&mut self, state: &mut Vec<u8>, record: &[u8]) {
        let tell = |order| Told::Order(order as usize);
        self.check(
            state,
            0,
            [
                &|state, _| told(peer::gathering_order(state, record), tell),
                &|state, _| record_engine::gathering_order(state, record).into(),
                &|state, _| gathering::order(state, record).into(),
            ],
        );
    }

    fn finish(&mut self, state: &mut Vec<u8>, room: usize) {
        self.check(
            state,
            room,
            [
                &|state, out| told(peer::gathering_finish(state, out), Told::Length),
                &|state, out| record_engine::gathering_finish(state, out).into(),
                &|state, out| gathering::finish(state, out).into(),
            ],
        );
    }
}

#[test]
fn calls_in_turn() {
    let random = &mut Xorshift::stored(53);
    let mut gatherings = Gatherings::default();
    for round in 0..400 {
        let ranges = [Ranges::Absent, Ranges::Present][round % 2];
        let table = match random.chance(1, 8) {
            true => random::damaged_table(random),
            false => random::valid_table(random),
        };
        let length = random.pick(GATHERING_LENGTH);
        let length =
            *random.choose(&[GATHERING_LENGTH, GATHERING_LENGTH, GATHERING_LENGTH, length]);
        let mut state: Vec<u8> = (0..length).map(|_| random.byte()).collect();
        gatherings.begin(&mut state, &table);
        for _ in 0..12 {
            let shape = match random.chance(1, 10) {
                true => Shape::any(random),
                false => Shape::small(random, 9, 4),
            };
            let shape = shape.ranged(random, ranges);
            let [first, second] = random::pair_of_records(random, &table, &shape, ranges);
            match random.pick(4) {
                0 => gatherings.order(&mut state, &first),
                1 => {
                    let small = random.pick(100);
                    let room = *random.choose(&[LONGEST_RECORD, small]);
                    gatherings.finish(&mut state, room);
                }
                _ => {
                    gatherings.add(&mut state, &first);
                    gatherings.order(&mut state, &second);
                }
            }
            // Bytes that hold no gathering, or another one.
            let mut damaged = state.clone();
            match random.pick(3) {
                0 => damaged.truncate(random.pick(damaged.len() + 1)),
                _ if damaged.is_empty() => {}
                _ => {
                    let place = random.pick(damaged.len());
                    damaged[random.pick(place + 1)] = random.byte();
                }
            }
            match random.pick(3) {
                0 => gatherings.add(&mut damaged, &second),
                1 => gatherings.order(&mut damaged, &second),
                _ => gatherings.finish(&mut damaged, LONGEST_RECORD),
            }
        }
    }
    for number in [0, 1, 2, 4, 5, 6, 7, 8, 16] {
        let count = gatherings.counts[number];
        assert!(count >= 5 || !random::is_stored(), "{number}: {count}");
    }
}
