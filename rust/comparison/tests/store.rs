//! The store, which keeps a patient's versions in one buffer (Paper 11), by the proved engine and by
//! the reference, which rebuilds every store from nothing. The tests make random walks of puts,
//! reads and drops, and use damaged buffers, common parts that are too large on the way, buffers and
//! outputs of every length, and stored cases.

use comparison::Stores;
use record_engine::{LONGEST_RECORD, Refusal, STORE_LENGTH, Store, Table, VERSIONS};
use reference::canonical::canonical;
use reference::graph::Graph;
use reference::notation::{self, bytes};
use reference::random::{self, Ranges, Shape, StoreCall, TableBytes, Template, Xorshift};
use reference::record;
use reference::reply::Reply;
use reference::store::{LONGEST_STORE, Programs, way};

/// The record of a graph in document 01's notation, over the diamond.
fn record_of(text: &str) -> Vec<u8> {
    record::write(&notation::graph(3, text))
}

/// A walk of so many calls from an empty store. After each, the used bytes are those of an
/// empty store into which the programs that are there are put in version order, and each is
/// read as it was put.
fn walk(
    stores: &mut Stores,
    random: &mut Xorshift,
    table: &TableBytes,
    template: &Template,
    calls: usize,
) -> Programs {
    let accepted = table.accepted();
    let room = stores.bytes().len();
    let mut programs = Programs::new();
    for _ in 0..calls {
        let call = template.call(random);
        let reply = stores.call(table, &call);
        if let Reply::Length(used) = reply {
            match call {
                StoreCall::Put(version, record) => {
                    let graph = record::read(&accepted, &record).expect("a program");
                    assert!(programs.insert(version, canonical(&graph)).is_none());
                }
                StoreCall::Drop(version) => assert!(programs.remove(&version).is_some()),
                StoreCall::Read(..) => continue,
            }
            let state = way(&accepted, &programs, room).expect("the way was gone");
            assert_eq!(stores.bytes()[..used], state);
            let store = Store::over(stores.bytes());
            assert_eq!(store.used(), state);
            assert!(store.versions().eq(programs.keys().copied()));
        }
    }
    programs
}

/// Reads every version as it was put, and the absent ones beside them not; one version also
/// with outputs of no bytes, as long as the record, shorter by one byte and longer. Versions
/// read as equal bytes exactly where the programs mean the same.
fn read_all(stores: &mut Stores, random: &mut Xorshift, table: &TableBytes, programs: &Programs) {
    let mut read = Vec::new();
    for (&version, program) in programs {
        let (reply, record) = stores.read(table, version, LONGEST_RECORD);
        assert_eq!(record, record::write(program));
        assert_eq!(reply, Reply::Length(record.len()));
        for (_, other, earlier) in &read {
            assert_eq!(record == *earlier, program == *other);
        }
        read.push((version, program, record));
    }
    if let Some((version, _, record)) = read.get(random.pick(read.len().max(1))) {
        let length = record.len();
        for room in [0, length - 1] {
            let (reply, _) = stores.read(table, *version, room);
            assert_eq!(reply.number(), Some(8));
        }
        for room in [length, length + 3] {
            let (_, again) = stores.read(table, *version, room);
            assert_eq!(again, *record);
        }
    }
    let absent = (0..VERSIONS + 2).filter(|version| !programs.contains_key(version));
    for (version, room) in absent.zip([LONGEST_RECORD, 0, 9]) {
        let (reply, _) = stores.read(table, version, room);
        assert_eq!(reply.number(), Some(20));
    }
}

/// Drops each version by itself, in the buffer as it is and in one that has few bytes more
/// than are used.
fn drop_each(stores: &mut Stores, random: &mut Xorshift, table: &TableBytes) {
    let state = stores.bytes().to_vec();
    let store = Store::over(&state);
    let few = store.used().len() + random.pick(12);
    let tight = &state[..few.min(state.len())];
    for version in store.versions() {
        for buffer in [&state, tight] {
            stores.hold(buffer);
            stores.drop(table, version);
        }
    }
    stores.hold(&state);
}

fn compare_walks(
    seed: u64,
    ranges: Ranges,
    walks: usize,
    draw: impl Fn(&mut Xorshift) -> TableBytes,
) -> Stores {
    let mut stores = Stores::new(seed);
    let random = &mut Xorshift::stored(seed + 1);
    for _ in 0..walks {
        let table = draw(random);
        let shape = match random.chance(1, 30) {
            true => Shape::any(random),
            false => Shape::small(random, 8, 3),
        };
        let shape = shape.ranged(random, ranges);
        let template = Template::new(random, &table, shape, ranges);
        stores.empty(random::store_length(random));
        let calls = random.between(4, 24);
        let programs = walk(&mut stores, random, &table, &template, calls);
        read_all(&mut stores, random, &table, &programs);
        drop_each(&mut stores, random, &table);
        // A table that is refused, and one that the programs were not put with.
        let state = stores.bytes().to_vec();
        for _ in 0..6 {
            let other = match random.chance(1, 3) {
                true => random::valid_table(random),
                false => random::damaged_table(random),
            };
            stores.call(&other, &template.call(random));
            stores.hold(&state);
        }
    }
    stores
}

/// What comes up in walks: every reply but 13, and 13 too over tables that do not admit
/// differences and over no others. Drops that are refused have a test of their own.
fn assert_walks(stores: &Stores, with_13: bool) {
    let without = |numbers: &[usize]| {
        let numbers = numbers.iter().copied();
        numbers.filter(|&number| with_13 || number != 13).collect()
    };
    let put: Vec<usize> = without(&[0, 1, 2, 3, 4, 5, 6, 7, 11, 13, 20, 21]);
    stores.put.assert_replies(&put, 2);
    stores.put.assert_sides(&[4], 5);
    stores.put.assert_second(&[5, 6, 7], 2);
    let rare: Vec<usize> = without(&[11, 13]);
    let dropped = [0, 1, 2, 3, 4, 20, 21];
    stores.dropped.assert_replies_beside(&dropped, 2, &rare);
    stores.dropped.assert_only_side(0);
    let read = [0, 1, 2, 3, 4, 8, 20];
    stores.read.assert_replies(&read, 2);
    stores.read.assert_only_side(0);
}

#[test]
fn random_walks() {
    let stores = compare_walks(601, Ranges::Absent, 400, random::brouwer_table);
    assert_walks(&stores, false);
}

#[test]
fn random_walks_with_ranges() {
    let stores = compare_walks(603, Ranges::Present, 400, random::brouwer_table);
    assert_walks(&stores, false);
}

#[test]
fn random_walks_over_rivals() {
    let stores = compare_walks(605, Ranges::Absent, 400, random::rival_table);
    assert_walks(&stores, true);
}

#[test]
fn random_walks_over_rivals_with_ranges() {
    let stores = compare_walks(607, Ranges::Present, 400, random::rival_table);
    assert_walks(&stores, true);
}

/// Calls on buffers whose bytes nobody put there, or not with this table.
fn compare_damaged(seed: u64, ranges: Ranges) {
    let mut stores = Stores::new(seed);
    let random = &mut Xorshift::stored(seed + 1);
    for _ in 0..800 {
        let table = match random.chance(1, 3) {
            true => random::rival_table(random),
            false => random::valid_table(random),
        };
        let shape = Shape::small(random, 6, 3).ranged(random, ranges);
        let template = Template::new(random, &table, shape, ranges);
        stores.empty(random::store_length(random));
        let calls = random.between(0, 8);
        walk(&mut stores, random, &table, &template, calls);
        let state = stores.bytes().to_vec();
        for _ in 0..8 {
            stores.hold(&random::damaged_store(random, &table, &state));
            for _ in 0..2 {
                stores.call(&table, &template.call(random));
            }
        }
    }
    let put = [0, 4, 5, 6, 7, 11, 13, 20, 21];
    stores.put.assert_replies(&put, 2);
    stores.put.assert_sides(&[4], 20);
    stores.put.assert_second(&[5, 6, 7], 2);
    let rare = [11, 13, 21];
    stores.dropped.assert_replies_beside(&[0, 4, 20], 20, &rare);
    stores.dropped.assert_only_side(0);
    stores.read.assert_replies(&[0, 4, 8, 20], 20);
    stores.read.assert_only_side(0);
}

#[test]
fn damaged_buffers() {
    compare_damaged(609, Ranges::Absent);
}

#[test]
fn damaged_buffers_with_ranges() {
    compare_damaged(611, Ranges::Present);
}

/// A lone top before some programs makes their common part a lone top. Dropped, it may leave
/// programs whose common part is too large, or which have no difference from it, or which
/// take more room than before.
#[test]
fn drops_that_are_refused() {
    let mut stores = Stores::new(621);
    let random = &mut Xorshift::stored(622);
    let mut with_more_room = 0;
    for round in 0..300 {
        let table = match round % 3 {
            0 => random::rival_table(random),
            _ => random::valid_table(random),
        };
        let top = (table.n - 1) as u8;
        let mut programs = random::strides(random.between(4, 50), top).to_vec();
        if round % 3 != 1 {
            let shape = Shape::small(random, 6, 2);
            let low = random::low_graph(random, table.n, &shape);
            let accepted = table.accepted();
            programs.fill_with(|| random::graph_well_above(random, &accepted, &low));
        }
        programs.insert(0, Graph::lone(top));
        stores.empty(LONGEST_STORE);
        let mut used = 0;
        for (version, program) in programs.iter().enumerate() {
            let reply = stores.put(&table, version, &record::write(program));
            if let Reply::Length(length) = reply {
                used = length;
            }
        }
        let tight = stores.bytes()[..used].to_vec();
        if let Reply::Length(length) = stores.drop(&table, 0) {
            with_more_room += usize::from(length > used);
        }
        stores.hold(&tight);
        stores.drop(&table, 0);
    }
    let enough = with_more_room >= 10 || !random::is_stored();
    assert!(enough, "{with_more_room}");
    stores
        .dropped
        .assert_replies_beside(&[0, 11, 13, 21], 5, &[4]);
}

/// Large programs: common parts of more than 255 nodes on the way, before others and behind
/// them, and stores that are full.
#[test]
fn large_programs() {
    let mut stores = Stores::new(613);
    let random = &mut Xorshift::stored(614);
    for round in 0..40 {
        let table = match round % 3 {
            0 => random::rival_table(random),
            _ => random::valid_table(random),
        };
        let top = (table.n - 1) as u8;
        let shape = Shape::large(random).ranged(random, Ranges::Present);
        let dense = random::graph(random, table.n, &shape);
        let mut programs = random::strides(random.between(30, 60), top).to_vec();
        programs.extend([Graph::lone(top), dense]);
        stores.empty(*random.choose(&[2_000, 5_000, LONGEST_STORE]));
        for _ in 0..8 {
            let version = random.pick(5);
            match random.chance(2, 3) {
                true => {
                    let graph = random.choose(&programs).clone();
                    let graph = match random.chance(1, 3) {
                        true => random::graph_above(random, &table.accepted(), &graph),
                        false => graph,
                    };
                    stores.put(&table, version, &record::write(&graph));
                }
                false => {
                    stores.drop(&table, version);
                }
            }
        }
        let full = stores.bytes().to_vec();
        for version in 0..5 {
            stores.hold(&full);
            stores.drop(&table, version);
            stores.read(&table, version, LONGEST_RECORD);
        }
    }
    stores.put.assert_replies(&[0, 11, 20, 21], 5);
    stores
        .dropped
        .assert_replies_beside(&[0, 20], 5, &[11, 13, 21]);
    stores.read.assert_replies(&[0, 20], 5);
}

/// P, R and Q of document 01, in buffers of every length from none up, and of about 16,384.
#[test]
fn buffers_of_every_length() {
    let table = random::diamond();
    let mut stores = Stores::new(615);
    let [p, r, q] = [
        "top[0: X top, 1: X]",
        "top[0: X a, 1: X]",
        "top[0: top, 1: top]",
    ];
    let programs = [p, r, q].map(record_of);
    let lengths = (0..140).chain(LONGEST_STORE - 3..LONGEST_STORE + 3);
    for length in lengths {
        stores.empty(length);
        // What each put uses, the state before it and its own alone being less.
        for (version, (program, used)) in programs.iter().zip([37, 59, 92]).enumerate() {
            let reply = stores.put(&table, version, program);
            match length {
                0 | 1 | 16_385.. => assert_eq!(reply.number(), Some(4)),
                _ if length < used => assert_eq!(reply.number(), Some(21)),
                _ => assert_eq!(reply, Reply::Length(used)),
            }
        }
        for version in 0..3 {
            stores.read(&table, version, 21);
        }
        for version in [1, 0, 2, 2] {
            stores.drop(&table, version);
        }
    }
    stores.put.assert_replies(&[0, 4, 21], 5);
    stores.dropped.assert_replies(&[0, 4, 20], 5);
    stores.read.assert_replies(&[0, 4, 8, 20], 5);
}

/// Every cut of a state, and every byte of its used ones changed.
#[test]
fn every_cut_and_every_changed_byte() {
    let table = random::diamond();
    let mut stores = Stores::new(617);
    stores.empty(100);
    let [p, r, q] = [
        "top[0: X top, 1: X]",
        "top[0: X a, 1: X]",
        "a[0: top, 1: b]",
    ];
    for (version, text) in [(0, p), (1, r), (9, q)] {
        stores.put(&table, version, &record_of(text));
    }
    let state = stores.bytes().to_vec();
    let used = Store::over(&state).used().len();
    let lone = record_of("top");
    let mut check = |state: &[u8]| {
        stores.hold(state);
        for version in [0, 1, 9] {
            stores.read(&table, version, LONGEST_RECORD);
        }
        stores.drop(&table, 1);
        stores.hold(state);
        stores.put(&table, 2, &lone);
    };
    for length in 0..=state.len() {
        check(&state[..length]);
    }
    for place in 0..used {
        for byte in 0..=255 {
            let mut changed = state.clone();
            changed[place] = byte;
            check(&changed);
        }
    }
    // Some other maps hold something, and other bytes nothing.
    stores.read.assert_replies(&[0, 4, 20], 50);
}

/// All faults together, and each set of them: the first that is checked is told.
#[test]
fn the_order_of_the_checks() {
    let table = random::diamond();
    let mut stores = Stores::new(619);
    let program = record_of("top[0: X a, 1: X]");
    stores.empty(40);
    stores.put(&table, 0, &program);
    let state = stores.bytes().to_vec();
    let faults = [1, 4, 4, 20, 21];
    for set in 0..1 << faults.len() {
        let has = |place: usize| set >> place & 1 == 1;
        let first = (0..faults.len()).find(|&place| has(place));
        let expected = first.map(|place| faults[place]);
        let table = TableBytes {
            n: if has(0) { 5 } else { 4 },
            ..table.clone()
        };
        let mut buffer = state.clone();
        buffer[2] ^= u8::from(has(1));
        // The same program as another version takes 12 bytes more than 37.
        buffer.resize(if has(4) { 40 } else { 60 }, 7);
        let cut = usize::from(has(2));
        let version = if has(3) { 0 } else { 1 };
        stores.hold(&buffer);
        let reply = stores.put(&table, version, &program[cut..]);
        assert_eq!(reply.number(), expected, "{set}");
        let side = match first {
            Some(place @ (1 | 2)) => Some(place - 1),
            _ => None,
        };
        let told = match reply {
            Reply::Refused(refusal) => refusal.side().map(|side| side as usize),
            _ => None,
        };
        assert_eq!(told, side, "{set}");
        stores.hold(&buffer);
        let (reply, _) = stores.read(&table, 1 - version, if has(4) { 20 } else { 21 });
        let expected = first_of(&[(has(0), 1), (has(1), 4), (has(3), 20), (has(4), 8)]);
        assert_eq!(reply.number(), expected, "{set}");
    }
}

/// The first number whose fault is there.
fn first_of(faults: &[(bool, u8)]) -> Option<u8> {
    let found = faults.iter().find(|(there, _)| *there);
    found.map(|&(_, number)| number)
}

/// Three programs over the diamond, all of whose nodes are top, and a lone top:
/// `top[0: top[0: X top[0: Y top, 1: Y]], 1: X]`, `top[0: top[0: top[0: top]]]` and
/// `top[0: X top[0: top[0: top]], 1: X]`.
const FORKS: &str = "04 03 0300000000000000 01 02  03 0100000000000000 02
    03 0300000000000000 03 03  03 0000000000000000";
const CHAIN: &str = "04 03 0100000000000000 01  03 0100000000000000 02
    03 0100000000000000 03  03 0000000000000000";
const CLOSED: &str = "04 03 0300000000000000 01 01  03 0100000000000000 02
    03 0100000000000000 03  03 0000000000000000";
const TOP: &str = "01 03 0000000000000000";
/// The difference of the chain and the closed one, which is that of their common part too.
const CLOSING: &str = "02 03 0300000000000000 01 01  03 0000000000000000";
/// The common part of the forks and the closed one has six nodes, more than both.
const COMMON: &str = "06 03 0300000000000000 01 04  03 0100000000000000 02
    03 0100000000000000 03  03 0000000000000000  03 0100000000000000 05  03 0000000000000000";

/// The bytes of parts in hexadecimal, one behind the other.
fn joined(parts: &[&str]) -> Vec<u8> {
    bytes(&parts.concat())
}

/// The three programs under the numbers given, in a buffer of so many bytes; the replies.
fn put_three(stores: &mut Stores, room: usize, versions: [usize; 3]) -> [Reply; 3] {
    let table = random::diamond();
    let mut programs = [FORKS, CHAIN, CLOSED].map(bytes).into_iter();
    stores.empty(room);
    versions.map(|version| {
        let program = programs.next().expect("three programs");
        stores.put(&table, version, &program)
    })
}

/// Three programs take 123 bytes; without the second the other two take 131, for their
/// common part is larger by more than what was dropped. So a drop is refused where there are
/// 123 to 130 bytes.
#[test]
fn fewer_programs_may_need_more_room() {
    let table = random::diamond();
    let mut stores = Stores::new(623);
    let all = joined(&[
        "0700", "2800", CHAIN, "2a00", FORKS, "0a00", TOP, "1500", CLOSING,
    ]);
    let fewer = joined(&["0500", "3c00", COMMON, "2a00", FORKS, "1500", CLOSING]);
    assert_eq!([all.len(), fewer.len()], [123, 131]);
    for room in 123..140 {
        let replies = put_three(&mut stores, room, [0, 1, 2]);
        assert_eq!(replies, [58, 100, 123].map(Reply::Length));
        assert_eq!(stores.bytes()[..123], all);
        let reply = stores.drop(&table, 1);
        match room {
            ..131 => assert_eq!(reply.number(), Some(21)),
            _ => {
                assert_eq!(reply, Reply::Length(131));
                assert_eq!(stores.bytes()[..131], fewer);
            }
        }
    }
}

/// Under other numbers the same programs go another way: 131 bytes are needed for its second
/// step, and 123 are used in the end. Cut to these, the bytes hold nothing; saved and put in
/// the first bytes of a larger buffer, they hold what they held.
#[test]
fn a_way_may_need_more_room_than_its_end() {
    let table = random::diamond();
    let mut stores = Stores::new(625);
    let state = joined(&[
        "0700", "2800", CHAIN, "2a00", FORKS, "1500", CLOSING, "0a00", TOP,
    ]);
    for room in 123..131 {
        let [first, last, second] = put_three(&mut stores, room, [0, 2, 1]);
        assert_eq!([first, last], [58, 100].map(Reply::Length));
        assert_eq!(second.number(), Some(21));
    }
    let [first, last, second] = put_three(&mut stores, 131, [0, 2, 1]);
    assert_eq!([first, last, second], [58, 100, 123].map(Reply::Length));
    assert_eq!(stores.bytes()[..123], state);
    for length in 123..131 {
        stores.hold(&state);
        assert_eq!(stores.read(&table, 1, LONGEST_RECORD).0.number(), Some(4));
        let mut longer = state.clone();
        longer.resize(length, 7);
        stores.hold(&longer);
        assert_eq!(stores.read(&table, 1, LONGEST_RECORD).0.number(), Some(4));
    }
    let saved = Store::over(&state).used().to_vec();
    assert_eq!(saved, state);
    let opened = Store::holding(&saved);
    stores.hold(opened.bytes());
    assert_eq!(stores.read(&table, 1, LONGEST_RECORD).1, bytes(CLOSED));
}

/// Over Paper 6's six types: a lone 2, a lone top and a lone 1. Without the top, the common
/// part of the others is a lone 2, from which a lone 1 has no difference.
#[test]
fn a_drop_may_be_refused_for_a_wanted_type() {
    let table = random::three_over_one();
    let mut stores = Stores::new(627);
    stores.empty(100);
    let lone = |node_type: u8| [1, node_type, 0, 0, 0, 0, 0, 0, 0, 0];
    for (version, node_type) in [(0, 2), (1, 5), (2, 1)] {
        stores.put(&table, version, &lone(node_type));
    }
    let part = |node_type: u8| [&[10, 0][..], &lone(node_type)].concat();
    let state = [vec![7, 0], part(5), part(2), part(5), part(1)].concat();
    assert_eq!(stores.bytes()[..50], state);
    assert_eq!(stores.drop(&table, 1).number(), Some(13));
    assert_eq!(stores.bytes()[..50], state);
    // The others can go.
    assert_eq!(stores.drop(&table, 0), Reply::Length(38));
    // A lone 2 comes before the others and is refused as well.
    assert_eq!(stores.drop(&table, 1), Reply::Length(26));
    assert_eq!(stores.put(&table, 0, &lone(2)).number(), Some(13));
}

/// The common part of two programs of 39 nodes has 267: beside a lone top they are kept, and
/// then it cannot be dropped.
#[test]
fn a_drop_may_be_refused_for_size() {
    let table = random::diamond();
    let mut stores = Stores::new(629);
    let both = random::strides(39, 3);
    let [one, two] = both.map(|graph| record::write(&canonical(&graph)));
    stores.empty(LONGEST_STORE);
    stores.put(&table, 1, &one);
    assert_eq!(stores.put(&table, 2, &two).number(), Some(11));
    let used = 2 + 12 + 12 + (2 + one.len());
    assert_eq!(
        stores.put(&table, 0, &record_of("top")),
        Reply::Length(used)
    );
    let used = used + 2 + two.len();
    assert_eq!(stores.put(&table, 2, &two), Reply::Length(used));
    assert_eq!(stores.drop(&table, 0).number(), Some(11));
    assert_eq!(stores.read(&table, 2, LONGEST_RECORD).1, two);
    // 38 nodes have 253, which is room enough.
    stores.empty(LONGEST_STORE);
    for (version, graph) in random::strides(38, 3).iter().enumerate() {
        let reply = stores.put(&table, version, &record::write(graph));
        assert_eq!(reply.number(), None);
    }
}

/// With P and R of document 01 stored, the bytes behind another map may hold other versions:
/// the map 2 in place of 3 leaves P, as version 1.
#[test]
fn a_changed_map_may_hold_other_versions() {
    let table = random::diamond();
    let mut stores = Stores::new(631);
    let [p, r] = ["top[0: X top, 1: X]", "top[0: X a, 1: X]"].map(record_of);
    stores.empty(70);
    stores.put(&table, 0, &p);
    stores.put(&table, 1, &r);
    let state = stores.bytes().to_vec();
    for map in 0..1 << VERSIONS {
        let mut changed = state.clone();
        changed[..2].copy_from_slice(&[map as u8, (map >> 8) as u8]);
        // Every map of one or two versions, and some of the others.
        let versions: Vec<usize> = Store::over(&changed).versions().collect();
        if versions.len() > 2 && map % 1_000 != 0 {
            continue;
        }
        stores.hold(&changed);
        let expected = match versions[..] {
            [] => vec![],
            [one] => vec![(one, &p)],
            [one, two] => vec![(one, &p), (two, &r)],
            _ => {
                assert_eq!(stores.read(&table, 0, LONGEST_RECORD).0.number(), Some(4));
                continue;
            }
        };
        for (version, program) in expected {
            assert_eq!(stores.read(&table, version, LONGEST_RECORD).1, *program);
        }
    }
}

/// Two buffers of one length that differ behind the used bytes alone get the same replies and
/// keep the same used bytes.
#[test]
fn bytes_behind_the_used_ones_do_not_matter() {
    let random = &mut Xorshift::stored(633);
    let mut both = [Stores::new(634), Stores::new(635)];
    for _ in 0..150 {
        let table = match random.chance(1, 2) {
            true => random::rival_table(random),
            false => random::valid_table(random),
        };
        let shape = Shape::small(random, 6, 3).ranged(random, Ranges::Present);
        let template = Template::new(random, &table, shape, Ranges::Present);
        let length = random::store_length(random);
        for stores in &mut both {
            stores.empty(length);
        }
        for _ in 0..12 {
            let call = template.call(random);
            let [one, other] = both.each_mut().map(|stores| {
                let reply = stores.call(&table, &call);
                let used = Store::over(stores.bytes()).used().to_vec();
                (reply, used)
            });
            assert_eq!(one, other);
        }
    }
    both[0]
        .put
        .assert_replies_beside(&[0, 20, 21], 20, &[4, 5, 6, 7, 11, 13]);
}

/// The type that owns its bytes, and the one over lent bytes, give what the calls give.
#[test]
fn a_store_of_its_own() {
    let table = &Table::from_bytes(&random::diamond().bytes).expect("an accepted table");
    let [p, r] = ["top[0: X top, 1: X]", "top[0: X a, 1: X]"].map(record_of);
    let mut store = Store::new();
    assert_eq!(store, Store::default());
    assert_eq!(store.bytes().len(), STORE_LENGTH);
    assert_eq!((store.used(), store.versions().count()), (&[0, 0][..], 0));
    assert_eq!(store.put(table, 3, &p), Ok(37));
    assert_eq!(store.put(table, 15, &r), Ok(59));
    assert_eq!(store.used().len(), 59);
    assert!(store.versions().eq([3, 15]));
    let before = store.clone();
    assert_eq!(store.put(table, 3, &r), Err(Refusal::WrongVersion));
    assert_eq!(store.drop(table, 4), Err(Refusal::WrongVersion));
    assert_eq!(store, before);
    assert_eq!(store.read(table, 15), Ok(r.clone()));
    // Saved and opened again.
    let mut opened = Store::holding(store.used());
    assert_eq!(opened.bytes()[..59], store.bytes()[..59]);
    assert_eq!(opened.drop(table, 3), Ok(37));
    assert!(opened.versions().eq([15]));
    // Over lent bytes.
    let mut bytes = [7; 58];
    let mut lent = Store::empty_in(&mut bytes);
    assert_eq!(lent.put(table, 0, &p), Ok(37));
    assert_eq!(lent.put(table, 1, &r), Err(Refusal::NoStoreRoom));
    assert_eq!(lent.used().len(), 37);
    assert_eq!(bytes[37..], [7; 21]);
    let read_only = Store::over(&bytes[..]);
    assert_eq!(read_only.read(table, 0), Ok(p));
    // Bytes that hold no store are refused by 4 of the first graph, and told as far as they go.
    for (bytes, used) in [
        (vec![], 0),
        (vec![1], 1),
        (vec![1, 0], 2),
        (vec![1, 0, 9], 3),
    ] {
        let store = Store::over(bytes);
        assert_eq!(store.used().len(), used);
        let refused = store.read(table, 0).expect_err("no store");
        assert_eq!((refused.number(), refused.side().is_some()), (4, true));
    }
    let longer = Store::holding(&[0; STORE_LENGTH + 1]);
    assert_eq!(longer.into_bytes().len(), STORE_LENGTH + 1);
}
