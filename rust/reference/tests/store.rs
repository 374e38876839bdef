//! A patient's versions in one buffer (Paper 11), sentence by sentence: by hand over the
//! diamond, each refusal and their order, and random calls over random tables.

use reference::calls::{rewrite, written_by};
use reference::notation::{self, bytes};
use reference::random::{self, Ranges, Shape, TableBytes, Xorshift};
use reference::record::{self, LONGEST_RECORD};
use reference::reply::{Refusal, Reply};
use reference::store::{EMPTY, LONGEST_STORE, Programs, drop, put, read, way};

/// A root of type 3 whose features 0 and 1 lead to one node, of type 3 in P and 1 in R; Q
/// leads to two nodes.
const P: &str = "02 03 03000000 00000000 01 01  03 00000000 00000000";
const R: &str = "02 03 03000000 00000000 01 01  01 00000000 00000000";
const Q: &str = "03 03 03000000 00000000 01 02  03 00000000 00000000  03 00000000 00000000";
/// A lone top, and the difference of P and R.
const TOP: &str = "01 03 00000000 00000000";
const R_FROM_P: &str = "02 03 01000000 00000000 01  01 00000000 00000000";

/// A buffer of so many bytes that holds an empty store, and ones behind it.
fn empty(length: usize) -> Vec<u8> {
    let mut store = vec![1; length];
    store[..2].copy_from_slice(&EMPTY);
    store
}

/// The bytes of parts in hexadecimal, one behind the other.
fn joined(parts: &[&str]) -> Vec<u8> {
    bytes(&parts.concat())
}

fn reading(table: &TableBytes, store: &[u8], version: usize) -> Result<Vec<u8>, Refusal> {
    written_by(|output| read(table.n, &table.bytes, store, version, output))
}

#[test]
fn by_hand() {
    let (diamond, store) = (random::diamond().bytes, &mut empty(100));
    let [p, q, r] = [P, Q, R].map(bytes);
    let put = |store: &mut [u8], version, program: &[u8]| {
        let before = store.to_vec();
        let reply = put(4, &diamond, store, version, program);
        let Reply::Length(used) = reply else {
            panic!("{reply:?}");
        };
        assert_eq!(store[used..], before[used..]);
        store[..used].to_vec()
    };
    // A lone program is its own common part, and its difference from itself a lone top.
    let alone = joined(&["0100", "1500", P, "0a00", TOP]);
    assert_eq!(put(store, 0, &p), alone);
    assert_eq!(alone.len(), 37);
    // The common part of P and R is P.
    let both = joined(&["0300", "1500", P, "0a00", TOP, "1400", R_FROM_P]);
    assert_eq!(put(store, 1, &r), both);
    assert_eq!(both.len(), 59);
    // Q shares nothing, so the sharing of P and R stands in their differences.
    let three = joined(&["0380", "1e00", Q, "1500", P, "1500", R, "0a00", TOP]);
    assert_eq!(put(store, 15, &q), three);
    assert_eq!(three.len(), 92);
    let table = random::diamond();
    assert_eq!(reading(&table, store, 0), Ok(p.clone()));
    assert_eq!(reading(&table, store, 1), Ok(r.clone()));
    assert_eq!(reading(&table, store, 15), Ok(q.clone()));
    // A dropped program's room serves again.
    let before = store.clone();
    assert_eq!(drop(4, &diamond, store, 15), Reply::Length(59));
    assert_eq!(store[..59], both);
    assert_eq!(store[59..], before[59..]);
    assert_eq!(drop(4, &diamond, store, 0), Reply::Length(37));
    let alone = joined(&["0200", "1500", R, "0a00", TOP]);
    assert_eq!(store[..37], alone);
    // The order of puts does not matter.
    assert_eq!(put(store, 0, &p), both);
    assert_eq!(drop(4, &diamond, store, 1), Reply::Length(37));
    assert_eq!(drop(4, &diamond, store, 0), Reply::Length(2));
    assert_eq!(store[..2], EMPTY);
    assert_eq!(
        store[2..37],
        joined(&["0100", "1500", P, "0a00", TOP])[2..37]
    );
}

/// With P and R stored, another map may hold another state: without bit 1 the bytes hold P
/// as version 0, and with bit 1 alone P as version 1.
#[test]
fn a_changed_map_may_hold_another_state() {
    let table = random::diamond();
    let both = joined(&["0300", "1500", P, "0a00", TOP, "1400", R_FROM_P]);
    for (map, version) in [(1, 0), (2, 1), (1 << 7, 7)] {
        let mut store = both.clone();
        store[0] = map;
        assert_eq!(reading(&table, &store, version), Ok(bytes(P)));
    }
    // Two versions are there, so under two other numbers both are held.
    let mut store = both.clone();
    store[..2].copy_from_slice(&[0, 0x81]);
    assert_eq!(reading(&table, &store, 8), Ok(bytes(P)));
    assert_eq!(reading(&table, &store, 15), Ok(bytes(R)));
    // A third is not there.
    store[0] = 1;
    assert_eq!(reading(&table, &store, 8).map_err(Refusal::number), Err(4));
}

/// "The table is checked first, then the buffer, then the program's 4 to 7, as the second;
/// next" 20, then 21 on the way; for read 8 comes last.
#[test]
fn each_refusal_and_their_order() {
    let diamond = random::diamond().bytes;
    let [p, r] = [P, R].map(bytes);
    let number = |reply: Reply| (reply.number(), side(reply));
    let mut store = joined(&["0300", "1500", P, "0a00", TOP, "1400", R_FROM_P]);
    let before = store.clone();
    // 1 before a buffer that holds nothing.
    assert_eq!(number(put(5, &diamond, &mut [], 0, &[])), (Some(1), None));
    let reply = read(4, &diamond[..31], &[], 99, &mut []);
    assert_eq!(number(reply), (Some(1), None));
    // 4 of the buffer before the program and the version.
    let first = (Some(4), Some(1));
    for length in [0, 1, LONGEST_STORE + 1] {
        let buffer = &mut vec![0; length];
        assert_eq!(number(put(4, &diamond, buffer, 99, &[])), first);
        assert_eq!(number(read(4, &diamond, buffer, 99, &mut [])), first);
        assert_eq!(number(drop(4, &diamond, buffer, 99)), first);
        assert!(buffer.iter().all(|&byte| byte == 0));
    }
    // A state that is cut holds nothing.
    for length in 2..store.len() {
        let cut = &store[..length];
        assert_eq!(number(read(4, &diamond, cut, 0, &mut [])), first);
    }
    // The program's 4 to 7, as the second, before 20.
    let reply = put(4, &diamond, &mut store, 99, &p[1..]);
    assert_eq!(number(reply), (Some(4), Some(2)));
    let mut other = p.clone();
    other[1] = 4;
    let reply = put(4, &diamond, &mut store, 0, &other);
    assert_eq!(number(reply), (Some(5), Some(2)));
    // 20 before the room.
    for version in [0, 1, 16, 17, 255, 256, 65_536, usize::MAX] {
        let reply = put(4, &diamond, &mut store, version, &r);
        assert_eq!(number(reply), (Some(20), None), "{version}");
    }
    for version in [2, 15, 16, 256, 65_536, usize::MAX] {
        let reply = drop(4, &diamond, &mut store, version);
        assert_eq!(number(reply), (Some(20), None), "{version}");
        let reply = read(4, &diamond, &store, version, &mut []);
        assert_eq!(number(reply), (Some(20), None), "{version}");
    }
    // 21: the buffer has no byte for a third.
    let reply = put(4, &diamond, &mut store, 2, &r);
    assert_eq!(number(reply), (Some(21), None));
    // 8: an output one byte short; exact: written.
    let reply = read(4, &diamond, &store, 1, &mut [7; 20]);
    assert_eq!(number(reply), (Some(8), None));
    let mut output = [7; 22];
    assert_eq!(read(4, &diamond, &store, 1, &mut output), Reply::Length(21));
    assert_eq!((&output[..21], output[21]), (&r[..], 7));
    assert_eq!(store, before);
    // Room for one program, to the byte.
    let reply = put(4, &diamond, &mut empty(36), 3, &p);
    assert_eq!(number(reply), (Some(21), None));
    let reply = put(4, &diamond, &mut empty(37), 3, &p);
    assert_eq!(reply, Reply::Length(37));
}

/// The graph that a refusal tells of.
fn side(reply: Reply) -> Option<usize> {
    match reply {
        Reply::Refused(refusal) => refusal.side().map(|side| side as usize + 1),
        _ => None,
    }
}

/// 16 versions: one template with another type at one of 16 nodes.
#[test]
fn sixteen_versions() {
    let table = random::diamond();
    let template = random::ladder(16, &[0, 9], 3);
    let store = &mut empty(LONGEST_STORE);
    let mut programs = Programs::new();
    for version in (0..16).rev() {
        let mut program = template.clone();
        program.nodes[version].label.node_type = 1;
        let record = record::write(&program);
        programs.insert(version, program);
        let state = way(&table.accepted(), &programs, store.len()).expect("room");
        let reply = put(4, &table.bytes, store, version, &record);
        assert_eq!(reply, Reply::Length(state.len()));
        assert!(store.starts_with(&state));
    }
    for (&version, program) in &programs {
        let record = record::write(program);
        assert_eq!(reading(&table, store, version), Ok(record));
    }
    let reply = put(4, &table.bytes, store, 16, &record::write(&template));
    assert_eq!(reply.number(), Some(20));
}

/// "After any calls the used bytes are those of an empty store into which the remaining
/// programs were put in version order under their numbers", and "read gives back the written
/// record that was put"; a refused call changes nothing.
#[test]
fn random_calls() {
    let random = &mut Xorshift::stored(161);
    let mut counts = [0; 25];
    for _ in 0..400 {
        let table = match random.chance(1, 2) {
            true => random::rival_table(random),
            false => random::brouwer_table(random),
        };
        let accepted = table.accepted();
        let shape = Shape::small(random, 6, 3).ranged(random, Ranges::Present);
        let first = random::low_graph(random, table.n, &shape);
        let length = *random.choose(&[100, 200, 400, LONGEST_STORE]);
        let store = &mut empty(length);
        let mut programs = Programs::new();
        for _ in 0..12 {
            let version = random.pick(5);
            let before = store.clone();
            let reply = if random.chance(2, 3) {
                let program = random::graph_well_above(random, &accepted, &first);
                let record = random::record_of(random, &program, Ranges::Present);
                let reply = put(table.n, &table.bytes, store, version, &record);
                if let Reply::Length(_) = reply {
                    assert!(programs.insert(version, program).is_none());
                }
                reply
            } else {
                let reply = drop(table.n, &table.bytes, store, version);
                if let Reply::Length(_) = reply {
                    assert!(programs.remove(&version).is_some());
                }
                reply
            };
            counts[usize::from(reply.number().unwrap_or(0))] += 1;
            let used = match reply {
                Reply::Length(used) => used,
                _ => length,
            };
            let unchanged = before == *store;
            assert!(unchanged || reply.number().is_none());
            assert_eq!(store[used..], before[used..]);
            let state = way(&accepted, &programs, length).expect("the way was gone");
            assert!(store.starts_with(&state));
            assert!(used == state.len() || unchanged);
            for version in 0..5 {
                let held = reading(&table, store, version).map_err(Refusal::number);
                let written = programs.get(&version).ok_or(20).map(|program| {
                    let record = record::write(program);
                    written_by(|output| rewrite(table.n, &table.bytes, &record, output))
                        .expect("a record")
                });
                assert_eq!(held, written);
            }
        }
    }
    for number in [0, 13, 20, 21] {
        let enough = counts[number] >= 50 || !random::is_stored();
        assert!(enough, "{counts:?}");
    }
}

/// "Bytes past the used ones may hold anything."
#[test]
fn bytes_past_the_used_ones() {
    let random = &mut Xorshift::stored(163);
    let table = random::diamond();
    let programs = ["top[0: X a{10..200}, 1: X]", "top[0: a, 1: b]", "b"];
    let programs = programs.map(|text| record::write(&notation::graph(3, text)));
    let fill = |random: &mut Xorshift| (0..300).map(|_| random.byte()).collect::<Vec<u8>>();
    for _ in 0..50 {
        let mut stores = [fill(random), fill(random)];
        for store in &mut stores {
            store[..2].copy_from_slice(&EMPTY);
        }
        for (version, program) in programs.iter().enumerate() {
            let [one, two] = &mut stores;
            let reply = put(4, &table.bytes, one, version, program);
            assert_eq!(reply, put(4, &table.bytes, two, version, program));
            let Reply::Length(used) = reply else {
                panic!("{reply:?}");
            };
            assert_eq!(one[..used], two[..used]);
        }
        let outputs = stores.map(|store| {
            let mut output = [0; LONGEST_RECORD];
            let reply = drop(4, &table.bytes, &mut store.clone(), 1);
            (reply, read(4, &table.bytes, &store, 2, &mut output), output)
        });
        assert_eq!(outputs[0], outputs[1]);
    }
}
