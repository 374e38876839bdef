//! Gathering (Paper 4), sentence by sentence: by hand over the diamond, and on random
//! programs over random tables.

use reference::calls;
use reference::gathering::{LONGEST_GATHERING, add, begin, bytes_for, finish, folded, order};
use reference::notation;
use reference::order::Order;
use reference::random::{self, Ranges, Shape, TableBytes, Xorshift};
use reference::record::{self, GraphFault};
use reference::reply::{Refusal, Reply, Side};

/// A begun gathering over a table, in bytes that held ones.
fn begun(table: &TableBytes) -> Vec<u8> {
    let mut gathering = vec![1; bytes_for(table.n)];
    let used = begin(table.n, &table.bytes, &mut gathering);
    assert_eq!(used, Reply::Length(3 + 8 * table.n));
    gathering
}

fn finished(gathering: &[u8]) -> Result<Vec<u8>, Refusal> {
    calls::written_by(|output| finish(gathering, output))
}

#[test]
fn by_hand() {
    let table = random::diamond();
    let record = |text: &str| record::write(&notation::graph(3, text));
    let mut gathering = begun(&table);
    assert_eq!(gathering[0], 4);
    assert_eq!(gathering[1..33], table.bytes);
    assert_eq!(gathering[33..36], [0, 0, 1]);
    let nothing = Reply::Refused(Refusal::NothingGathered);
    let malformed = Reply::Refused(Refusal::Graph(GraphFault::Malformed, Side::First));
    let first = record("top[0: X a, 1: X]");
    // 16 is checked after the graph's 4 to 7 and before 8.
    assert_eq!(order(&gathering, &first), nothing);
    assert_eq!(order(&gathering, &[]), malformed);
    assert_eq!(finish(&gathering, &mut []), nothing);
    assert_eq!(add(&mut gathering, &first), Reply::Length(first.len()));
    assert_eq!(usize::from(gathering[33]), first.len());
    assert_eq!(gathering[35..35 + first.len()], first);
    let second = record("a[0: b, 1: b]");
    assert_eq!(order(&gathering, &second), Reply::Order(Order::Neither));
    let common = record("top[0: top, 1: top]");
    assert_eq!(add(&mut gathering, &second), Reply::Length(common.len()));
    let before = gathering.clone();
    assert_eq!(add(&mut gathering, &[]), malformed);
    assert_eq!(gathering, before);
    assert_eq!(order(&gathering, &second), Reply::Order(Order::Under));
    assert_eq!(order(&gathering, &common), Reply::Order(Order::Same));
    assert_eq!(
        finish(&gathering, &mut [0; 9]),
        Reply::Refused(Refusal::NoRoom)
    );
    assert_eq!(finished(&gathering), Ok(common));
    // The gathering stays open.
    add(&mut gathering, &record("b"));
    assert_eq!(finished(&gathering), Ok(record("top")));
    assert_eq!(LONGEST_GATHERING, 5369);
}

/// The accepted additions alone give the same bytes, their fold is what is gathered, each
/// is below it, and in another order, where all are accepted, it is the same.
#[test]
fn the_accepted_additions_alone() {
    let random = &mut Xorshift::stored(141);
    let mut refused = 0;
    for _ in 0..300 {
        let table = random::valid_table(random);
        let shape = Shape::small(random, 8, 3).ranged(random, Ranges::Present);
        let start = begun(&table);
        let mut gathering = start.clone();
        let mut accepted = Vec::new();
        for _ in 0..random.between(1, 6) {
            let program = match random.chance(1, 4) {
                true => random::damaged_record(random, table.n, Ranges::Present),
                false => {
                    let graph = random::graph(random, table.n, &shape);
                    random::record_of(random, &graph, Ranges::Present)
                }
            };
            order(&gathering, &program);
            match add(&mut gathering, &program) {
                Reply::Length(_) => accepted.push(program),
                _ => refused += 1,
            }
        }
        let mut alone = start.clone();
        for program in &accepted {
            add(&mut alone, program);
        }
        assert_eq!(alone, gathering);
        let (common, count) = folded(table.n, &table.bytes, &accepted);
        assert_eq!(count, accepted.len());
        let nothing = Err(Refusal::NothingGathered);
        assert_eq!(finished(&gathering), common.clone().map_or(nothing, Ok));
        for program in &accepted {
            let answer = order(&gathering, program);
            let below = [Order::Same, Order::Under].map(Reply::Order);
            assert!(below.contains(&answer), "{answer:?}");
        }
        random.shuffle(&mut accepted);
        assert_eq!(folded(table.n, &table.bytes, &accepted).0, common);
    }
    assert!(refused >= 50 || !random::is_stored(), "{refused}");
}
