//! Gathering (Paper 4) by the proved engine and by the reference. The tests mix additions, orders
//! and finishes at random, with damaged programs, common parts that are too large, outputs of every
//! length, and bytes in which no gathering was begun.

use comparison::{Gatherings, on_stated_stack};
use record_engine::{Gathering, LONGEST_RECORD, Order, Refusal};
use reference::gathering::{LONGEST_GATHERING, bytes_for, folded};
use reference::graph::Graph;
use reference::order;
use reference::random::{self, Ranges, Shape, TableBytes, Xorshift};
use reference::record::{self, MOST_NODES};
use reference::reply::Reply;
use reference::table::MOST_TYPES;

/// The programs of one session: graphs around one, some of any other kind, some damaged.
struct Programs {
    first: Graph,
    shape: Shape,
    ranges: Ranges,
}

impl Programs {
    fn new(random: &mut Xorshift, table: &TableBytes, shape: Shape, ranges: Ranges) -> Programs {
        Programs {
            first: random::graph(random, table.n, &shape),
            shape,
            ranges,
        }
    }

    fn draw(&self, random: &mut Xorshift, table: &TableBytes) -> Vec<u8> {
        let graph = match random.pick(8) {
            0 => return random::damaged_record(random, table.n, self.ranges),
            1 => random::graph(random, table.n, &self.shape),
            2 => self.first.clone(),
            _ => random::graph_above(random, &table.accepted(), &self.first),
        };
        random::record_of(random, &graph, self.ranges)
    }
}

/// Makes so many calls on a begun gathering, and gives the accepted additions in their order.
fn mix(
    gatherings: &mut Gatherings,
    random: &mut Xorshift,
    count: usize,
    mut draw: impl FnMut(&mut Xorshift) -> Vec<u8>,
) -> Vec<Vec<u8>> {
    let mut accepted = Vec::new();
    for _ in 0..count {
        match random.pick(6) {
            0..3 => {
                let program = draw(random);
                if let Reply::Length(_) = gatherings.add(&program) {
                    accepted.push(program);
                }
            }
            3 => {
                gatherings.order(&draw(random));
            }
            _ => finish_in_every_room(gatherings, random),
        }
    }
    accepted
}

/// Finishes with outputs of no bytes, of any length, and as long as what is written,
/// shorter by one byte, and longer.
fn finish_in_every_room(gatherings: &mut Gatherings, random: &mut Xorshift) {
    let (reply, written) = gatherings.finish(LONGEST_RECORD);
    let any = random.pick(LONGEST_RECORD);
    let exact = written.len();
    let more = exact + random.between(1, 9);
    for room in [0, any, exact.saturating_sub(1), exact, more] {
        let (again, bytes) = gatherings.finish(room);
        match reply {
            Reply::Length(length) if room < length => assert_eq!(again.number(), Some(8)),
            _ => assert_eq!((again, &bytes), (reply, &written)),
        }
    }
}

/// What Paper 4 says of a begun gathering after any calls: its bytes are those that the
/// accepted additions alone give; what is gathered is their fold, and each is below it; and
/// in another order, where all are accepted, it is the same.
fn check_accepted(
    gatherings: &mut Gatherings,
    random: &mut Xorshift,
    table: &TableBytes,
    begun: &[u8],
    accepted: &[Vec<u8>],
) {
    let after = gatherings.bytes().to_vec();
    let (reply, written) = gatherings.finish(LONGEST_RECORD);
    gatherings.put(begun);
    for program in accepted {
        assert!(matches!(gatherings.add(program), Reply::Length(_)));
    }
    assert_eq!(gatherings.bytes(), after);
    let (common, count) = folded(table.n, &table.bytes, accepted);
    assert_eq!(count, accepted.len());
    let Some(common) = common else {
        assert_eq!(reply.number(), Some(16));
        return;
    };
    assert_eq!(written, common);
    for program in accepted {
        let Reply::Order(answer) = gatherings.order(program) else {
            panic!("{program:?} was accepted");
        };
        assert!(matches!(answer, order::Order::Same | order::Order::Under));
    }
    let mut turned = accepted.to_vec();
    random.shuffle(&mut turned);
    gatherings.put(begun);
    let all = turned
        .iter()
        .all(|program| matches!(gatherings.add(program), Reply::Length(_)));
    if all {
        assert_eq!(gatherings.finish(LONGEST_RECORD).1, common);
    }
    gatherings.put(&after);
}

/// Begins a gathering in bytes that are too few, enough or more; whether it is begun.
fn begin(gatherings: &mut Gatherings, random: &mut Xorshift, table: &TableBytes) -> bool {
    // A table that is refused may state any n.
    let enough = bytes_for(table.n.min(MOST_TYPES));
    let less = random.pick(enough);
    let more = enough + random.between(1, 99);
    for room in [0, less, enough - 1] {
        gatherings.lend(room);
        assert!(gatherings.begin(table).number().is_some());
    }
    gatherings.lend(*random.choose(&[enough, more, LONGEST_GATHERING]));
    gatherings.begin(table).number().is_none()
}

fn compare_mixtures(seed: u64, ranges: Ranges) {
    let mut gatherings = Gatherings::new(seed);
    let random = &mut Xorshift::stored(seed + 1);
    for _ in 0..1_000 {
        let table = match random.chance(1, 4) {
            true => random::damaged_table(random),
            false => random::valid_table(random),
        };
        if !begin(&mut gatherings, random, &table) {
            continue;
        }
        let begun = gatherings.bytes().to_vec();
        let shape = match random.pick(20) {
            0 => Shape::large(random),
            1 | 2 => Shape::any(random),
            _ => Shape::small(random, 9, 4),
        };
        let shape = shape.ranged(random, ranges);
        let programs = Programs::new(random, &table, shape, ranges);
        let count = random.between(1, 20);
        let accepted = mix(&mut gatherings, random, count, |random| {
            programs.draw(random, &table)
        });
        check_accepted(&mut gatherings, random, &table, &begun, &accepted);
    }
    gatherings.begun.assert_replies(&[0, 1, 2, 3, 8], 5);
    gatherings.added.assert_replies(&[0, 4, 5, 6, 7, 11], 10);
    gatherings.added.assert_only_side(0);
    gatherings.ordered.assert_replies(&[4, 5, 6, 7, 16], 5);
    gatherings.ordered.assert_only_side(0);
    gatherings.ordered.assert_answers(15);
    gatherings.finished.assert_replies(&[0, 8, 16], 300);
}

#[test]
fn random_mixtures() {
    compare_mixtures(301, Ranges::Absent);
}

#[test]
fn random_mixtures_with_ranges() {
    compare_mixtures(303, Ranges::Present);
}

/// Programs of many nodes, whose common part is often too large; additions after a refusal
/// go on.
#[test]
fn large_programs_with_refusals_on_the_way() {
    let mut gatherings = Gatherings::new(305);
    let random = &mut Xorshift::stored(306);
    for round in 0..60 {
        let ranges = [Ranges::Absent, Ranges::Present][round % 2];
        let table = random::valid_table(random);
        gatherings.lend(bytes_for(table.n));
        gatherings.begin(&table);
        let begun = gatherings.bytes().to_vec();
        let shape = Shape::large(random).ranged(random, ranges);
        let first = random::graph(random, table.n, &shape);
        let accepted = mix(&mut gatherings, random, 10, |random| {
            let graph = match random.chance(1, 2) {
                true => random::graph(random, table.n, &shape),
                false => random::graph_above(random, &table.accepted(), &first),
            };
            random::record_of(random, &graph, ranges)
        });
        check_accepted(&mut gatherings, random, &table, &begun, &accepted);
    }
    gatherings.added.assert_replies(&[0, 11], 15);
    gatherings.ordered.assert_replies(&[16], 5);
    gatherings.finished.assert_replies(&[0, 8, 16], 15);
}

/// A state with anything in any of its parts.
fn damaged_state(random: &mut Xorshift, ranges: Ranges) -> (TableBytes, Vec<u8>) {
    let table = match random.chance(1, 4) {
        true => random::damaged_table(random),
        false => random::valid_table(random),
    };
    let n = table.n.clamp(2, MOST_TYPES);
    let part = match random.pick(5) {
        0 => Vec::new(),
        1 | 2 => random::damaged_record(random, n, ranges),
        _ => random::valid_record(random, n, ranges),
    };
    let length = match random.pick(8) {
        0 => random.pick(1 << 16),
        1 => part.len() + 1,
        _ => part.len(),
    };
    let head = [table.n as u8];
    let length = [length as u8, (length >> 8) as u8];
    let behind: Vec<u8> = (0..random.pick(300)).map(|_| random.byte()).collect();
    let mut state = [&head[..], &table.bytes, &length, &part, &behind].concat();
    match random.pick(8) {
        0 => state.truncate(random.pick(state.len() + 1)),
        // Inside the two bytes of the length, or right behind them.
        1 => state.truncate(1 + table.bytes.len() + random.pick(4)),
        2 => {
            let place = random.pick(state.len());
            state[place] = random.byte();
        }
        3 => state[0] = random.byte(),
        4 if random.chance(1, 3) => state.clear(),
        5 if random.chance(1, 3) => {
            state = (0..random.pick(60)).map(|_| random.byte()).collect();
        }
        _ => {}
    }
    (table, state)
}

fn compare_damaged(seed: u64, ranges: Ranges) {
    let mut gatherings = Gatherings::new(seed);
    let random = &mut Xorshift::stored(seed + 1);
    for _ in 0..4_000 {
        let (table, state) = damaged_state(random, ranges);
        gatherings.put(&state);
        let n = table.n.clamp(2, MOST_TYPES);
        for _ in 0..3 {
            let program = match random.chance(1, 6) {
                true => random::damaged_record(random, n, ranges),
                false => random::valid_record(random, n, ranges),
            };
            gatherings.order(&program);
            finish_in_every_room(&mut gatherings, random);
            gatherings.add(&program);
        }
    }
    let faults = [4, 5, 6, 7];
    let by_table_and_graphs = [1, 2, 3, 4, 5, 6, 7];
    let all = |others: &[usize]| [&by_table_and_graphs, others].concat();
    gatherings.added.assert_replies(&all(&[0, 8]), 15);
    gatherings.added.assert_sides(&faults, 15);
    gatherings.ordered.assert_replies(&all(&[16]), 15);
    gatherings.ordered.assert_sides(&faults, 15);
    gatherings.ordered.assert_answers(15);
    gatherings.finished.assert_replies(&all(&[0, 8, 16]), 15);
    gatherings.finished.assert_only_side(1);
}

#[test]
fn states_that_nobody_began() {
    compare_damaged(307, Ranges::Absent);
}

#[test]
fn states_that_nobody_began_with_ranges() {
    compare_damaged(309, Ranges::Present);
}

/// Every cut of a state, and every byte of its used ones changed.
#[test]
fn every_cut_and_every_changed_byte() {
    let table = random::diamond();
    let mut gatherings = Gatherings::new(311);
    let lone = record::write(&random::chain_graph(1, 0, 1));
    let chain = record::write(&random::chain_graph(2, 0, 2));
    gatherings.lend(bytes_for(table.n));
    gatherings.begin(&table);
    gatherings.add(&chain);
    let state = gatherings.bytes().to_vec();
    let used = 3 + 8 * table.n + chain.len();
    let mut check = |state: &[u8]| {
        gatherings.put(state);
        gatherings.order(&lone);
        gatherings.finish(LONGEST_RECORD);
        gatherings.finish(9);
        gatherings.add(&lone);
    };
    for length in 0..used + 3 {
        check(&state[..length]);
    }
    for place in 0..used {
        for byte in 0..=255 {
            let mut changed = state.clone();
            changed[place] = byte;
            check(&changed);
        }
    }
}

/// The type that owns its bytes gives what the calls on lent bytes give.
#[test]
fn a_gathering_of_its_own() {
    let table = random::diamond();
    let [one, two, top] = [1, 2, 3].map(|kind| record::write(&random::chain_graph(2, 5, kind)));
    let mut output = [0; LONGEST_RECORD];
    let mut gathering = Gathering::begin(table.n, &table.bytes).expect("a table");
    assert_eq!(gathering.finish(&mut output), Err(Refusal::NothingGathered));
    assert_eq!(gathering.order(&one), Err(Refusal::NothingGathered));
    assert_eq!(Refusal::NothingGathered.number(), 16);
    assert_eq!(gathering.add(&one), Ok(one.len()));
    let before = gathering.clone();
    assert!(gathering.add(&one[1..]).is_err());
    assert_eq!(gathering, before);
    assert_eq!(gathering.order(&top), Ok(Order::Above));
    assert_eq!(gathering.add(&two), Ok(top.len()));
    assert_eq!(gathering.order(&top), Ok(Order::Same));
    assert_eq!(gathering.finish(&mut output[..3]), Err(Refusal::NoRoom));
    assert_eq!(gathering.finish(&mut output), Ok(top.len()));
    assert_eq!(output[..top.len()], top);
    let refused = Gathering::begin(5, &table.bytes).expect_err("four types");
    assert_eq!(refused.number(), 1);
}

/// The largest programs, with a range at every node, on a thread with the stack that is
/// stated.
#[test]
fn the_largest_programs_need_little_stack() {
    let table = random::diamond();
    let mut graph = random::ladder(MOST_NODES, &[0, 9, 18, 27, 36, 45, 54, 63], 3);
    for node in &mut graph.nodes {
        node.label.range.highest = 100;
    }
    let program = record::write(&graph);
    let length = program.len();
    let written = on_stated_stack(|| {
        let mut gathering = Gathering::begin(table.n, &table.bytes).expect("a table");
        assert_eq!(gathering.add(&program), Ok(length));
        assert_eq!(gathering.add(&program), Ok(length));
        assert_eq!(gathering.order(&program), Ok(Order::Same));
        let mut output = vec![0; LONGEST_RECORD];
        assert_eq!(gathering.finish(&mut output), Ok(length));
        output.truncate(length);
        output
    });
    assert_eq!(written, program);
}
