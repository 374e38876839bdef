//! Compares the proved engine with the reference. Both get the same call on the same bytes.
//! They have to give the same reply and the same output, and may change no byte around it.

#![warn(missing_docs)]

mod calls;
pub mod cases;
mod counts;
mod gathering;
mod lent;
pub mod program;
mod rows;
mod stack;
mod store;
mod told;

pub use calls::{Call, DIFFERENCE, GENERALIZE, ORDER, REWRITE, UNIFY};
pub use calls::{DIFFERENCE_BY, DIFFERENCE_EXPLAINED, DIFFERENCE_EXPLAINED_BY};
pub use calls::{GENERALIZE_APPROPRIATE, REWRITE_APPROPRIATE, UNIFY_APPROPRIATE};
pub use calls::{NEXT, number};

pub use gathering::Gatherings;
pub use rows::PlanningTables;
pub use stack::{on_stated_stack, stack_taken};
pub use store::Stores;
pub use told::Told;

use counts::Counts;
use lent::{Lent, outputs};
use reference::random::{self, Ranges, Shape, TableBytes, Xorshift};
use reference::record;
use reference::reply::Reply;

/// Both engines at one call, and how often each reply came.
pub struct Comparison {
    call: Call,
    random: Xorshift,
    inputs: usize,
    counts: Counts,
    /// The number of reasons, by their bytes.
    reasons: [usize; 4],
}

impl Comparison {
    /// A comparison of one call. The seed decides what the lent outputs hold.
    pub fn new(call: Call, seed: u64) -> Comparison {
        Comparison {
            call,
            random: Xorshift::stored(seed),
            inputs: 0,
            counts: Counts::default(),
            reasons: [0; 4],
        }
    }

    /// The reply to an input when each output has enough room. The call is also made with
    /// outputs of no bytes and of any length. If there is a result, the call is also made with
    /// outputs that are exactly long enough, too short by one byte, each alone and together, and
    /// longer.
    pub fn check(&mut self, table: &TableBytes, records: &[&[u8]]) -> Reply {
        self.inputs += 1;
        let outputs = self.call.outputs;
        let longest = self.longest();
        let (reply, lent) = self.make(table, records, &longest);
        self.check_plain(table, records, reply, &lent);
        let none = vec![0; outputs.len()];
        let any: Vec<usize> = longest.iter().map(|&most| self.random.pick(most)).collect();
        let length = match reply {
            Reply::Length(length) => length,
            Reply::Order(_) | Reply::Counts { .. } => return reply,
            Reply::End | Reply::Refused(_) => {
                for rooms in [none, any] {
                    assert_eq!(self.make(table, records, &rooms).0, reply);
                }
                return reply;
            }
        };
        let filled = self.filled(table, &lent, length);
        let more = self.random.between(1, 9);
        let mut lengths = exact_and_short(&filled);
        lengths.push(filled.iter().map(|count| count + more).collect());
        lengths.extend([any, none]);
        for rooms in lengths {
            let short = (0..outputs.len()).find(|&place| rooms[place] < filled[place]);
            let expected = short.map(|place| outputs[place].short);
            let (reply, _) = self.make(table, records, &rooms);
            assert_eq!(reply.number(), expected, "{rooms:?}");
        }
        reply
    }

    /// The reply to an input when each output has enough room, and the record that is written.
    pub fn answer(&mut self, table: &TableBytes, records: &[&[u8]]) -> (Reply, Vec<u8>) {
        let longest = self.longest();
        self.answer_within(table, records, &longest)
    }

    /// The same with outputs of given lengths.
    pub fn answer_within(
        &mut self,
        table: &TableBytes,
        records: &[&[u8]],
        rooms: &[usize],
    ) -> (Reply, Vec<u8>) {
        let (reply, lent) = self.make(table, records, rooms);
        let record = match reply {
            Reply::Length(length) => lent[0].first(length),
            _ => Vec::new(),
        };
        (reply, record)
    }

    fn longest(&self) -> Vec<usize> {
        let outputs = self.call.outputs.iter();
        outputs.map(|output| output.longest).collect()
    }

    /// One call of each engine with outputs of given lengths: the reply, and what the
    /// outputs hold. A refusal and the end of a listing change none of them.
    fn make(
        &mut self,
        table: &TableBytes,
        records: &[&[u8]],
        rooms: &[usize],
    ) -> (Reply, Vec<Lent>) {
        let lent = rooms.iter().map(|&room| Lent::new(&mut self.random, room));
        let before: Vec<Lent> = lent.collect();
        let (mut by_engine, mut by_reference) = (before.clone(), before.clone());
        let engine = (self.call.engine)(table, records, &mut outputs(&mut by_engine));
        let reply = (self.call.reference)(table, records, &mut outputs(&mut by_reference));
        assert_eq!(
            engine,
            reply.into(),
            "outputs of {rooms:?} bytes, {table:?}, the records {records:?}"
        );
        assert!(
            by_engine == by_reference,
            "outputs of {rooms:?} bytes differ: {table:?}, the records {records:?}"
        );
        let unwritten = matches!(reply, Reply::End | Reply::Refused(_));
        assert!(!unwritten || by_engine == before, "{table:?} {records:?}");
        self.counts.count(engine);
        (reply, by_engine)
    }

    /// Checks that the call that writes only the record gives the same reply and the same
    /// record.
    fn check_plain(&self, table: &TableBytes, records: &[&[u8]], reply: Reply, lent: &[Lent]) {
        let Some(plain) = self.call.plain else { return };
        let mut output = vec![0; plain.outputs[0].longest];
        let told = (plain.engine)(table, records, &mut [&mut output]);
        assert_eq!(told, reply.into(), "{table:?} {records:?}");
        if let Reply::Length(length) = reply {
            assert_eq!(output[..length], lent[0].first(length));
        }
    }

    /// How many bytes of each output are written, if the record has this length. The second
    /// output has a reason for each link of the record.
    fn filled(&mut self, table: &TableBytes, lent: &[Lent], length: usize) -> Vec<usize> {
        let [output, reasons] = lent else {
            return vec![length];
        };
        let graph = record::read(&table.accepted(), &output.first(length)).expect("a record");
        let count = graph.link_count();
        for byte in reasons.first(count) {
            self.reasons[usize::from(byte)] += 1;
        }
        vec![length, count]
    }

    /// With the stored seeds, each of these replies came at least this often, and no other reply
    /// came; 0 stands for a length.
    pub fn assert_replies(&self, numbers: &[usize], least: usize) {
        self.counts.assert_replies(numbers, least);
    }

    /// With the stored seeds, each of these refusals came at least this often of the first graph
    /// and at least this often of the second.
    pub fn assert_sides(&self, numbers: &[usize], least: usize) {
        self.counts.assert_sides(numbers, least);
    }

    /// With the stored seeds, each of the order's four answers came at least this often.
    pub fn assert_answers(&self, least: usize) {
        self.counts.assert_answers(least);
    }

    /// With the stored seeds, a listing ended at least this often.
    pub fn assert_ends(&self, least: usize) {
        self.counts.assert_ends(least);
    }

    /// With the stored seeds, each of the three reasons came at least this often.
    pub fn assert_reasons(&self, least: usize) {
        let enough = self.reasons[1..].iter().all(|&count| count >= least);
        assert!(enough || !random::is_stored(), "{:?}", self.reasons);
    }
}

/// The lengths given, and every choice of some of them shorter by one.
fn exact_and_short(filled: &[usize]) -> Vec<Vec<usize>> {
    filled.iter().fold(vec![Vec::new()], |chosen, &count| {
        let longer = chosen.iter().flat_map(|rooms| {
            let rooms_with = |room: usize| [&rooms[..], &[room]].concat();
            [count, count.saturating_sub(1)].map(rooms_with)
        });
        longer.collect()
    })
}

/// A comparison of one call on at least the given number of inputs, which are drawn and checked
/// a few at a time. The seed decides what the lent outputs hold, and the next seed decides the
/// inputs.
pub fn compare(
    call: Call,
    seed: u64,
    count: usize,
    mut draw: impl FnMut(&mut Comparison, &mut Xorshift),
) -> Comparison {
    let mut compared = Comparison::new(call, seed);
    let mut random = Xorshift::stored(seed + 1);
    while compared.inputs < count {
        draw(&mut compared, &mut random);
    }
    compared
}

/// A comparison of one call on pairs of records. Most records are small, some have any size, and
/// some are damaged. Some tables are damaged too.
pub fn compare_pairs(call: Call, seed: u64, count: usize, ranges: Ranges) -> Comparison {
    compare(call, seed, count, |compared, random| {
        let table = match random.chance(1, 8) {
            true => random::damaged_table(random),
            false => random::valid_table(random),
        };
        for _ in 0..8 {
            let shape = match random.chance(1, 10) {
                true => Shape::any(random),
                false => Shape::small(random, 9, 4),
            };
            let shape = shape.ranged(random, ranges);
            let [first, second] = random::pair_of_records(random, &table, &shape, ranges);
            compared.check(&table, &[&first, &second]);
        }
    })
}
