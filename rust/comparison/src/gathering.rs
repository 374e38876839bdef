//! Keeps one gathering by the proved engine and one by the reference, and makes the same calls on
//! both. The replies, and after each call the bytes of all lent buffers, have to be the same.

use crate::counts::Counts;
use crate::lent::Lent;
use crate::told::Told;
use record_engine::{gathering_add, gathering_begin, gathering_finish, gathering_order};
use reference::gathering;
use reference::random::{TableBytes, Xorshift};
use reference::reply::Reply;

/// The bytes of one gathering, and how often each reply came.
pub struct Gatherings {
    random: Xorshift,
    /// The bytes of both engines, which are compared after each call.
    state: Lent,
    /// The replies of begin.
    pub begun: Counts,
    /// The replies of add.
    pub added: Counts,
    /// The replies of order.
    pub ordered: Counts,
    /// The replies of finish.
    pub finished: Counts,
}

impl Gatherings {
    /// A gathering without bytes. The seed decides what lent bytes hold.
    pub fn new(seed: u64) -> Gatherings {
        let mut random = Xorshift::stored(seed);
        let state = Lent::new(&mut random, 0);
        Gatherings {
            random,
            state,
            begun: Counts::default(),
            added: Counts::default(),
            ordered: Counts::default(),
            finished: Counts::default(),
        }
    }

    /// Lends the given number of bytes, which hold anything.
    pub fn lend(&mut self, room: usize) {
        self.state = Lent::new(&mut self.random, room);
    }

    /// Replaces the bytes of the gathering.
    pub fn put(&mut self, bytes: &[u8]) {
        self.state = Lent::holding(&mut self.random, bytes);
    }

    /// The bytes of the gathering.
    pub fn bytes(&self) -> &[u8] {
        self.state.all()
    }

    /// Begins a gathering in the bytes that are lent.
    pub fn begin(&mut self, table: &TableBytes) -> Reply {
        let (n, bytes) = (table.n, &table.bytes);
        let (reply, told) = self.change(
            |state| gathering_begin(n, bytes, state).into(),
            |state| gathering::begin(n, bytes, state),
        );
        self.begun.count(told);
        reply
    }

    /// Adds a program.
    pub fn add(&mut self, program: &[u8]) -> Reply {
        let (reply, told) = self.change(
            |state| gathering_add(state, program).into(),
            |state| gathering::add(state, program),
        );
        self.added.count(told);
        reply
    }

    /// The order of a program and the common part. No byte changes.
    pub fn order(&mut self, program: &[u8]) -> Reply {
        let before = self.state.clone();
        let told = gathering_order(self.state.all(), program).into();
        assert!(self.state == before, "an order changed {:?}", before.all());
        let reply = gathering::order(self.state.all(), program);
        assert_eq!(told, reply.into(), "{:?} beside {program:?}", before.all());
        self.ordered.count(told);
        reply
    }

    /// Writes the common part into an output of the given length. The gathering and the other
    /// bytes of the output are unchanged. A refusal changes no byte.
    pub fn finish(&mut self, room: usize) -> (Reply, Vec<u8>) {
        let state = self.state.clone();
        let before = Lent::new(&mut self.random, room);
        let (mut by_engine, mut by_reference) = (before.clone(), before.clone());
        let told = gathering_finish(self.state.all(), by_engine.output()).into();
        assert!(self.state == state, "a finish changed {:?}", state.all());
        let reply = gathering::finish(self.state.all(), by_reference.output());
        assert_eq!(told, reply.into(), "{room} bytes for {:?}", state.all());
        assert!(
            by_engine == by_reference,
            "{room} bytes for {:?}",
            state.all()
        );
        let refused = matches!(reply, Reply::Refused(_));
        assert!(
            !refused || by_engine == before,
            "{room} bytes for {:?}",
            state.all()
        );
        self.finished.count(told);
        let written = match reply {
            Reply::Length(length) => by_engine.first(length),
            _ => Vec::new(),
        };
        (reply, written)
    }

    /// Makes a call of each engine that may change the gathering. A refusal does not change it.
    fn change(
        &mut self,
        engine: impl FnOnce(&mut [u8]) -> Told,
        reference: impl FnOnce(&mut [u8]) -> Reply,
    ) -> (Reply, Told) {
        let before = self.state.clone();
        let mut by_reference = before.clone();
        let told = engine(self.state.output());
        let reply = reference(by_reference.output());
        assert_eq!(told, reply.into(), "{:?}", before.all());
        assert!(
            self.state == by_reference,
            "{told:?} after {:?}",
            before.all()
        );
        let refused = matches!(reply, Reply::Refused(_));
        assert!(
            !refused || self.state == before,
            "{told:?} changed {:?}",
            before.all()
        );
        (reply, told)
    }
}
