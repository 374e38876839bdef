//! Keeps one store by the proved engine and one by the reference, and makes the same calls on both.
//! The replies, and after each call the bytes of all lent buffers, have to be the same.

use crate::counts::Counts;
use crate::lent::Lent;
use crate::told::Told;
use record_engine::{store_drop, store_put, store_read};
use reference::random::{StoreCall, TableBytes, Xorshift};
use reference::reply::Reply;
use reference::store;

/// The bytes of one store, and how often each reply came.
pub struct Stores {
    random: Xorshift,
    /// The bytes of both engines, which are compared after each call.
    state: Lent,
    /// The replies of put.
    pub put: Counts,
    /// The replies of read.
    pub read: Counts,
    /// The replies of drop.
    pub dropped: Counts,
}

impl Stores {
    /// A store without bytes. The seed decides what lent bytes hold.
    pub fn new(seed: u64) -> Stores {
        let mut random = Xorshift::stored(seed);
        let state = Lent::new(&mut random, 0);
        Stores {
            random,
            state,
            put: Counts::default(),
            read: Counts::default(),
            dropped: Counts::default(),
        }
    }

    /// Lends the given number of bytes. The first two are 0, and the others hold anything.
    pub fn empty(&mut self, room: usize) {
        self.state = Lent::new(&mut self.random, room);
        self.state.output().iter_mut().take(2).for_each(|b| *b = 0);
    }

    /// Replaces the bytes of the store.
    pub fn hold(&mut self, bytes: &[u8]) {
        self.state = Lent::holding(&mut self.random, bytes);
    }

    /// The bytes of the store.
    pub fn bytes(&self) -> &[u8] {
        self.state.all()
    }

    /// Makes a call.
    pub fn call(&mut self, table: &TableBytes, call: &StoreCall) -> Reply {
        match call {
            StoreCall::Put(version, record) => self.put(table, *version, record),
            StoreCall::Read(version, room) => self.read(table, *version, *room).0,
            StoreCall::Drop(version) => self.drop(table, *version),
        }
    }

    /// Puts a record as a version.
    pub fn put(&mut self, table: &TableBytes, version: usize, record: &[u8]) -> Reply {
        let (n, bytes) = (table.n, &table.bytes);
        let (reply, told) = self.change(
            |state| store_put(n, bytes, state, version, record).into(),
            |state| store::put(n, bytes, state, version, record),
        );
        self.put.count(told);
        reply
    }

    /// Drops a version.
    pub fn drop(&mut self, table: &TableBytes, version: usize) -> Reply {
        let (n, bytes) = (table.n, &table.bytes);
        let (reply, told) = self.change(
            |state| store_drop(n, bytes, state, version).into(),
            |state| store::drop(n, bytes, state, version),
        );
        self.dropped.count(told);
        reply
    }

    /// Reads a version into an output of the given length. Gives the reply and the record. The
    /// store and the other bytes of the output are unchanged. A refusal changes no byte.
    pub fn read(&mut self, table: &TableBytes, version: usize, room: usize) -> (Reply, Vec<u8>) {
        let (n, bytes) = (table.n, &table.bytes);
        let state = self.state.clone();
        let before = Lent::new(&mut self.random, room);
        let (mut by_engine, mut by_reference) = (before.clone(), before.clone());
        let told = store_read(n, bytes, self.bytes(), version, by_engine.output()).into();
        let context = || format!("{room} bytes for {version} of {:?}, {table:?}", state.all());
        assert!(self.state == state, "{}", context());
        let reply = store::read(n, bytes, self.bytes(), version, by_reference.output());
        assert_eq!(told, reply.into(), "{}", context());
        assert!(by_engine == by_reference, "{}", context());
        let refused = reply.number().is_some();
        assert!(!refused || by_engine == before, "{}", context());
        self.read.count(told);
        let written = match reply {
            Reply::Length(length) => by_engine.first(length),
            _ => Vec::new(),
        };
        (reply, written)
    }

    /// Makes a call of each engine that may change the store. A refusal does not change it, and
    /// the bytes behind the used ones are unchanged.
    fn change(
        &mut self,
        engine: impl FnOnce(&mut [u8]) -> Told,
        reference: impl FnOnce(&mut [u8]) -> Reply,
    ) -> (Reply, Told) {
        let before = self.state.clone();
        let mut by_reference = before.clone();
        let told = engine(self.state.output());
        let reply = reference(by_reference.output());
        assert_eq!(told, reply.into(), "{:?}", before.all());
        assert!(
            self.state == by_reference,
            "{told:?} after {:?}",
            before.all()
        );
        match reply {
            Reply::Length(used) => assert_eq!(self.bytes()[used..], before.all()[used..]),
            _ => assert!(self.state == before, "{told:?} after {:?}", before.all()),
        }
        (reply, told)
    }
}
