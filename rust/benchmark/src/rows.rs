//! A row of the benchmark: one call on one input, by the engine and by the peer.

use crate::inputs::Size;
use record_engine::{LONGEST_RECORD, MOST_LINKS, MOST_NODES, STORE_LENGTH};

/// One row.
pub struct Row {
    /// The call.
    pub call: &'static str,
    /// The table and whether nodes have ranges.
    pub types: String,
    /// How large the graphs are.
    pub size: Size,
    /// The call by the engine and by the peer.
    pub works: [Work; 2],
}

/// A call on lent buffers, which gives its answer as a number.
pub type Work = Box<dyn Fn(&mut Lent) -> usize + Send + Sync>;

impl Row {
    /// The name of the row, by which words pick it.
    pub fn name(&self) -> String {
        format!("{}, {}, {}", self.call, self.types, self.size.name)
    }

    /// Checks that the engine and the peer give the same answer, and leave the same bytes in all
    /// lent buffers.
    pub fn check(&self) {
        let [engine, peer] = self.works.each_ref().map(|work| {
            let mut lent = Lent::new();
            (work(&mut lent), lent.bytes())
        });
        assert!(engine == peer, "{}: {} {}", self.name(), engine.0, peer.0);
    }
}

/// The buffers that are lent to a call. They are long enough for every result.
pub struct Lent {
    /// For a record.
    pub output: Vec<u8>,
    /// For reasons, or for the bytes of nodes.
    pub beside: Vec<u8>,
    /// A gathering or a store.
    pub state: Vec<u8>,
    /// For rows of the engine and of the peer.
    pub engine_rows: Vec<record_engine::Row>,
    pub peer_rows: Vec<peer::Row>,
}

impl Lent {
    pub fn new() -> Lent {
        Lent {
            output: vec![0; LONGEST_RECORD],
            beside: vec![0; MOST_LINKS.max(3 * MOST_NODES)],
            state: vec![0; STORE_LENGTH],
            engine_rows: vec![Default::default(); MOST_LINKS],
            peer_rows: vec![Default::default(); MOST_LINKS],
        }
    }

    /// All bytes of the buffers. One of the two kinds of rows is not changed by a call.
    fn bytes(&self) -> Vec<u8> {
        let engine = self.engine_rows.iter();
        let engine = engine.map(|row| [row.parent, row.feature, row.target]);
        let peer = self.peer_rows.iter();
        let peer = peer.map(|row| [row.parent, row.feature, row.target]);
        let rows = engine.zip(peer);
        let rows = rows.flat_map(|(a, b)| [a[0] | b[0], a[1] | b[1], a[2] | b[2]]);
        let bytes = [&self.output[..], &self.beside, &self.state].concat();
        bytes.into_iter().chain(rows).collect()
    }
}

/// What a call answers, as a number.
pub trait Answer {
    fn number(self) -> usize;
}

impl Answer for () {
    fn number(self) -> usize {
        0
    }
}

impl Answer for usize {
    fn number(self) -> usize {
        self
    }
}

impl Answer for Option<usize> {
    fn number(self) -> usize {
        self.unwrap_or(usize::MAX)
    }
}

impl Answer for record_engine::Order {
    fn number(self) -> usize {
        self as usize
    }
}

impl Answer for peer::Order {
    fn number(self) -> usize {
        self as usize
    }
}

impl Answer for record_engine::Counts {
    fn number(self) -> usize {
        self.nodes << 16 | self.rows
    }
}

impl Answer for peer::Counts {
    fn number(self) -> usize {
        self.nodes << 16 | self.rows
    }
}

/// The number that a call answers; no measured call is refused.
pub fn answer<T: Answer, E>(result: Result<T, E>) -> usize {
    match result {
        Ok(answer) => answer.number(),
        Err(_) => panic!("a measured call is refused"),
    }
}

/// A call of both libraries, which have the same names and parameters. It takes the input, which is
/// an `Arc`, the names of the input and of the lent buffers in the call, and the call.
macro_rules! works {
    ($input:expr, |$x:ident, $lent:ident| $call:ident($($argument:expr),*)) => {
        $crate::rows::works!($input, |$x, $lent|
            record_engine::$call($($argument),*), peer::$call($($argument),*))
    };
    ($input:expr, |$x:ident, $lent:ident| $engine:expr, $peer:expr) => {{
        let [one, two] = [$input.clone(), $input.clone()];
        let engine: $crate::rows::Work = Box::new(move |$lent| {
            let $x = &*one;
            $crate::rows::answer($engine)
        });
        let peer: $crate::rows::Work = Box::new(move |$lent| {
            let $x = &*two;
            $crate::rows::answer($peer)
        });
        [engine, peer]
    }};
}

pub(crate) use works;
