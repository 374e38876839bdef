//! A deterministic generator of inputs: type tables, graphs, records, pairs of related graphs,
//! lists of types for features, reading orders, planning tables, stores, and whole `mapcalc`
//! inputs. Inputs are valid or damaged, and have ranges or none. The same seed gives the same
//! inputs on every machine. Nothing here uses the operations on graphs: a graph above another
//! is made by steps that clearly make it more general.

mod graphs;
mod inputs;
mod lists;
mod reading_orders;
mod rows;
mod stores;
mod tables;

pub use graphs::*;
pub use inputs::*;
pub use lists::*;
pub use reading_orders::*;
pub use rows::*;
pub use stores::*;
pub use tables::*;

use std::env;

/// The environment variable that moves the stored seeds of the tests.
const MOVED: &str = "RANDOM_SEED";

/// The number by which the stored seeds are moved.
fn moved() -> u32 {
    env::var(MOVED).map_or(0, |text| match text.parse() {
        Ok(number) => number,
        Err(_) => panic!("{MOVED} is a number below 2^32, not {text}"),
    })
}

/// Whether tests use their stored seeds. With its stored seed, each test meets all cases that
/// it is about. With a moved seed it may miss some.
pub fn is_stored() -> bool {
    moved() == 0
}

/// The generator: xorshift on 64 bits.
#[derive(Clone, Debug)]
pub struct Xorshift {
    state: u64,
}

impl Xorshift {
    /// A generator; different seeds give different sequences.
    pub fn new(seed: u64) -> Xorshift {
        // An odd multiplier and an added constant spread small seeds; the state
        // of xorshift must not be 0.
        let state = seed
            .wrapping_mul(0x9E37_79B9_7F4A_7C15)
            .wrapping_add(0xD1B5_4A32_D192_ED03);
        let mut generator = Xorshift {
            state: state.max(1),
        };
        for _ in 0..8 {
            generator.word();
        }
        generator
    }

    /// The generator of a test, from the seed that is stored with the test. A number in the
    /// environment variable `RANDOM_SEED` moves the seed, so that the inputs are others; 0
    /// does not move it. Prints how to get the same inputs again, which is shown if the test
    /// fails.
    pub fn stored(seed: u64) -> Xorshift {
        let moved = moved();
        println!("stored seed {seed}; the same inputs again by {MOVED}={moved}");
        // Stored seeds are small, so a moved seed is never a stored one.
        Xorshift::new(seed.wrapping_add(u64::from(moved) << 32))
    }

    /// The next 64 bits.
    pub fn word(&mut self) -> u64 {
        self.state ^= self.state << 13;
        self.state ^= self.state >> 7;
        self.state ^= self.state << 17;
        self.state
    }

    /// A number from 0 to `bound` − 1; `bound` is not 0.
    pub fn pick(&mut self, bound: usize) -> usize {
        ((self.word() >> 16) % bound as u64) as usize
    }

    /// A number from `least` to `most`, both included.
    pub fn between(&mut self, least: usize, most: usize) -> usize {
        least + self.pick(most - least + 1)
    }

    /// True `part` times in `whole`.
    pub fn chance(&mut self, part: usize, whole: usize) -> bool {
        self.pick(whole) < part
    }

    /// A byte.
    pub fn byte(&mut self) -> u8 {
        self.pick(256) as u8
    }

    /// One of the items; there is at least one.
    pub fn choose<'a, T>(&mut self, items: &'a [T]) -> &'a T {
        &items[self.pick(items.len())]
    }

    /// Puts the items in any order.
    pub fn shuffle<T>(&mut self, items: &mut [T]) {
        for place in (1..items.len()).rev() {
            items.swap(place, self.pick(place + 1));
        }
    }
}
