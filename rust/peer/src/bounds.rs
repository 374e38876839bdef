//! The meets or the joins of types. If the table is distributive, types are held as sets;
//! otherwise the bound of every two types is looked up.

use crate::Refusal;
use crate::table::{End, Table, bits, search, type_of};

/// Which bounds are asked for: meets or joins.
#[derive(Clone, Copy)]
pub enum Side {
    Meets,
    Joins,
}

/// The meets or the joins. They stay on the stack, as all buffers do.
#[allow(clippy::large_enum_variant)]
pub enum Bounds {
    Sets(Sets),
    /// The bound of every two types.
    Cells([[u8; 64]; 64]),
}

/// Types as sets: a type is held as the set of the irreducible types below or equal to it. The
/// set of a meet is the overlap of the two sets, and the set of a join is their union.
pub struct Sets {
    set: [u64; 64],
    /// The candidates when a set is turned back into a type: for meets the types below each
    /// type, for joins the types above each irreducible type.
    near: [u64; 64],
}

impl Bounds {
    /// A table with the bounds of one side, or 1, 2 or 3.
    pub fn open(n: usize, bytes: &[u8], side: Side) -> Result<(Table, Bounds), Refusal> {
        let table = Table::read(n, bytes)?;
        let bounds = Bounds::of(&table, side)?;
        Ok((table, bounds))
    }

    /// The bounds of a table that is an order, or 3.
    pub fn of(table: &Table, side: Side) -> Result<Bounds, Refusal> {
        let bounds = match Sets::of(table, side) {
            Some(sets) => table.has_bounds().then_some(Bounds::Sets(sets)),
            None => match side {
                Side::Meets => fill(table.n, &table.down, End::High),
                Side::Joins => fill(table.n, &turned(table), End::Low),
            },
        };
        bounds.ok_or(Refusal::of(3))
    }

    /// The meet of two types, if these bounds are meets.
    pub fn meet(&self, a: u8, b: u8) -> u8 {
        let [i, j] = [a, b].map(usize::from);
        match self {
            Bounds::Cells(cells) => cells[i][j],
            Bounds::Sets(sets) => {
                let (x, y) = (sets.set[i], sets.set[j]);
                match x & y {
                    set if set == x => a,
                    set if set == y => b,
                    set => sets.type_of(set, sets.near[i] & sets.near[j], End::High),
                }
            }
        }
    }

    /// The join of two types, if these bounds are joins.
    pub fn join(&self, a: u8, b: u8) -> u8 {
        let [i, j] = [a, b].map(usize::from);
        match self {
            Bounds::Cells(cells) => cells[i][j],
            Bounds::Sets(sets) => {
                let (x, y) = (sets.set[i], sets.set[j]);
                match x | y {
                    set if set == x => a,
                    set if set == y => b,
                    set => {
                        let above = bits(set).fold(u64::MAX, |above, k| above & sets.near[k]);
                        sets.type_of(set, above, End::Low)
                    }
                }
            }
        }
    }
}

impl Sets {
    /// The types as sets, if every irreducible type is prime. An irreducible type is prime if
    /// the types that are not above it are exactly those below some one type.
    fn of(table: &Table, side: Side) -> Option<Sets> {
        let (n, down) = (table.n, &table.down);
        let mut irreducible = 0;
        let mut above = [0; 64];
        for j in 0..n {
            // Type j is irreducible if the types strictly below it are those below one type.
            if type_of(down, down[j] & !(1 << j)).is_some() {
                above[j] = upper(table, j);
                type_of(down, down[n - 1] & !above[j])?;
                irreducible |= 1 << j;
            }
        }
        Some(Sets {
            set: down.map(|word| word & irreducible),
            near: match side {
                Side::Meets => *down,
                Side::Joins => above,
            },
        })
    }

    /// The type with the given set, among the types of a word. There is such a type.
    fn type_of(&self, set: u64, among: u64, first: End) -> u8 {
        let (mut left, mut end) = (among, first);
        loop {
            let bit = end.bit(left);
            if self.set[bit] == set {
                return bit as u8;
            }
            left &= !(1 << bit);
            end = end.other();
        }
    }
}

/// The word of the types above or equal to type j.
fn upper(table: &Table, j: usize) -> u64 {
    let rows = table.down[..table.n].iter().rev();
    rows.fold(0, |word, &row| 2 * word + (row >> j & 1))
}

/// For each type the word of the types above or equal to it.
fn turned(table: &Table) -> [u64; 64] {
    let mut up = [0; 64];
    for (i, &row) in table.down[..table.n].iter().enumerate() {
        for j in bits(row) {
            up[j] |= 1 << i;
        }
    }
    up
}

/// A table with the bound of every two types; none if two types have no bound. Each bound
/// stands in two cells.
#[allow(clippy::needless_range_loop)]
fn fill(n: usize, words: &[u64; 64], end: End) -> Option<Bounds> {
    let mut cells = [[0; 64]; 64];
    for a in 0..n {
        for b in a..n {
            let bound = bound(words, a, b, end)?;
            cells[a][b] = bound;
            cells[b][a] = bound;
        }
    }
    Some(Bounds::Cells(cells))
}

/// The bound of two types, if there is one. The fast paths are the type at the end of the word
/// that the two have in common, a, and b. The common word is not 0, since it has the least type or
/// the greatest.
#[inline(always)]
fn bound(words: &[u64; 64], a: usize, b: usize, end: End) -> Option<u8> {
    let word = words[a] & words[b];
    let bit = end.bit(word);
    if words[bit] == word {
        Some(bit as u8)
    } else if words[a] == word {
        Some(a as u8)
    } else if words[b] == word {
        Some(b as u8)
    } else {
        search(words, word, word & !words[bit], end.other())
    }
}
