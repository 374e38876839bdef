//! Random and well-known type tables: lattices of several kinds, orders that may be no
//! lattices, and damaged tables.

use super::Xorshift;
use crate::table::{MOST_TYPES, Table};
use std::collections::BTreeSet;

/// A table as a call takes it: n and the bytes.
#[derive(Clone, Debug, PartialEq, Eq)]
pub struct TableBytes {
    /// The number of types as given.
    pub n: usize,
    /// The rows.
    pub bytes: Vec<u8>,
}

impl TableBytes {
    /// The table in which `below(j, i)` tells whether bit j of row i is set.
    pub fn of_relation(n: usize, below: impl Fn(usize, usize) -> bool) -> TableBytes {
        let mut bytes = vec![0; 8 * n];
        for i in 0..n {
            for j in 0..n {
                if below(j, i) {
                    bytes[8 * i + j / 8] |= 1 << (j % 8);
                }
            }
        }
        TableBytes { n, bytes }
    }

    /// Whether bit j of row i is set. The table has both rows.
    fn has_below(&self, j: usize, i: usize) -> bool {
        self.bytes[8 * i + j / 8] >> (j % 8) & 1 == 1
    }

    /// The accepted table. Panics if the table is not accepted.
    pub fn accepted(&self) -> Table {
        Table::accept(self.n, &self.bytes).expect("a table that is accepted")
    }
}

/// The diamond of document 01.
pub fn diamond() -> TableBytes {
    boolean(2)
}

/// n types, each below the next.
pub fn chain(n: usize) -> TableBytes {
    TableBytes::of_relation(n, |j, i| j <= i)
}

/// The boolean lattice of the subsets of so many atoms, at most 6.
pub fn boolean(atoms: usize) -> TableBytes {
    TableBytes::of_relation(1 << atoms, |j, i| j & !i == 0)
}

/// How the types between the least and the greatest are numbered.
#[derive(Clone, Copy, Debug, PartialEq, Eq)]
pub enum Numbering {
    /// A type above another has the greater number.
    Along,
    /// It has the lesser number.
    Against,
    /// In any order.
    Across,
}

impl Numbering {
    /// All of them.
    pub const ALL: [Numbering; 3] = [Numbering::Along, Numbering::Against, Numbering::Across];
}

/// The same types numbered anew, but for the least and the greatest.
pub fn numbered(random: &mut Xorshift, table: &TableBytes, numbering: Numbering) -> TableBytes {
    let mut types: Vec<usize> = (0..table.n).collect();
    let middle = &mut types[1..table.n - 1];
    // A type above another has more types below it.
    middle.sort_by_key(|&i| (0..table.n).filter(|&j| table.has_below(j, i)).count());
    match numbering {
        Numbering::Along => {}
        Numbering::Against => middle.reverse(),
        Numbering::Across => random.shuffle(middle),
    }
    TableBytes::of_relation(table.n, |j, i| table.has_below(types[j], types[i]))
}

/// The lattice of so many middle types, mutually unordered; `middles(3)` is M3.
pub fn middles(count: usize) -> TableBytes {
    let n = count + 2;
    TableBytes::of_relation(n, |j, i| j == i || j == 0 || i == n - 1)
}

/// The pentagon N5: 1 below 2, and 3 beside both.
pub fn pentagon() -> TableBytes {
    TableBytes::of_relation(5, |j, i| j == i || j == 0 || i == 4 || (j, i) == (1, 2))
}

/// Sets ordered by inclusion, the least first, the greatest last, the others in any order.
fn of_sets(random: &mut Xorshift, sets: &BTreeSet<u64>) -> TableBytes {
    let mut sets: Vec<u64> = sets.iter().copied().collect();
    sets.sort_by_key(|set| set.count_ones());
    let last = sets.len() - 1;
    random.shuffle(&mut sets[1..last]);
    TableBytes::of_relation(sets.len(), |j, i| sets[j] & !sets[i] == 0)
}

/// A distributive lattice, so one that admits differences: the down-sets of a
/// random order on a few points.
pub fn distributive(random: &mut Xorshift) -> TableBytes {
    loop {
        let points = random.between(1, 6);
        // A random relation from lower to higher points, closed transitively.
        let mut down: Vec<u64> = (0..points).map(|point| 1 << point).collect();
        let density = random.between(0, 4);
        for high in 0..points {
            for low in 0..high {
                if random.chance(density, 6) {
                    down[high] |= down[low];
                }
            }
        }
        let is_down_set =
            |set: u64| (0..points).all(|point| set >> point & 1 == 0 || down[point] & !set == 0);
        let sets: BTreeSet<u64> = (0..1 << points).filter(|&set| is_down_set(set)).collect();
        if (2..=MOST_TYPES).contains(&sets.len()) {
            return of_sets(random, &sets);
        }
    }
}

/// A lattice that need not be distributive: random sets closed under intersection.
pub fn closure_system(random: &mut Xorshift) -> TableBytes {
    loop {
        let points = random.between(2, 7);
        let whole = (1 << points) - 1;
        let mut sets = BTreeSet::from([whole]);
        for _ in 0..random.between(1, 9) {
            let new = random.word() & whole;
            let meets: Vec<u64> = sets.iter().map(|set| set & new).collect();
            sets.extend(meets);
        }
        if (2..=MOST_TYPES).contains(&sets.len()) {
            return of_sets(random, &sets);
        }
    }
}

/// An order with a least and a greatest type, which need not be a lattice.
pub fn bounded_order(random: &mut Xorshift) -> TableBytes {
    let n = random.between(2, 12);
    let density = random.between(1, 4);
    let mut down: Vec<u64> = (0..n).map(|i| 1 << i | 1).collect();
    for high in 1..n {
        for low in 1..high {
            if high == n - 1 || random.chance(density, 8) {
                down[high] |= down[low];
            }
        }
    }
    TableBytes::of_relation(n, |j, i| down[i] >> j & 1 == 1)
}

/// The table with a new least type below its own, which becomes type 1.
fn lifted(table: &TableBytes) -> TableBytes {
    TableBytes::of_relation(table.n + 1, |j, i| {
        j == 0 || (i > 0 && table.has_below(j - 1, i - 1))
    })
}

/// The six types of Paper 6: 2, 3 and 4 above 1, mutually unordered.
pub fn three_over_one() -> TableBytes {
    lifted(&middles(3))
}

/// A table that does not admit differences. Its least types but 0 are below much of
/// the rest, so that a node of such a type often has no wanted type.
pub fn rival_table(random: &mut Xorshift) -> TableBytes {
    loop {
        let table = match random.pick(8) {
            0 => large_rival_table(random),
            1 => three_over_one(),
            2 => lifted(&middles(random.between(3, 6))),
            3 | 4 => closure_system(random),
            _ => match closure_system(random) {
                table if table.n < MOST_TYPES => lifted(&table),
                table => table,
            },
        };
        if !table.accepted().admits_differences() {
            return table;
        }
    }
}

/// 64 types that do not admit differences, numbered in any order between the least
/// two and the greatest: random sets closed under intersection, and a new least.
pub fn large_rival_table(random: &mut Xorshift) -> TableBytes {
    loop {
        let whole = (1 << 9) - 1;
        let mut sets = BTreeSet::from([0, whole]);
        for _ in 0..400 {
            let new = random.word() & random.word() & whole;
            let mut more = sets.clone();
            more.extend(sets.iter().map(|set| set & new));
            if more.len() < MOST_TYPES {
                sets = more;
            }
        }
        if sets.len() == MOST_TYPES - 1 {
            let table = lifted(&of_sets(random, &sets));
            if !table.accepted().admits_differences() {
                return table;
            }
        }
    }
}

/// A table that is accepted.
pub fn valid_table(random: &mut Xorshift) -> TableBytes {
    match random.pick(9) {
        0 => diamond(),
        1 => {
            let n = random.between(2, 8);
            chain(n)
        }
        2 => {
            let atoms = random.between(1, 4);
            boolean(atoms)
        }
        3 => {
            let count = random.between(3, 5);
            middles(count)
        }
        4 if random.chance(1, 2) => three_over_one(),
        4 => pentagon(),
        5 if random.chance(1, 8) => chain(MOST_TYPES),
        5 if random.chance(1, 8) => boolean(6),
        5 | 6 => closure_system(random),
        _ => distributive(random),
    }
}

/// A table that admits differences.
pub fn brouwer_table(random: &mut Xorshift) -> TableBytes {
    loop {
        let table = valid_table(random);
        if table.accepted().admits_differences() {
            return table;
        }
    }
}

/// A table that is probably, but not surely, refused.
pub fn damaged_table(random: &mut Xorshift) -> TableBytes {
    let mut table = valid_table(random);
    match random.pick(10) {
        0 => table.n = *random.choose(&[0, 1, 65, 66, 255]),
        1 => table.n = random.pick(256),
        2 => {
            let length = random.pick(table.bytes.len());
            table.bytes.truncate(length);
        }
        3 => {
            let more = random.between(1, 9);
            table.bytes.extend((0..more).map(|_| 0));
        }
        4 | 5 => return bounded_order(random),
        // n and the length agree with each other and are out of range.
        6 => {
            table.n = *random.choose(&[0, 1, 65, 70, 255]);
            table.bytes.resize(8 * table.n, 0);
        }
        7 if random.chance(1, 4) => table.bytes.fill_with(|| random.byte()),
        // A bit at n or above.
        7 if table.n < MOST_TYPES => {
            let row = random.pick(table.n);
            let bit = random.between(table.n, MOST_TYPES - 1);
            table.bytes[8 * row + bit / 8] |= 1 << (bit % 8);
        }
        _ => {
            for _ in 0..random.between(1, 3) {
                let row = random.pick(table.n);
                let bit = random.pick(table.n);
                table.bytes[8 * row + bit / 8] ^= 1 << (bit % 8);
            }
        }
    }
    table
}
